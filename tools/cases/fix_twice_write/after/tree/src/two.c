/* SPDX-License-Identifier: GPL-2.0-or-later */
/* SPDX-License-Identifier: (GPL-2.0-only OR MIT) */
