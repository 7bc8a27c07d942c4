// SPDX-License-Identifier: MIT OR (GPL-2.0-or-later WITH Classpath-exception-2.0)
