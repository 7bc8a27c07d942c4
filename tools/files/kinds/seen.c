/* SPDX-License-Identifier: MIT # see LICENSE */
