# SPDX-License-Identifier: LicenseRef-ours # as agreed
