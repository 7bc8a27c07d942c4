<%-- SPDX-License-Identifier: MIT --%>
