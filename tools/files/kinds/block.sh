# SPDX-License-Identifier: MIT
# REUSE-IgnoreStart
echo "SPDX-License-Identifier: Foo"
# REUSE-IgnoreEnd
# SPDX-License-Identifier: Bar
