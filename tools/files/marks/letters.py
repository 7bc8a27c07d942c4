# é, SPDX-License-Identifier: MIT OR Foo
