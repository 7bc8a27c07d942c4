#!/bin/sh
# SPDX-License-Identifier: Foo-1.0
