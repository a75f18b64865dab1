#!/usr/bin/env bash
# The tests of the tools that make fonts, and of the model: tools/test.sh. They need python3 alone; with a C compiler it reads the
# same arrays. One line a test; the exit status is 0 only if all hold.
set -eu
PYTHONDONTWRITEBYTECODE=1 python3 -m unittest discover -v -s "$(dirname "$0")" -p 'test_*.py' 2>&1
