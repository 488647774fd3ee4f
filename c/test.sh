#!/bin/sh
# Builds the library, and runs the tests of C, of Python and of the install.
set -eu
exec make -C "$(dirname "$0")" --no-print-directory test
