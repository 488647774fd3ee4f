#!/bin/sh
# Installs the wheel, its only argument, in a fresh virtual environment, runs the tests of the package over what is installed there, from another folder, and types the
# commands of its page.
set -eu
wheel=$(realpath "$1")
repository=$(realpath "$(dirname "$0")/..")
folder=$(mktemp -d)
trap 'rm -rf "$folder"' EXIT
"${PYTHON:-/usr/bin/python3}" -m venv --system-site-packages "$folder/venv"
cd "$folder"
venv/bin/pip install --quiet --no-index --no-deps "$wheel"
venv/bin/python -c 'import sys, tbson; sys.exit(not tbson.__file__.startswith(sys.prefix))'
cp -R "$repository/python/tests" tests
export PATH="$folder/venv/bin:$PATH"
TBSON_INSTALLED=1 venv/bin/python -m pytest -q -W "ignore:make_current is deprecated" --show-capture=no tests
cd "$repository"
python3 tools/type_commands.py python/README.md
echo "test_wheel.sh: $(basename "$wheel") serves in a fresh environment"
