#!/usr/bin/env bash
# The program, built where it has to be, on these words and standard input; ./shake.sh help lists the verbs.
#   ./shake.sh dce < module.json
set -eu
top=$(cd "$(dirname "$0")" && pwd)
if ! command -v python3 > /dev/null; then
  echo "shake.sh: python3 is missing, with which the toolchain and this script run" >&2
  exit 70
fi
exec python3 "$top/tools/shake.py" "$@"
