#!/usr/bin/env bash
# Does what the first screen of README.md says, in a folder of its own, and compares what is printed with what stands there:
#   tools/first_steps.sh        by the proved program, which is proved and built first where that isn't done
#   tools/first_steps.sh try    by the program that is built without proof
# It wants the toolchain (rt), node, and acorn and escodegen (Debian: node-acorn, node-escodegen).
set -eu
top=$(cd "$(dirname "$0")/.." && pwd)
for command in rt node acorn; do
  if ! command -v "$command" > /dev/null; then
    echo "first_steps.sh: $command is missing" >&2
    exit 70
  fi
done

# The Nth block of this language in the README.
block() {
  awk -v fence="\`\`\`$1" -v wanted="$2" '/^```/ { if (inside) inside = 0; else if ($0 == fence && ++seen == wanted) { inside = 1; next } } inside' "$top/README.md"
}

room=$(mktemp -d)
trap 'rm -rf "$room"' EXIT
ln -s "$top/shake.sh" "$top/tools" "$room"
cd "$room"
block js 1 > x.mjs
block js 2 > wanted.mjs
steps=$(block sh 1)
if [ "${1-}" = try ]; then
  steps=${steps/shake.sh dce/shake.sh try dce}
fi
echo "$steps" >&2
bash -euo pipefail -c "$steps" > printed.mjs
cat printed.mjs
cmp printed.mjs wanted.mjs
echo "first_steps.sh: what is printed is what README.md shows" >&2
