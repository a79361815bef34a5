#!/usr/bin/env bash
# Measures a landing, always the same way: every proof from nothing, two crates at a time; with --gate the whole gate before that. Prints a
# page in Markdown; run it on a quiet machine. Usage: tools/measure.sh [--gate]
set -u
cd "$(dirname "$0")/.." || exit 2
log=$(mktemp) || exit 2
trap 'rm -f "$log"' EXIT

lines() { find crates -path "*/$1" -name "$2" -print0 | xargs -0 cat | wc -l; }
minutes() { printf '%d:%02d' $(($1 / 60)) $(($1 % 60)); }

if [ "${1:-}" = --gate ]; then
  began=$(date +%s)
  bash .ci/run > "$log" 2>&1
  gate="$(minutes $(($(date +%s) - began))) min, ended '$(tail -n 1 "$log")'"
fi
began=$(date +%s)
rt all verdict --jobs 2 > "$log" 2>&1 || { tail -n 3 "$log"; exit 1; }
proofs=$(($(date +%s) - began))

echo "| measure | value |"
echo "|---|---|"
echo "| commit | $(git rev-parse --short HEAD) |"
echo "| toolchain | $(rt version) |"
echo "| processors | $(nproc), $(sed -n 's/^model name[^:]*: //p' /proc/cpuinfo | head -n 1) |"
[ -z "${gate:-}" ] || echo "| the gate | $gate |"
echo "| every proof from nothing, two crates at a time | $(minutes $proofs) min |"
echo "| crates | $(grep -cE '^[a-z_0-9]+( staticlib)?:' crates.txt) |"
echo "| must-fail edits | $(find crates -name '*.edit' | wc -l) |"
echo "| lines of code | $(lines 'src/*' '*.rt') |"
echo "| lines of definitions (specs/) | $(lines 'specs/*' '*.antt') |"
echo "| lines of proofs (proofs/) | $(lines 'proofs/*' '*.antt') |"
