#!/usr/bin/env bash
# Holds crates/pool_c/out/libpool_c.a (or the archive given) to the table in docs/DEVICE.md, "What the archive needs and takes". Prints what it measures; the last line
# is 'N passed, M failed', a row each. Needs objdump, readelf, nm and python3.
set -u
cd "$(dirname "$0")/.." || exit 2
archive=${1:-crates/pool_c/out/libpool_c.a}
[ -f "$archive" ] || { echo "$archive: not there; rt lib --cpu x86-64 in crates/pool_c makes it"; echo '0 passed, 1 failed'; exit 1; }
code=$(mktemp) || exit 2
trap 'rm -f "$code"' EXIT
objdump -dr --no-show-raw-insn "$archive" > "$code" || { echo '0 passed, 1 failed'; exit 1; }
passed=0
failed=0

# The first number of a cell (2: measured, 3: checked) of the row of that name in docs/DEVICE.md.
stated() { awk -F'|' -v name=" $1 " -v cell="$(($2 + 1))" '$2 == name { gsub(",", "", $cell); match($cell, /[0-9]+/); print substr($cell, RSTART, RLENGTH); exit }' docs/DEVICE.md; }

# A row: its name, whether it holds, what was measured.
row() {
  if [ "$2" = yes ]; then passed=$((passed + 1)); else failed=$((failed + 1)); fi
  printf '%-10s %-4s %s\n' "$1" "$([ "$2" = yes ] && echo ok || echo BAD)" "$3"
}

# Yes if the measured number is at most the checked one of that row, and the one told as measured is within a tenth of it.
within() {
  local told limit
  told=$(stated "$1" 2)
  limit=$(stated "$1" 3)
  if [ -n "$told" ] && [ -n "$limit" ] && [ "$3" -le "$limit" ] && [ $((10 * $2)) -ge $((9 * told)) ] && [ $((10 * $2)) -le $((11 * told)) ]; then echo yes; else echo no; fi
}

# Bytes of the sections whose flags (readelf: A allocated, W written, X run) match a pattern.
bytes() {
  local sum=0 size
  for size in $(readelf -SW "$archive" | sed -n 's/^ *\[ *[0-9]*\] *//p' | awk -v flags="$1" '$NF ~ /^[0-9]+$/ && $7 ~ flags { print $5 }'); do sum=$((sum + 16#$size)); done
  echo "$sum"
}

only() { if [ -z "$1" ]; then echo yes; else echo no; fi; }

other=$(readelf -h "$archive" | grep -E '^ *(Class|Machine):' | grep -vE 'ELF64|X86-64')
row machine "$(only "$other")" "$(readelf -h "$archive" | sed -n 's/^ *Machine: *//p' | sort -u)"

run=$(bytes '^AX$')
constants=$(bytes '^AM?S?$')
row code "$(within code "$run" $((run + constants)))" "$run bytes, and $constants of constants"

row data "$([ "$(bytes W)" -eq 0 ] && echo yes || echo no)" "$(bytes W) bytes"

wanted=$(nm -u "$archive" | awk '$1 == "U" { print $2 }' | sort -u)
row functions "$([ "$(echo $wanted)" = 'memcpy memset' ] && echo yes || echo no)" "$(echo $wanted)"

kinds=$(readelf -rW "$archive" | grep -o 'R_X86_64_[A-Z0-9]*' | sort -u)
row place "$(only "$(echo "$kinds" | grep -vxE 'R_X86_64_(PC32|PLT32)')")" "$(echo $kinds)"

stack=$(python3 tools/stack.py "$archive") || stack="0 bytes: $stack"
most=${stack%% *}
row stack "$([ "$most" -gt 0 ] && within stack "$most" "$most" || echo no)" "$(echo "$stack" | sed -n '1,2p' | tr '\n' ' ')"

others=$(grep -oE '%([yz]mm[0-9]+|mm[0-9]|st\b|k[0-7])' "$code" | sort -u)
row registers "$([ -z "$others" ] && [ "$(grep -oE '%xmm[0-9]+' "$code" | sort -u | wc -l)" -le 16 ] && echo yes || echo no)" \
  "$(grep -oE '%xmm[0-9]+' "$code" | sort -u | wc -l) of SSE2 $(echo $others)"

guards=$(grep -c $'\tud2' "$code")
row ud2 "$([ "$guards" -le "$(stated '`ud2`' 3)" ] && echo yes || echo no)" "$guards places"

echo "$passed passed, $failed failed"
[ "$failed" -eq 0 ]
