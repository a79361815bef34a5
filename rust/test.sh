#!/usr/bin/env bash
# Builds the static library, then runs the tests of rust/ with it: the reference's own, the library from C, the library against the
# reference, power cuts. The reference's own run a second time with its debug assertions and overflow checks, which a release build
# leaves out. POOL_TESTS=long runs many more cases. The last line is 'N passed, M failed'.
set -u
cd "$(dirname "$0")" || exit 2
unset POOL_C_LIB
(cd ../crates/pool_c && rt lib --cpu x86-64) || { echo '0 passed, 1 failed'; exit 1; }
output=$(mktemp) || exit 2
trap 'rm -f "$output"' EXIT
passed=0
failed=0
# Runs cargo test with these arguments and adds up its results.
run() {
    local status now_passed now_failed
    cargo test --offline --no-fail-fast "$@" -- --show-output 2>&1 | tee "$output"
    status=${PIPESTATUS[0]}
    read -r now_passed now_failed < <(awk '/^test result:/ { passed += $4; failed += $6 } END { print passed + 0, failed + 0 }' "$output")
    # A run that ended badly without a failed test (it did not build, or a test program died), or that ran nothing, is a failure.
    if [ "$now_failed" -eq 0 ] && { [ "$status" -ne 0 ] || [ "$now_passed" -eq 0 ]; }; then now_failed=1; fi
    passed=$((passed + now_passed))
    failed=$((failed + now_failed))
}
run --release
run --package reference
echo "$passed passed, $failed failed"
[ "$failed" -eq 0 ]
