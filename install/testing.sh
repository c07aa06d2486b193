# shellcheck shell=bash disable=SC2154
# What the tests in bash share: install/test, install/test_packages, tools/bindings and tools/peers. `made` is the test's own folder.
passed=0
failed=0
skipped=0

skip() {
    echo "$1: not run: $2"
    skipped=$((skipped + 1))
}

# part NAME COMMAND ..: runs a part, and shows what it prints if it fails
part() {
    local name=$1 status
    shift
    # (not as a condition: there bash ignores set -e)
    (set -e; "$@") >"$made/output" 2>&1
    status=$?
    if [ "$status" = 0 ]; then
        echo "$name: passed"
        passed=$((passed + 1))
    else
        sed 's/^/    /' "$made/output"
        echo "$name: failed"
        failed=$((failed + 1))
    fi
}

# part_with TOOL NAME COMMAND ..: a part that needs a tool
part_with() {
    if command -v "$1" >/dev/null; then part "${@:2}"; else skip "$2" "no $1"; fi
}

# part_if LACKING NAME COMMAND ..: a part where nothing is lacking
part_if() {
    if [ -z "$1" ]; then part "${@:2}"; else skip "$2" "$1"; fi
}

fails() {
    if "$@"; then
        echo "this should have failed: $*" | tee -a "$made/output"
        return 1
    fi
}

# fails_with WORDS COMMAND ..: it fails, and says these words
fails_with() {
    fails "${@:2}" >"$made/said" 2>&1
    says "$1" "$made/said"
}

says() { grep -qF -- "$1" "$2" || { echo "missing: $1"; cat "$2"; return 1; }; }

# Prints the last line, and returns whether no part failed.
counts() {
    echo "$passed passed, $failed failed, $skipped not run"
    [ "$failed" = 0 ]
}
