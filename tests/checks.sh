# What the scripts of tests/ that count checks have in common; they load it.
#
# Each works in a folder of its own, prints a check that fails, and tells at its end how many there were; where one failed
# it ends with 1, and its last line is 'N passed, M failed', which the gate's reader takes in place of that of rt ci.
here=$(cd "$(dirname "$(readlink -f "${BASH_SOURCE[0]}")")/.." && pwd)
work=$(cd "$(mktemp -d)" && pwd -P)
trap 'rm -rf "$work"' EXIT
passed=0
failed=0

# check NAME WANTED GIVEN
check() {
    if [ "$2" == "$3" ]; then
        passed=$((passed + 1))
    else
        failed=$((failed + 1))
        printf 'FAILED: %s\nwanted: %s\ngiven: %s\n' "$1" "$2" "$3"
    fi
}

# finish NAME: the last line, and the end.
finish() {
    if [ "$failed" -gt 0 ]; then
        echo "$passed passed, $failed failed"
        exit 1
    fi
    echo "$1: each of $passed checks is as it has to be"
}
