# What the scripts that try the program as a process have in common; they load it, with the program as their word.
#
# Without a word it takes ./mgdb, which builds what is missing.
. "$(dirname "$(readlink -f "${BASH_SOURCE[0]}")")/checks.sh"
mgdb=$(readlink -f "${1:-$here/mgdb}")
[ -x "$mgdb" ] || { echo "no program at $mgdb"; echo '0 passed, 1 failed'; exit 1; }
cd "$work" || exit 1

# run FILE SCRIPT [OPTION..]: what a run printed, and its status behind it.
run() {
    local file=$1 script=$2
    shift 2
    printf '%b' "$script" | "$mgdb" run "$file" "$@"
    echo "status $?"
}

sum() { cksum < "$1"; }
size() { stat -c %s "$1"; }

# A database with one row, to begin from.
fresh() {
    rm -rf "$1"
    run "$1" '@put 1 10\n' > /dev/null
}
