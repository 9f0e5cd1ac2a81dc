#!/usr/bin/env bash
# What the program asks of the system for its file: in which order, what it does where the system refuses, and what where
# another hand changes the file meanwhile. No proof can look there: that the few lines which read, write, sync and lock the
# file do so is trusted, and so it is tried here.
#
# usage: tests/traced-files.sh [PROGRAM]
#
# .ci/run calls it behind tests/real-files.sh. It runs the program under strace, which it installs where it is missing, and
# tests/trace.py reads what strace writes. strace can also refuse a call in the system's place, or stop the process at one.
#
# Its files are in memory where there is a file system for that: how long a sync takes is no matter here.
[ -w /dev/shm ] && export TMPDIR=/dev/shm
. "$(dirname "$(readlink -f "$0")")/program.sh"

# The tracer is there, or is installed, and may trace.
has_tracer() {
    command -v strace > /dev/null || {
        timeout 120 apt-get update && timeout 120 apt-get install -y strace
    } > tracer.log 2>&1
    strace -o /dev/null true 2>> tracer.log
}

# traced FILE SCRIPT OPTION.. [-- WORD..]: a run of the script under strace with these options, and with these words behind
# the file. What it printed, and its status behind it; its calls are then in the file trace.
traced() {
    local file=$1 script=$2 options=()
    shift 2
    while [ $# -gt 0 ] && [ "$1" != -- ]; do options+=("$1"); shift; done
    shift
    printf '%b' "$script" | strace -y -s 200 -o trace "${options[@]}" "$mgdb" run "$file" "$@"
    echo "status $?"
}

# reading FILE new|old TRACE..: what the reader says of these traces of runs on the file.
reading() { "$here/tests/trace.py" "$work/$1" "${@:2}"; }

# How many page writes there are in the trace of a run on the new file.
page_writes() { reading "$1" new trace | sed -n 's/ page writes.*//p'; }

# check_calls NAME FILE TRACE..: that each of these runs on a new file did with it what it has to.
check_calls() {
    local told
    told=$(reading "$2" new "${@:3}")
    check "calls: $1" "$(tail -n 1 <<< "$told")" "$told"
}

# A run of several commits, on two tables, of which one is taken back in part. Its lines are answered OK, but for one.
mixed='@put 1 10\nA: SET TRANSACTION\nA: CREATE TABLE T (ID BIGINT PRIMARY KEY, N VARCHAR(9))\n'
mixed+="A: INSERT INTO T VALUES (1, 'one')\nA: SAVEPOINT S\nA: INSERT INTO T VALUES (2, 'two')\nA: ROLLBACK TO S\nA: COMMIT\n"
mixed+='@put 2 20\nB: SET TRANSACTION\nB: UPDATE KV SET V = 11 WHERE K = 1\nB: ROLLBACK\n@get 1\n@put 1 12\n'

# ---- the order of the calls

# Each page write is synced before the next one and before a line is printed; what was there at the opening is synced; so is
# the folder of a new file. As many page writes are seen as --stop counts.
orders() {
    local bytes kind given told writes
    for bytes in 1024 4096 16384; do
        rm -f order
        for kind in new old; do
            given=$(traced order "$mixed" -- --page "$bytes")
            told=$(reading order "$kind" trace)
            writes=${told##*$'\n'} writes=${writes%% *}
            [ "$kind" == new ] && passes=$writes
            check "calls on a file that is $kind, $bytes bytes a page" "$writes page writes, $(grep -vc status <<< "$given") lines" "$told"
            check 'a trace that is tampered with is refused' 'some were tried' \
                "$("$here/tests/trace.py" --tampered "$work/order" "$kind" trace)"
        done
        rm -f order
        check "$passes page writes are enough" 'status 0' "$(run order "$mixed" --page "$bytes" --stop "$passes" | tail -n 1)"
        rm -f order
        check 'and no less are' 'status 3' "$(run order "$mixed" --page "$bytes" --stop $((passes - 1)) | tail -n 1)"
    done
}

# A new file that a link leads to is in another folder than the link: that one is synced.
linked() {
    mkdir far
    ln -s far/linked link
    check 'a link to a new file' $'@put: OK TX 1\nstatus 0' "$(traced link '@put 1 1\n')"
    check_calls 'a link to a new file' far/linked trace
}

# ---- calls that the system refuses

# What is left of a run of puts 1, 2, .. that stopped: the last one that was answered OK, or the one behind it.
check_left() {
    local name=$1 file=$2 given=$3 answered held
    answered=$(grep -c '^@put: OK' <<< "$given")
    held=$(run "$file" '@get 1\n' | sed -n 's/^@get: //p')
    [ "$held" == $((answered + 1)) ] && answered=$held
    [ "$answered" == 0 ] && answered=NONE
    check "what is left: $name" "$answered" "$held"
}

# Each sync and each page write of a run is refused once: the run tells it, does nothing more with the file, and what it
# acknowledged is there.
refusals() {
    local puts='@put 1 1\n@put 1 2\n' call error n given name
    for call in fdatasync:EIO pwrite64:ENOSPC; do
        error=${call#*:} call=${call%:*}
        for n in $(seq 1 60); do
            rm -f refused
            given=$(traced refused "$puts" -e "inject=$call:error=$error:when=$n")
            [ "${given##*$'\n'}" == 'status 0' ] && break
            name="$call number $n is refused"
            check "$name" $'DISK WRITE FAULT\nstatus 3' "$(tail -n 2 <<< "$given" | sed 's/^[@a-z]*: //')"
            mv trace "refused.$call.$n"
            check_left "$name" refused "$given"
        done
        check_calls "where $call is refused" refused refused."$call".*
        check "each $call of the run was refused once, which are some" 'yes' "$([ "$n" -gt 10 ] && [ "$n" -lt 60 ] && echo yes)"
    done
    check 'the folder cannot be synced' $'mgdb: DISK READ FAULT\nstatus 3' "$(traced unnamed '@put 1 1\n' -e inject=fsync:error=EIO)"
    check 'then no new file stays' 'no' "$([ -e unnamed ] && echo yes || echo no)"
    fresh unread
    check 'a page cannot be read' $'mgdb: DISK READ FAULT\nstatus 3' "$(traced unread '@get 1\n' -P "$work/unread" -e inject=pread64:error=EIO:when=2)"
}

# The last page write of a run is cut short by the system, which has written nothing of what it says: the rest of the page
# is written, and the file is that of a run that was not hindered, but for those bytes.
short_writes() {
    local script='@put 1 1\n@put 1 2\n' writes start
    rm -f whole short
    traced whole "$script" > /dev/null
    writes=$(page_writes whole)
    start=$(grep '^pwrite64' trace | tail -n 1 | sed 's/.*, \([0-9]*\)) *= .*/\1/')
    check 'a short write' "$(traced short "$script")" "$(rm -f short; traced short "$script" -e "inject=pwrite64:retval=512:when=$writes")"
    check_calls 'a short write' short trace
    check 'is gone on with' '' "$(cmp -l whole short | awk -v from="$start" '$1 <= from || $1 > from + 512')"
    check 'and was short' 'yes' "$(cmp -s whole short || echo yes)"
}

# ---- while a run is stopped

# begin FILE SCRIPT CALL N: begins a run that is stopped at its N-th call CALL on the file, and waits until it is.
begin() {
    printf '%b' "$2" > begun.script
    : > begun.trace
    strace -D -o begun.trace -P "$work/$1" -e "inject=$3:signal=SIGSTOP:when=$4" "$mgdb" run "$1" < begun.script > begun.out &
    begun=$!
    for _ in $(seq 1 2000); do
        grep -q 'stopped by SIGSTOP' begun.trace && return
        kill -0 "$begun" 2> /dev/null || break
        sleep 0.01
    done
    check "a run is stopped at $3 number $4" yes no
}

# end: lets it go on to its end; `ended` is then its last line, and its status behind it.
end() {
    kill -CONT "$begun"
    wait "$begun"
    ended="status $?"
    ended="$(tail -n 1 begun.out)"$'\n'"$ended"
}

# Another hand changes the length of the file while a run works on it, between two page writes of a put: the run writes
# nothing more.
changed_lengths() {
    local puts length left
    puts=$(for n in $(seq 1 60); do printf '@put 1 %s\\n' "$n"; done)
    for length in -4096 -1 +1 +4096 0; do
        fresh changed
        begin changed "$puts" fdatasync 41
        truncate -s "$length" changed
        left=$(sum changed)
        end
        check "a file that changes by $length" $'@put: DISK WRITE FAULT\nstatus 3' "$ended"
        check "is not written on, $length" "$left" "$(sum changed)"
        check "some lines were answered, $length" yes "$([ "$(grep -c OK begun.out)" -gt 5 ] && echo yes)"
    done
}

# A file is cut while a run reads it: what is gone is told.
cut_under_a_reader() {
    local script='A: SET TRANSACTION\nA: CREATE TABLE T (ID BIGINT PRIMARY KEY, NOTE VARCHAR(200))\n' n left
    for n in $(seq 1 100); do script+="A: INSERT INTO T VALUES ($n, 'row number $n of many')\n"; done
    run reading "$script"'A: COMMIT\n' --page 1024 > /dev/null
    begin reading 'A: SET TRANSACTION\nA: SELECT COUNT(*) FROM T\n' pread64 8
    truncate -s 8192 reading
    left=$(sum reading)
    end
    check 'a file that is cut under a reader' $'A: DISK READ FAULT\nstatus 3' "$ended"
    check 'is not written' "$left" "$(sum reading)"
}

# A second process is refused while one works on the file, and the first goes on.
second_process() {
    local left
    fresh shared
    begin shared '@put 1 20\n@put 1 30\n@get 1\n' fdatasync 3
    left=$(sum shared)
    check 'a second process' $'mgdb: DISK READ FAULT\nstatus 3' "$(run shared '@put 1 40\n')"
    check 'leaves the file as it was' "$left" "$(sum shared)"
    end
    check 'and the first one goes on' $'@get: 30\nstatus 0' "$ended"
}

# The list of the transactions in limbo opens the file for reading alone, and asks for nothing that changes it; a file that
# is not there is not opened.
lists() {
    local left
    fresh listed
    left=$(sum listed)
    strace -y -s 200 -o trace "$mgdb" gfix listed list < /dev/null > listed.out
    check 'a list' 'status 0' "$(cat listed.out)status $?"
    check 'opens its file for reading alone' 'O_RDONLY|O_NOCTTY|O_CLOEXEC' "$(sed -n 's/^openat([^"]*"listed", \([A-Z_|]*\).*/\1/p' trace)"
    check 'takes its lock' 1 "$(grep -c '^flock(.*/listed>, LOCK_EX|LOCK_NB) = 0' trace)"
    check 'writes nothing to it' 0 "$(grep -c '^\(p\?write\|pwrite64\|pwritev\|ftruncate\|fallocate\)(.*/listed>' trace)"
    check 'reads each page once' 7 "$(grep '^pread64(.*/listed>' trace | sed -n 's/.*, \([0-9]*\)) = 4096$/\1/p' | sort -u | grep -c '')"
    check 'and leaves it as it is' "$left" "$(sum listed)"
    strace -y -s 200 -o trace "$mgdb" gfix nowhere list < /dev/null > listed.out
    check 'a list of no file opens none' 0 "$(grep -c '^openat(.*nowhere' trace)"
}

if ! has_tracer; then
    cat tracer.log
    check 'strace is there, or can be installed by apt-get, and may trace' yes no
    finish 'traced files'
fi
orders
linked
refusals
short_writes
changed_lengths
cut_under_a_reader
second_process
lists
finish 'traced files'
