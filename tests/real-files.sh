#!/usr/bin/env bash
# What the program does as a process, on real files: its words, statuses and streams, the scripts of examples/, and
# what is left of a file where a run is killed or stopped. No test function can look there: that needs closed
# descriptors, a file size limit and kills.
#
# usage: tests/real-files.sh [PROGRAM]
#
# .ci/run calls it with the program that rt ci has built.
. "$(dirname "$(readlink -f "$0")")/program.sh"

# ---- words, page size and limit

words() {
    check 'no words' $'mgdb: USAGE\nstatus 2' "$("$mgdb"; echo "status $?")"
    check 'a word too few' $'mgdb: USAGE\nstatus 2' "$("$mgdb" run; echo "status $?")"
    check 'help is no word' $'mgdb: USAGE\nstatus 2' "$("$mgdb" --help; echo "status $?")"
    check 'a path that begins with a dash' $'mgdb: USAGE\nstatus 2' "$("$mgdb" run --stop 1; echo "status $?")"
    check 'a page size that is none' $'mgdb: USAGE\nstatus 2' "$(run none '' --page 5000)"
    check 'a limit that is none' $'mgdb: USAGE\nstatus 2' "$(run none '' --limit 15)"
    check 'an option twice' $'mgdb: USAGE\nstatus 2' "$(run none '' --stop 1 --stop 1)"
    check 'words that are refused make no file' 'no' "$([ -e none ] && echo yes || echo no)"
}

page_sizes() {
    check 'an empty script makes a database' 'status 0' "$(run usual '')"
    check 'of seven pages of 4096 bytes' 28672 "$(size usual)"
    local bytes
    for bytes in 1024 2048 8192 16384; do
        check "a database of $bytes bytes a page" $'@put: OK TX 1\nstatus 0' "$(run "p$bytes" '@put 1 10\n' --page "$bytes")"
        check "has seven pages of $bytes bytes" $((7 * bytes)) "$(size "p$bytes")"
        check "and keeps its page size" $'@get: 10\nstatus 0' "$(run "p$bytes" '@get 1\n' --page 4096)"
        check "and its length" $((7 * bytes)) "$(size "p$bytes")"
    done
}

limits() {
    local script='A: SET TRANSACTION\n' wanted=$'A: OK TX 1\n' n
    for n in 1 2 3 4 5 6 7 8 9; do
        script+="A: CREATE TABLE T$n (ID BIGINT PRIMARY KEY)\n"
        wanted+=$'A: OK\n'
    done
    script+='A: CREATE TABLE T10 (ID BIGINT PRIMARY KEY)\nA: COMMIT\n'
    wanted+=$'A: DATABASE FULL LIMIT 16\nA: OK\nstatus 1'
    check 'sixteen pages take nine tables' "$wanted" "$(run limited "$script" --limit 16)"
    check 'and a longer limit one more' $'A: OK TX 2\nA: OK\nA: OK\nstatus 0' \
        "$(run limited 'A: SET TRANSACTION\nA: CREATE TABLE T10 (ID BIGINT PRIMARY KEY)\nA: COMMIT\n' --limit 17)"
}

# ---- statuses

# short_of_memory: what a run of the longest script prints that may have a few megabytes alone; what the program itself takes
# of them differs between systems, so several limits are tried.
short_of_memory() {
    local told
    head -c 1048576 long > longest
    for kilobytes in 3400 3800 4200 4600 5000; do
        told=$(ulimit -v $kilobytes; "$mgdb" run s6 < longest 2> told; echo "status $?")
        [[ $told == *'status 6' ]] && break
    done
    echo "$told"
}

statuses() {
    check 'status 0' $'@put: OK TX 1\n@put: OK TX 2\n@get: 20\nstatus 0' "$(run s0 '@put 1 10\n@put 1 20\n@get 1\n')"
    check 'status 1, a bad line' $'line 2: BAD LINE\n@get: 20\nstatus 1' "$(run s0 '-- a comment\n@git 1\n@get 1\n')"
    check 'status 1, a refusal' $'A: NO TRANSACTION\nstatus 1' "$(run s0 'A: COMMIT\n')"
    check 'status 3, no page write' $'mgdb: DISK WRITE FAULT\nstatus 3' "$(run s3 '' --stop 0)"
    check 'status 3, within a line' $'@put: DISK WRITE FAULT\nstatus 3' "$(run s3 '@put 1 1\n@get 1\n' --stop 7)"
    check 'ROLLBACK TO before a CREATE TABLE' $'A: OK TX 1\nA: OK\nA: OK\nA: OK\nA: OK\nA: OK\nstatus 0' \
        "$(run back 'A: SET TRANSACTION\nA: SAVEPOINT S\nA: CREATE TABLE T (ID BIGINT PRIMARY KEY)\nA: ROLLBACK TO S\nA: CREATE TABLE T (ID BIGINT PRIMARY KEY)\nA: COMMIT\n')"
    check 'status 3 left a database' $'@get: NONE\nstatus 0' "$(run s3 '@get 1\n')"
    { printf -- '--'; head -c 1048575 /dev/zero | tr '\0' x; } > long
    check 'status 7' $'mgdb: SCRIPT TOO LONG\nstatus 7' "$("$mgdb" run s7 < long; echo "status $?")"
    check 'status 7 asks no disk' 'no' "$([ -e s7 ] && echo yes || echo no)"
    check 'a script of the greatest length' 'status 0' "$(head -c 1048576 long | "$mgdb" run s7; echo "status $?")"
    check 'status 6, no memory for the script' $'mgdb: OUT OF MEMORY\nstatus 6' "$(short_of_memory)"
    check 'which is told before the file is made' 'no' "$([ -e s6 ] && echo yes || echo no)"
}

# want_of_memory: a run with less and less memory, until it can't be begun, ends as one that has enough, or tells the want of
# it.
want_of_memory() {
    local kilobytes given status wants=0
    echo '@put 1 1' > lean.script
    for kilobytes in $(seq 6000 -50 1500); do
        rm -f lean
        given=$(ulimit -v "$kilobytes"; exec "$mgdb" run lean < lean.script 2> /dev/null)
        status=$?
        [ "$status" -gt 100 ] && break
        case "$given status $status" in
            '@put: OK TX 1 status 0') ;;
            'mgdb: OUT OF MEMORY status 6') wants=$((wants + 1)) ;;
            *) check "a run with $kilobytes KB of memory" 'OK or OUT OF MEMORY' "$given status $status" ;;
        esac
    done
    check 'some runs told want of memory' 'yes' "$([ "$wants" -gt 10 ] && echo yes)"
}

# Statuses 3 and 4: what is no regular file is neither read nor written, and what is none of the program's stays.
other_files() {
    local before
    mkdir folder
    mkfifo pipe
    check 'a folder' $'mgdb: DISK READ FAULT\nstatus 3' "$(run folder '@get 1\n')"
    check 'a device' $'mgdb: DISK READ FAULT\nstatus 3' "$(run /dev/null '@get 1\n')"
    check 'a pipe' $'mgdb: DISK READ FAULT\nstatus 3' "$(run pipe '@get 1\n')"
    check 'a missing folder' $'mgdb: DISK READ FAULT\nstatus 3' "$(run missing/db '@get 1\n')"
    check 'no file was made' 'no' "$([ -e missing ] && echo yes || echo no)"
    printf 'hello' > text
    before=$(sum text)
    check 'a text' $'mgdb: NOT A DATABASE MAGIC FOUND 0\nstatus 4' "$(run text '@put 1 1\n')"
    check 'a text stays' "$before" "$(sum text)"
    fresh zeroed
    dd if=/dev/zero of=zeroed bs=4096 count=1 conv=notrunc 2> /dev/null
    before=$(sum zeroed)
    check 'a zeroed header' $'mgdb: NOT A DATABASE MAGIC FOUND 0\nstatus 4' "$(run zeroed '@put 1 1\n')"
    check 'a zeroed header costs nothing' "$before" "$(sum zeroed)"
    truncate -s 28672 zeros
    check 'seven zero pages' $'@put: OK TX 1\nstatus 0' "$(run zeros '@put 1 1\n')"
    fresh kind
    printf '\011' | dd of=kind bs=1 seek=12288 conv=notrunc 2> /dev/null
    before=$(sum kind)
    check 'a damaged page' $'mgdb: DAMAGED PAGE 3 KIND FOUND 9 WANTED 4\nstatus 4' "$(run kind '')"
    check 'a damaged page stays' "$before" "$(sum kind)"
    fresh cut
    truncate -s 20480 cut
    check 'a cut file' $'@get: DAMAGED PAGE 5 PRESENCE FOUND 5 WANTED 6\nstatus 4' "$(run cut '@get 1\n')"
}

# The file is not opened under the number of a closed stream, so nothing is printed into it.
closed_streams() {
    local before
    fresh made
    printf '@put 1 20\n' | "$mgdb" run made >&-
    check 'closed output ends with 5' 5 $?
    check 'closed output leaves the file a database' $'@get: 20\nstatus 0' "$(run made '@get 1\n')"
    before=$(sum made)
    "$mgdb" run made <&- > closed.out
    check 'closed input ends with 5' 5 $?
    check 'closed input prints nothing' '' "$(cat closed.out)"
    check 'closed input leaves the file as it was' "$before" "$(sum made)"
    printf '@put 1 30\n' | "$mgdb" run made > closed.out 2>&-
    check 'closed error output changes nothing' $'@get: 30\nstatus 0' "$(run made '@get 1\n')"
}

# The file can't grow: a limit in blocks of 1024 bytes, past which each write fails. One that lies within a page cuts its
# write in the middle.
no_room() {
    local blocks script='A: SET TRANSACTION\nA: CREATE TABLE T (ID BIGINT PRIMARY KEY)\nA: COMMIT\n'
    trap '' XFSZ
    for blocks in 16 17 18 19; do
        check "a file that cannot grow past $blocks KB" $'mgdb: DISK WRITE FAULT\nstatus 3' "$(ulimit -f $blocks; run "small$blocks" '@put 1 1\n')"
        check 'nothing stays of a page that is written in part' 16384 "$(size "small$blocks")"
        check 'and a database is made on it later' $'@put: OK TX 1\nstatus 0' "$(run "small$blocks" '@put 1 1\n')"
    done
    fresh filled
    check 'a database that cannot grow' $'A: DISK WRITE FAULT\nstatus 3' \
        "$(ulimit -f 30; run filled "$script" | tail -n 2)"
    check 'keeps its pages alone' 28672 "$(size filled)"
    check 'and what was committed' $'@get: 10\nA: OK TX 4\nA: NO TABLE\nstatus 1' "$(run filled '@get 1\nA: SET TRANSACTION\nA: SELECT * FROM T\n')"
    trap - XFSZ
    # (without that trap a signal ends the process, and the part that fits stays)
    fresh torn
    check 'a run that ends within a page write' 'status 153' "$(ulimit -f 30; run torn "$script" 2> /dev/null | tail -n 1)"
    check 'leaves a part of the page' 30720 "$(size torn)"
    check 'with which the next run begins' $'@get: 10\nA: OK TX 4\nA: OK\nA: OK\nstatus 0' "$(run torn "@get 1\n$script")"
}

# Two processes: the script is read whole before the file is opened, and locked. A file that another process has locked is
# refused, and stays as it is.
two_processes() {
    local before how
    fresh locked
    mkfifo lines
    "$mgdb" run locked < lines > first.out &
    local first=$!
    exec 9> lines
    check 'before the end of the input the file is free' $'@get: 10\nstatus 0' "$(run locked '@get 1\n')"
    exec 9>&-
    wait "$first"
    check 'an empty script' '' "$(cat first.out)"
    before=$(sum locked)
    : > empty
    for how in --exclusive --shared; do
        exec 9< locked 8< empty
        flock "$how" 9
        flock "$how" 8
        check "a file that is locked, $how" $'mgdb: DISK READ FAULT\nstatus 3' "$(run locked '@put 1 20\n' 8<&- 9<&-)"
        check "stays as it is, $how" "$before" "$(sum locked)"
        check "an empty file that is locked, $how" $'mgdb: DISK READ FAULT\nstatus 3' "$(run empty '@put 1 20\n' 8<&- 9<&-)"
        check "stays empty, $how" 0 "$(size empty)"
        exec 9<&- 8<&-
    done
    check 'it is free again' $'@put: OK TX 3\nstatus 0' "$(run locked '@put 1 20\n')"
    check 'and so is the other' $'@put: OK TX 1\nstatus 0' "$(run empty '@put 1 20\n')"
}

# ---- scripts

# Each script of examples/ prints what stands beside it, on a new file of each page size that is tried.
examples() {
    local script name bytes
    for script in "$here"/examples/*.script; do
        name=$(basename "$script" .script)
        [ "$name" == again ] && continue
        for bytes in 1024 4096 16384; do
            rm -f example
            "$mgdb" run example --page "$bytes" < "$script" > example.out
            check "$name.script, $bytes bytes a page" "$(cat "${script%.script}.out")" "$(cat example.out)"
        done
    done
    rm -f example
    check 'puts.script is cut short' $'@put: DISK WRITE FAULT' "$("$mgdb" run example --stop 9 < "$here/examples/puts.script")"
    check 'again.script' "$(cat "$here/examples/again.out")" "$("$mgdb" run example < "$here/examples/again.script")"
}

# Forty tables, each with a row, by sixteen sessions in turn; and all of it is there in the next run.
many_tables() {
    local script='' wanted='' later='A: SET TRANSACTION\n' found=$'A: OK TX 41\n' n s
    for n in $(seq 1 40); do
        s=$(printf "\\x$(printf %x $((65 + n % 16)))")
        script+="$s: SET TRANSACTION\n$s: CREATE TABLE T$n (ID BIGINT PRIMARY KEY, NOTE VARCHAR(100))\n"
        script+="$s: INSERT INTO T$n VALUES ($n, 'table $n')\n$s: COMMIT\n"
        wanted+="$s: OK TX $n"$'\n'"$s: OK"$'\n'"$s: OK 1"$'\n'"$s: OK"$'\n'
        later+="A: SELECT * FROM T$n\n"
        found+="A| $n, 'table $n'"$'\n'"A: OK 1"$'\n'
    done
    check 'forty tables' "${wanted}status 0" "$(run tables "$script" --page 1024)"
    check 'forty tables in the next run' "${found}status 0" "$(run tables "$later")"
}

# A table of so many columns, with a row, is taken back and made anew with other columns, by which its rows are then read.
taken_back() {
    local columns n table row script
    for columns in 1 2 3 4 9; do
        table='ID BIGINT PRIMARY KEY' row=1
        for n in $(seq 2 "$columns"); do
            table+=", C$n VARCHAR($n)" row+=", '$((n % 10))'"
        done
        script="A: SET TRANSACTION\nA: SAVEPOINT S\nA: CREATE TABLE T ($table)\nA: INSERT INTO T VALUES ($row)\n"
        script+='A: ROLLBACK TO S\nA: SELECT * FROM T\nA: CREATE TABLE T (NOTE VARCHAR(30), ID BIGINT PRIMARY KEY, N BIGINT)\n'
        script+="A: INSERT INTO T VALUES ('new', 7, 70)\nA: COMMIT\n"
        check "a table of $columns columns is taken back" \
            $'A: OK TX 1\nA: OK\nA: OK\nA: OK 1\nA: OK\nA: NO TABLE\nA: OK\nA: OK 1\nA: OK\nstatus 1' "$(run "back$columns" "$script")"
        check 'and another one stands in its place' $'A: OK TX 2\nA| \'new\', 7, 70\nA: OK 1\nstatus 0' \
            "$(run "back$columns" 'A: SET TRANSACTION\nA: SELECT * FROM T\n')"
    done
}

# The catalog has a row for each table and one for each of its columns, three of them for KV. With so many rows in all each
# table is there in the next run; one more is taken back, and stays away.
catalogs() {
    local rows columns table n
    for rows in 31 32 33 34; do
        table='ID BIGINT PRIMARY KEY'
        columns=$((rows - 4))
        for n in $(seq 2 "$columns"); do table+=", C$n BIGINT"; done
        check "a catalog of $rows rows" $'A: OK TX 1\nA: OK\nA: OK\nstatus 0' \
            "$(run "catalog$rows" "A: SET TRANSACTION\nA: CREATE TABLE T ($table)\nA: COMMIT\n")"
        check 'is read in the next run, and one more table is taken back' \
            $'A: OK TX 2\nA: OK\nA: OK\nA: OK\nA: OK 1\nA: OK 0\nA: OK\nstatus 0' \
            "$(run "catalog$rows" 'A: SET TRANSACTION\nA: SAVEPOINT S\nA: CREATE TABLE U (ID BIGINT PRIMARY KEY, A BIGINT, B BIGINT)\nA: ROLLBACK TO S\nA: INSERT INTO KV VALUES (1, 1)\nA: SELECT * FROM T\nA: COMMIT\n')"
        check 'and stays away' $'A: OK TX 3\nA: NO TABLE\nA: OK 0\nstatus 1' \
            "$(run "catalog$rows" 'A: SET TRANSACTION\nA: SELECT * FROM U\nA: SELECT * FROM T\n')"
    done
}

# Many rows in one transaction, which take many pages, and are all there in the next run.
many_rows() {
    local script='A: SET TRANSACTION\nA: CREATE TABLE T (ID BIGINT PRIMARY KEY, NOTE VARCHAR(200))\n' n
    for n in $(seq 1 100); do
        script+="A: INSERT INTO T VALUES ($n, 'row number $n of many')\n"
    done
    check 'many rows' 'status 0' "$(run rows "$script"'A: COMMIT\n' --page 1024 | tail -n 1)"
    check 'many rows in the next run' $'A: OK TX 2\nA| 100, 5050\nA: OK 1\nstatus 0' \
        "$(run rows 'A: SET TRANSACTION\nA: SELECT COUNT(*), SUM(ID) FROM T\n')"
}

# Fifteen sessions wait for one, and go on in the order in which they came to wait.
many_waits() {
    local script='@put 1 10\nA: SET TRANSACTION\nA: UPDATE KV SET V = 11 WHERE K = 1\n' wanted='' s
    for s in B C D E F G H I J K L M N O P; do
        script+="$s: SET TRANSACTION\n$s: UPDATE KV SET V = 12 WHERE K = 1\n"
        wanted+="$s: UPDATE CONFLICT BY 2"$'\n'
    done
    check 'fifteen sessions wait' "A: OK"$'\n'"${wanted}status 1" "$(run waits "$script"'A: COMMIT\n' | tail -n 17)"
}

# ---- transactions in limbo

# list FILE [OPTION..]: what the list of the transactions in limbo printed, and its status behind it.
list() {
    "$mgdb" gfix "$1" list "${@:2}" < /dev/null
    echo "status $?"
}

# set_byte FILE AT BYTE: a byte of a file becomes this one.
set_byte() { printf '%b' "\\x$(printf %x "$3")" | dd of="$1" bs=1 seek="$2" conv=notrunc 2> /dev/null; }

# check_list NAME FILE WANTED [OPTION..]: what is listed of a file, which stays as it is.
check_list() {
    local before
    before=$(sum "$2")
    check "the list of $1" "$3" "$(list "$2" "${@:4}")"
    check "the list of $1 leaves the file as it is" "$before" "$(sum "$2")"
}

other_fixes() {
    local words
    rm -f unmade
    while read -r words; do
        # (each word of a line is one of the program)
        # shellcheck disable=SC2086
        check "no command: $words" $'mgdb: USAGE\nstatus 2' "$("$mgdb" $words < /dev/null; echo "status $?")"
    done << 'END'
gfix
gfix unmade
gfix list unmade
gfix -x list
gfix unmade LIST
gfix unmade list 1
gfix unmade list --stop
gfix unmade list --stop 01
gfix unmade list --stop 1 --stop 1
gfix unmade list --page 1024
gfix unmade list --limit 16
gfix unmade --stop 1 list
gfix unmade validate
gfix unmade commit 1
gfix unmade rollback 1
gfix unmade sweep
gstat
gstat -x
gstat unmade 1
gstat unmade --stop 1
gstat unmade --page 1024
gstat unmade list
load unmade 1
storm unmade
list unmade
run unmade list
END
    check 'no command makes a file' 'no' "$([ -e unmade ] && echo yes || echo no)"
}

limbo_lists() {
    local before bytes
    check 'the list of no file' $'gfix: NOT A DATABASE MAGIC FOUND 0\nstatus 4' "$(list absent)"
    check 'the list of no file, in no folder' $'gfix: NOT A DATABASE MAGIC FOUND 0\nstatus 4' "$(list absent/db)"
    check 'a list makes no file' 'no' "$([ -e absent ] && echo yes || echo no)"
    : > blank
    check_list 'an empty file' blank $'gfix: NOT A DATABASE MAGIC FOUND 0\nstatus 4'
    run new '' > /dev/null
    check_list 'a new database' new 'status 0'
    run decided '@put 1 10\n@put 1 20\n@put 2 30\nA: SET TRANSACTION\nA: UPDATE KV SET V = 1\nA: ROLLBACK\n@put 3 1\n' > /dev/null
    check_list 'a database after a run' decided 'status 0'
    # Two bits for each transaction, from byte 20 of page 2 on: 1 and 3 are put into limbo.
    set_byte decided 8212 119
    check_list 'two in limbo' decided $'LIMBO 1\nLIMBO 3\nstatus 0'
    check_list 'two in limbo, with no page write' decided $'LIMBO 1\nLIMBO 3\nstatus 0' --stop 0
    before=$(sum decided)
    "$mgdb" gfix decided list < /dev/null >&-
    check 'a list to a closed output ends with 5' 5 $?
    check 'a list to a closed output leaves the file as it is' "$before" "$(sum decided)"
    check 'a list with a closed input' $'LIMBO 1\nLIMBO 3\nstatus 0' "$("$mgdb" gfix decided list <&-; echo "status $?")"
    check 'a key of one in limbo' $'A: OK TX 6\nA: IN LIMBO 3\nA: OK\nstatus 1' \
        "$(run decided 'A: SET TRANSACTION\nA: INSERT INTO KV VALUES (2, 7)\nA: COMMIT\n')"
    check_list 'two in limbo, behind a run' decided $'LIMBO 1\nLIMBO 3\nstatus 0'
    for bytes in 1024 16384; do
        rm -f sized
        run sized '@put 1 10\n' --page "$bytes" > /dev/null
        set_byte sized $((2 * bytes + 20)) 7
        check_list "one in limbo, $bytes bytes a page" sized $'LIMBO 1\nstatus 0'
    done
}

damaged_lists() {
    local how before
    printf 'hello' > greeting
    check_list 'a text' greeting $'gfix: NOT A DATABASE MAGIC FOUND 0\nstatus 4'
    fresh damaged
    set_byte damaged 16 78
    check_list 'another mark' damaged $'gfix: NOT A DATABASE MAGIC FOUND 1111770958\nstatus 4'
    fresh damaged
    set_byte damaged 44 0
    check_list 'a damaged header' damaged $'gfix: DAMAGED PAGE 0 LINK FOUND 0 WANTED 131071\nstatus 4'
    fresh damaged
    set_byte damaged 8192 9
    check_list 'a damaged inventory' damaged $'gfix: DAMAGED PAGE 2 KIND FOUND 9 WANTED 3\nstatus 4'
    fresh damaged
    truncate -s 8192 damaged
    check_list 'a cut file' damaged $'gfix: DAMAGED PAGE 2 PRESENCE FOUND 2 WANTED 3\nstatus 4'
    mkdir shelf
    mkfifo tube
    check 'the list of a folder' $'gfix: DISK READ FAULT\nstatus 3' "$(list shelf)"
    check 'the list of a pipe' $'gfix: DISK READ FAULT\nstatus 3' "$(list tube)"
    check 'the list of a device' $'gfix: DISK READ FAULT\nstatus 3' "$(list /dev/null)"
    fresh held
    before=$(sum held)
    for how in --exclusive --shared; do
        exec 9< held
        flock "$how" 9
        check "the list of a file that is locked, $how" $'gfix: DISK READ FAULT\nstatus 3' "$(list held 9<&-)"
        exec 9<&-
    done
    check_list 'a file that is free again' held 'status 0'
    check 'a file that was locked stays as it is' "$before" "$(sum held)"
}

# ---- figures

# figures FILE: what `gstat` printed, and its status behind it.
figures() {
    "$mgdb" gstat "$1" < /dev/null
    echo "status $?"
}

# check_figures NAME FILE WANTED: the figures of a file, which stays as it is.
check_figures() {
    local before
    before=$(sum "$2")
    check "the figures of $1" "$3" "$(figures "$2")"
    check "the figures of $1 leave the file as it is" "$before" "$(sum "$2")"
}

# head_of SIZE NEXT OIT OAT OST: the lines before those of the pages.
head_of() {
    printf 'PAGE SIZE %s\nVERSION 1.0\nNEXT %s\nOIT %s\nOAT %s\nOST %s\nSWEEP INTERVAL 20000\nSWEEP DUE NO\n' "$@"
}

file_figures() {
    local before bytes
    check 'the figures of no file' $'mgdb: NOT A DATABASE MAGIC FOUND 0\nstatus 4' "$(figures absent)"
    check 'figures make no file' 'no' "$([ -e absent ] && echo yes || echo no)"
    : > bare
    check_figures 'an empty file' bare $'mgdb: NOT A DATABASE MAGIC FOUND 0\nstatus 4'
    for bytes in 1024 4096 16384; do
        rm -f sized
        run sized '' --page "$bytes" > /dev/null
        check_figures "a new database, $bytes bytes a page" sized \
            "$(head_of "$bytes" 1 1 1 1)"$'\nPAGES 7\nTIP PAGES 1\nTABLE KV RECORDS 0 VERSIONS 0 PAGES 1\nstatus 0'
    done
    rm -f counted
    run counted '@put 1 10\n@put 1 20\nA: SET TRANSACTION\nA: CREATE TABLE B (ID BIGINT PRIMARY KEY)\nA: INSERT INTO B VALUES (1)\nA: COMMIT\n' > /dev/null
    check 'the figures of two tables' $'TABLE B RECORDS 1 VERSIONS 1 PAGES 1\nTABLE KV RECORDS 1 VERSIONS 2 PAGES 1\nstatus 0' \
        "$(figures counted | tail -n 3)"
    # (two bits for each transaction, from byte 20 of page 2 on: 3, which has made table B, is put into limbo)
    set_byte counted 8212 127
    check 'a table that limbo has made is not named' $'TABLE KV RECORDS 1 VERSIONS 2 PAGES 1\nLIMBO 3\nstatus 0' \
        "$(figures counted | tail -n 3)"
    before=$(sum counted)
    "$mgdb" gstat counted < /dev/null >&-
    check 'figures to a closed output end with 5' 5 $?
    check 'figures to a closed output leave the file as it is' "$before" "$(sum counted)"
}

damaged_figures() {
    printf 'hello' > letter
    check_figures 'a text' letter $'mgdb: NOT A DATABASE MAGIC FOUND 0\nstatus 4'
    fresh damaged
    set_byte damaged 44 0
    check_figures 'a damaged header' damaged $'mgdb: DAMAGED PAGE 0 LINK FOUND 0 WANTED 131071\nstatus 4'
    fresh damaged
    set_byte damaged 24580 7
    check_figures 'a data page with the number of another' damaged $'mgdb: DAMAGED PAGE 6 OWN FOUND 7 WANTED 6\nstatus 4'
    fresh damaged
    truncate -s 24576 damaged
    check_figures 'a cut file' damaged $'mgdb: DAMAGED PAGE 6 PRESENCE FOUND 6 WANTED 7\nstatus 4'
    mkdir drawer
    check 'the figures of a folder' $'mgdb: DISK READ FAULT\nstatus 3' "$(figures drawer)"
}

# ---- what is left of a run

# A run is stopped after n page writes, for each n until it ends by itself. What was acknowledged is there, and of a
# commit that was under way all or nothing.
stopped_runs() {
    local script='@put 1 1\nA: SET TRANSACTION\nA: CREATE TABLE T (ID BIGINT PRIMARY KEY, N VARCHAR(9))\n'
    script+="A: INSERT INTO T VALUES (1, 'one')\nA: INSERT INTO T VALUES (2, 'two')\nA: COMMIT\n@put 1 2\n"
    local n given left without='B: NO TABLE' with='B| 2' one or_other
    for n in $(seq 0 40); do
        rm -f stopped
        given=$(run stopped "$script" --stop "$n")
        left=$(run stopped '@get 1\nB: SET TRANSACTION\nB: SELECT COUNT(*) FROM T\n' | grep -v OK | head -n 2 | paste -sd'|')
        # By the line at which it was stopped: one end, or the other where a commit was under way.
        case "$(grep -c '' <<< "$given") $(tail -n 1 <<< "$given")" in
            '2 status 3') one="@get: NONE|$without" or_other="@get: 1|$without" ;;
            [3456]' status 3') one="@get: 1|$without" or_other=$one ;;
            '7 status 3') one="@get: 1|$without" or_other="@get: 1|$with" ;;
            '8 status 3') one="@get: 1|$with" or_other="@get: 2|$with" ;;
            *) one="@get: 2|$with" or_other=$one ;;
        esac
        [ "$left" == "$or_other" ] && one=$or_other
        check "stopped after $n page writes: $given" "$one" "$left"
        [ "$(tail -n 1 <<< "$given")" == 'status 0' ] && break
    done
    check 'a run that is not stopped' 'status 0' "$(tail -n 1 <<< "$given")"
}

# Kills at many moments of a run of commits, each on the file that the kill before has left: every acknowledged commit
# is there, and at most one more.
kills() {
    local round script victim answered held last=NONE first
    rm -f killed
    for round in $(seq 1 24); do
        first=$((100 * round))
        script=$(for n in $(seq 1 60); do echo "@put 1 $((first + n))"; done)
        : > killed.out
        "$mgdb" run killed <<< "$script" > killed.out &
        victim=$!
        # The first rounds are killed while the database is made, the later ones after so many lines.
        sleep "0.00$((round % 10))"
        while [ "$(grep -c '' killed.out)" -lt $((2 * (round - 6))) ] && kill -0 "$victim" 2> /dev/null; do sleep 0.001; done
        kill -9 "$victim" 2> /dev/null
        wait "$victim" 2> /dev/null
        answered=$(grep -c '^@put: OK' killed.out)
        held=$(run killed '@get 1\n' | sed -n 's/^@get: //p')
        [ "$answered" -gt 0 ] && last=$((first + answered))
        case $held in
            "$last" | $((first + answered + 1))) passed=$((passed + 1)) ;;
            *) check "a kill in round $round" "$last or $((first + answered + 1))" "$held" ;;
        esac
        last=$held
    done
}

words
page_sizes
limits
statuses
want_of_memory
other_files
closed_streams
no_room
two_processes
examples
many_tables
taken_back
catalogs
many_rows
many_waits
other_fixes
limbo_lists
damaged_lists
file_figures
damaged_figures
stopped_runs
kills
finish 'real files'
