#!/usr/bin/env bash
# Prints what the program takes for some plain loads, in seconds, and beside it what sqlite3 takes for the same (journal WAL,
# synchronous FULL) on the same file system, where it is installed. It is no part of the gate.
#
#   tests/cost.sh PROGRAM [FOLDER]     the built program; a folder for the files (usual: /dev/shm, which is memory)
#
# Each load is run at one size and at twice that size, so that the growth is seen; scans and statements over all rows at ten
# times the size.
program=$(readlink -f "${1:?the program}")
folder=$(mktemp -d -p "${2:-/dev/shm}")
trap 'rm -rf "$folder"' EXIT

# The seconds that a command takes by the clock and of a processor; its output goes away. One that fails is told.
seconds() {
    local TIMEFORMAT='%R %U %S'
    { time "$@" > "$folder/printed" 2> "$folder/told" || echo failed; } 2>&1 | paste -sd' ' \
        | awk '{ if ($NF == "failed") print "failed", "failed"; else printf "%.2f %.2f\n", $1, $2 + $3 }'
}

# A script may have a megabyte: a longer one is obeyed by several runs, cut where no transaction is open.
ours() {
    local part
    # Status 1 says that a statement was refused, as some loads ask for.
    for part in "$folder"/part.*; do
        "$program" run "$folder/db" --limit 131072 --page "$page" < "$part" || [ $? -eq 1 ] || return 1
    done
}
theirs() { sqlite3 -bail "$folder/lite" < "$folder/sql"; }

# One load: its name, and the names of the functions that write our script and that for sqlite3, given a size. Pages have
# `page` bytes.
page=4096
load() {
    local name=$1 make=$2 size=$3 own lite='- -'
    rm -f "$folder"/db "$folder"/lite* "$folder"/part.*
    "$make" ours "$size" | awk -v part="$folder/part." '
        { if (bytes > 900000 && !open && $2 != "COMMIT") { bytes = 0; number++ }
          if ($0 ~ /SET TRANSACTION/) open = 1
          if ($0 ~ /COMMIT/) open = 0
          bytes += length($0) + 1; print > (part sprintf("%03d", number)) }'
    { echo "PRAGMA page_size=$page; PRAGMA journal_mode=WAL; PRAGMA synchronous=FULL;"; "$make" theirs "$size"; } > "$folder/sql"
    own=$(seconds ours)
    command -v sqlite3 > /dev/null && lite=$(seconds theirs)
    printf '%-56s %6d %8d %8s %8s %8s %8s\n' "$name" "$page" "$size" ${own} ${lite}
}

# Single rows, each committed by itself, over 100 keys.
puts() {
    if [ "$1" = ours ]; then
        awk -v n="$2" 'BEGIN { for (i = 0; i < n; i++) print "@put", i % 100, i }'
    else
        awk -v n="$2" 'BEGIN { print "CREATE TABLE KV (K INTEGER PRIMARY KEY, V INTEGER);"
            for (i = 0; i < n; i++) print "INSERT INTO KV VALUES (" i % 100 ", " i ") ON CONFLICT (K) DO UPDATE SET V = excluded.V;" }'
    fi
}

# The same over 20,000 keys, which are put in first, by transactions of 1,000.
far_puts() {
    inserts "$1" 20000
    if [ "$1" = ours ]; then
        awk -v n="$2" 'BEGIN { for (i = 0; i < n; i++) print "@put", i * 7919 % 20000, i }'
    else
        awk -v n="$2" 'BEGIN { for (i = 0; i < n; i++)
            print "INSERT INTO KV VALUES (" i * 7919 % 20000 ", " i ") ON CONFLICT (K) DO UPDATE SET V = excluded.V;" }'
    fi
}

# Single new rows, each committed by itself.
new_puts() {
    if [ "$1" = ours ]; then
        awk -v n="$2" 'BEGIN { for (i = 0; i < n; i++) print "@put", i, i }'
    else
        awk -v n="$2" 'BEGIN { print "CREATE TABLE KV (K INTEGER PRIMARY KEY, V INTEGER);"
            for (i = 0; i < n; i++) print "INSERT INTO KV VALUES (" i ", " i ") ON CONFLICT (K) DO UPDATE SET V = excluded.V;" }'
    fi
}

# Reads by key of a table of 100 rows, each in a transaction of its own.
gets() {
    puts "$1" 100
    if [ "$1" = ours ]; then
        awk -v n="$2" 'BEGIN { for (i = 0; i < n; i++) print "@get", i % 100 }'
    else
        awk -v n="$2" 'BEGIN { for (i = 0; i < n; i++) print "SELECT * FROM KV WHERE K = " i % 100 ";" }'
    fi
}

# The same of a table of 20,000 rows, which are put in first, by transactions of 1,000.
far_gets() {
    inserts "$1" 20000
    if [ "$1" = ours ]; then
        awk -v n="$2" 'BEGIN { for (i = 0; i < n; i++) print "@get", i * 7919 % 20000 }'
    else
        awk -v n="$2" 'BEGIN { for (i = 0; i < n; i++) print "SELECT * FROM KV WHERE K = " i * 7919 % 20000 ";" }'
    fi
}

# New rows in transactions of 1,000.
inserts() {
    local who=
    [ "$1" = ours ] && who='A: '
    [ "$1" = ours ] || echo 'CREATE TABLE KV (K INTEGER PRIMARY KEY, V INTEGER);'
    awk -v n="$2" -v who="$who" -v begin="$([ "$1" = ours ] && echo 'SET TRANSACTION' || echo 'BEGIN;')" \
        -v commit="$([ "$1" = ours ] && echo COMMIT || echo 'COMMIT;')" -v end="$([ "$1" = ours ] || echo ';')" '
        BEGIN { for (i = 0; i < n; i++) {
            if (i % 1000 == 0) print who begin
            print who "INSERT INTO KV VALUES (" i ", " i ")" end
            if (i % 1000 == 999 || i == n - 1) print who commit } }'
}

# Ten scans of a table of so many rows.
scans() {
    inserts "$1" "$2"
    if [ "$1" = ours ]; then
        echo 'A: SET TRANSACTION'
        for _ in 1 2 3 4 5 6 7 8 9 10; do echo 'A: SELECT * FROM KV WHERE V < 0'; done
        echo 'A: COMMIT'
    else
        for _ in 1 2 3 4 5 6 7 8 9 10; do echo 'SELECT * FROM KV WHERE V < 0;'; done
    fi
}

# A snapshot that is held while one row is updated so often, each time in a transaction of its own, and then reads it.
updates() {
    if [ "$1" = ours ]; then
        printf '@put 1 0\nA: SET TRANSACTION\nA: SELECT * FROM KV\n'
        awk -v n="$2" 'BEGIN { for (i = 1; i <= n; i++) print "@put 1", i }'
        printf 'A: SELECT * FROM KV\nA: COMMIT\n'
    else
        puts theirs 1
        awk -v n="$2" 'BEGIN { for (i = 1; i <= n; i++) print "UPDATE KV SET V = " i " WHERE K = 0;" }'
        echo 'SELECT * FROM KV;'
    fi
}

# A statement over all rows of a table of so many rows, after they were put in: UPDATE, or DELETE.
updated() {
    inserts "$1" "$2"
    of_all "$1" 'UPDATE KV SET V = V + 1'
}
deleted() {
    inserts "$1" "$2"
    of_all "$1" 'DELETE FROM KV'
}
of_all() {
    if [ "$1" = ours ]; then
        printf 'A: SET TRANSACTION\nA: %s\nA: COMMIT\n' "$2"
    else
        printf 'BEGIN;\n%s;\nCOMMIT;\n' "$2"
    fi
}

# New rows of a table of 64 columns, in one transaction, and a scan of it.
wide() {
    local who= begin='BEGIN;' commit='COMMIT;' end=';'
    [ "$1" = ours ] && who='A: ' begin='SET TRANSACTION' commit=COMMIT end=
    awk -v n="$2" -v who="$who" -v begin="$begin" -v commit="$commit" -v end="$end" '
        BEGIN {
            columns = "ID BIGINT PRIMARY KEY"
            for (c = 1; c < 64; c++) { columns = columns ", C" c " BIGINT"; values = values ", " c }
            print who begin
            print who "CREATE TABLE WIDE (" columns ")" end
            for (i = 0; i < n; i++) print who "INSERT INTO WIDE VALUES (" i values ")" end
            print who "SELECT * FROM WIDE WHERE C1 < 0" end
            print who commit
        }'
}

# A row of so many versions, read by who began before them, and so often by who begins behind them all.
both_ends() {
    updates "$1" "$2"
    if [ "$1" = ours ]; then
        awk -v n="$2" 'BEGIN { for (i = 1; i <= n; i++) print "@get 1" }'
    else
        awk -v n="$2" 'BEGIN { for (i = 1; i <= n; i++) print "SELECT * FROM KV WHERE K = 0;" }'
    fi
}

# New rows in one transaction, each put in a second time, which is refused: each refusal takes its statement back.
refused() {
    local who= begin='BEGIN;' commit='COMMIT;' insert='INSERT OR IGNORE' end=';'
    [ "$1" = ours ] && who='A: ' begin='SET TRANSACTION' commit=COMMIT insert=INSERT end=
    [ "$1" = ours ] || echo 'CREATE TABLE KV (K INTEGER PRIMARY KEY, V INTEGER);'
    awk -v n="$2" -v who="$who" -v begin="$begin" -v commit="$commit" -v insert="$insert" -v end="$end" '
        BEGIN {
            print who begin
            for (i = 0; i < n; i++) {
                print who "INSERT INTO KV VALUES (" i ", 0)" end
                print who insert " INTO KV VALUES (" i ", 1)" end
            }
            print who commit
        }'
}

# So many tables of four columns, made in one transaction and taken back to a savepoint before them.
taken_back() {
    local who= begin='BEGIN;' end=';'
    [ "$1" = ours ] && who='A: ' begin='SET TRANSACTION' end=
    awk -v n="$2" -v who="$who" -v begin="$begin" -v end="$end" '
        BEGIN {
            print who begin
            print who "SAVEPOINT S" end
            for (i = 0; i < n; i++) print who "CREATE TABLE T" i " (ID BIGINT PRIMARY KEY, A BIGINT, B BIGINT, C BIGINT)" end
            print who "ROLLBACK TO S" end
            print who "COMMIT" end
        }'
}

# By the clock, and of a processor.
printf '%-56s %6s %8s %8s %8s %8s %8s\n' load page size mgdb cpu sqlite3 cpu
for twice in 1 2; do
    tenfold=$((twice == 1 ? 1 : 10))
    load 'rows put one by one, over 100 keys' puts $((10000 * twice))
    load 'reads by key, a table of 100 rows' gets $((10000 * twice))
    load 'the same puts, over 20,000 keys (with the rows put in)' far_puts $((10000 * twice))
    load 'the same reads, of 20,000 rows (with the rows put in)' far_gets $((10000 * twice))
    load 'new rows put one by one' new_puts $((25000 * twice))
    load 'new rows, 1,000 a transaction' inserts $((25000 * twice))
    load 'ten scans (with the rows put in)' scans $((2000 * tenfold))
    load 'an UPDATE of all rows (with the rows put in)' updated $((2000 * tenfold))
    load 'a DELETE of all rows (with the rows put in)' deleted $((2000 * tenfold))
    load 'rows of 64 columns put in, and a scan' wide $((500 * twice))
    load 'new rows, each refused a second time' refused $((1000 * twice))
    load 'tables made and taken back to a savepoint' taken_back $((16 * twice))
    load 'updates of one row under a held snapshot' updates $((2500 * twice))
    load 'the same, and reads of the newest version' both_ends $((2500 * twice))
    for page in 1024 16384; do
        load 'ten scans (with the rows put in)' scans $((1000 * twice))
        load 'rows put one by one, over 100 keys' puts $((5000 * twice))
    done
    page=4096
done
