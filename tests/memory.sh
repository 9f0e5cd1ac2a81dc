#!/usr/bin/env bash
# Reads a database of 200 MB whole, every data page of it, by a process that may have 64 MB of memory, and tells whether it
# could. The memory is bounded by the system (`ulimit -v`), so what is counted is all that the process has. It is no part of
# the gate.
#
#   tests/memory.sh PROGRAM [FOLDER] [TABLES]     the built program; a folder for the file (usual: /dev/shm, which is
#                                                 memory; 200 MB of it are needed); how many tables of 4 MB (usual: 50)
program=$(readlink -f "${1:?the program}")
tables=${3:-50}
bound=65536 # KiB
folder=$(mktemp -d -p "${2:-/dev/shm}")
trap 'rm -rf "$folder"' EXIT

# The script that makes a table `T`: 20 rows, each of some 1,900 bytes, with texts that no coding makes shorter. An UPDATE of
# all rows leaves a version of each behind, so after 99 of them the table has 2,000 versions, two on a page: 4 MB.
rows=20
awk -v rows="$rows" '
    function text(n,   s) { s = n; while (length(s) < 940) s = s " " (n = (n * 7919 + 12345) % 1000003); return "\x27" substr(s, 1, 940) "\x27" }
    BEGIN {
        print "A: SET TRANSACTION"
        print "A: CREATE TABLE T (ID BIGINT PRIMARY KEY, A VARCHAR(1000), B VARCHAR(1000))"
        for (i = 0; i < rows; i++) print "A: INSERT INTO T VALUES (" i ", " text(i) ", " text(i + rows) ")"
        print "A: COMMIT"
        for (i = 1; i < 100; i++) print "A: SET TRANSACTION\nA: UPDATE T SET A = " text(100 + i) "\nA: COMMIT"
    }' > "$folder/table"
for ((t = 0; t < tables; t++)); do
    sed "s/ T / T$t /" "$folder/table" > "$folder/script"
    if ! "$program" run "$folder/db" < "$folder/script" > "$folder/printed"; then
        echo "memory.sh: the making failed: $(grep -v OK "$folder/printed" | head -1)"
        exit 1
    fi
done
bytes=$(stat -c %s "$folder/db")

# All records of all tables, by which each data page is read.
{
    echo 'A: SET TRANSACTION'
    for ((t = 0; t < tables; t++)); do echo "A: SELECT COUNT(*) FROM T$t"; done
    echo 'A: COMMIT'
} > "$folder/script"
begun=$EPOCHREALTIME
(ulimit -v "$bound" && "$program" run "$folder/db" < "$folder/script" > "$folder/printed")
status=$?
ended=$EPOCHREALTIME
if [ "$status" = 0 ] && [ "$(grep -c "^A| $rows\$" "$folder/printed")" = "$tables" ]; then
    awk -v bytes="$bytes" -v bound="$bound" -v a="$begun" -v b="$ended" \
        'BEGIN { printf "memory.sh: ok, %d bytes read in %d KiB of memory, %.1f seconds\n", bytes, bound, b - a }'
else
    echo "memory.sh: FAILED, status $status: $(grep -v "^A| $rows\$" "$folder/printed" | head -2 | paste -sd' ')"
    exit 1
fi
