#!/usr/bin/env bash
# What ./mgdb does before the program runs: which crates it takes, what it copies, when it builds, and what it tells
# meanwhile. Nothing is proved here: where it builds, a stand-in for rt does, on a small repository made here.
#
# .ci/run calls it. A check that fails is printed; its last line is then 'N passed, M failed'.
. "$(dirname "$(readlink -f "$0")")/checks.sh"

# The functions of ./mgdb, over this repository.
. "$here/mgdb"

# The lines of a crates.txt without comments, each with one blank between words.
lines_of() { sed 's/#.*//' "$1" | awk 'NF { $1 = $1; print }'; }

# The crates that can be reached from mgdb, by adding libraries until none is new.
reached() {
    lines_of "$here/crates.txt" | awk '
        { crate = $1; sub(/:$/, "", crate); for (i = 2; i <= NF; i++) uses[crate, $i] = 1; is[crate] = 1 }
        END {
            found["mgdb"] = 1
            do {
                new = 0
                for (pair in uses) {
                    split(pair, part, SUBSEP)
                    if (part[1] in found && part[2] in is && !(part[2] in found)) { found[part[2]] = 1; new = 1 }
                }
            } while (new)
            for (crate in found) print crate
        }' | sort
}

crates_that_are_taken() {
    local every marked
    check 'the crates that the program needs' "$(reached)" "$(crates_needed | sort)"
    every=$(lines_of "$here/crates.txt" | sed 's/:.*//' | sort)
    check 'each crate has a line, and each line a crate' "$(cd "$here/crates" && printf '%s\n' * | sort)" "$every"
    marked=$(sed -n 's/:.*# not in the program$//p' "$here/crates.txt" | sort)
    check 'the others are marked in crates.txt' "$(comm -23 <(echo "$every") <(reached))" "$marked"
}

copies() {
    local needed tree=$work/tree crate part
    mapfile -t needed < <(crates_needed)
    copy_needed "$tree" "${needed[@]}"
    check 'a copy has the crates that are needed' "$(reached)" "$(cd "$tree/crates" && printf '%s\n' * | sort)"
    check 'and a line for each' "$(reached)" "$(lines_of "$tree/crates.txt" | sed 's/:.*//' | sort)"
    check 'the same lines' "$(lines_of "$here/crates.txt" | grep -E "^($(reached | paste -sd'|')):" | sort)" "$(lines_of "$tree/crates.txt" | sort)"
    for crate in "${needed[@]}"; do
        for part in src specs proofs; do
            [ ! -d "$here/crates/$crate/$part" ] || diff -qr "$here/crates/$crate/$part" "$tree/crates/$crate/$part"
        done
    done > "$work/differs" 2>&1
    check 'and all sources' '' "$(cat "$work/differs")"
    check 'a program with what its stored run reads' 'args stdin stdout' "$(cd "$here/crates/mgdb" && ls "$tree/crates/mgdb" | grep -v src | paste -sd' ')"
    check 'without what was built, and without must-fail edits' '' "$(find "$tree/crates" -name out -o -name must-fail)"
    check 'and the handles' "$(cat "$here/HANDLES")" "$(cat "$tree/HANDLES")"
    check 'it is the top of a repository' 'yes' "$([ -d "$tree/.git" ] && echo yes)"
}

estimates() {
    check 'README tells the same seconds' 'yes' \
        "$(tr -d , < "$here/README.md" | grep -q "$all_seconds processor seconds" && tr -d , < "$here/README.md" | grep -q "$chain_seconds" && echo yes)"
    check 'one processor takes all of the work' $(((all_seconds + 59) / 60)) "$(minutes_wanted 1)"
    check 'two take half of it, but no less than the longest chain' \
        $(((((all_seconds + 1) / 2 > chain_seconds ? (all_seconds + 1) / 2 : chain_seconds) + 59) / 60)) "$(minutes_wanted 2)"
    check 'many take the longest chain' $(((chain_seconds + 59) / 60)) "$(minutes_wanted 64)"
}

# A repository of three crates, of which the program needs two, with ./mgdb and a stand-in for rt.
small_repository() {
    local crate
    rm -rf "$work/small"
    mkdir -p "$work/small/bin" "$work/small/crates"
    cp "$here/mgdb" "$work/small/mgdb"
    printf '# Below\nlow: itoa\n\n# Above\nmgdb: low\naside: low  # not in the program\n' > "$work/small/crates.txt"
    : > "$work/small/HANDLES"
    for crate in low mgdb aside; do
        mkdir -p "$work/small/crates/$crate/"{src,specs,proofs,must-fail,out}
        echo text > "$work/small/crates/$crate/src/lib.rt"
        touch "$work/small/crates/$crate/"{specs/Lib.antt,proofs/x.antt,must-fail/e.edit,out/old.rt}
    done
    cat > "$work/small/bin/rt" <<'RT'
#!/usr/bin/env bash
[ "$*" == ci ] || exit 9
if [ -e "$KEPT" ]; then echo 'rt: low is kept: an earlier run proved it'; else echo 'rt: low proved'; fi
[ -e "$SLOW" ] && sleep 2
[ -e "$REFUSES" ] && { echo 'rt: mgdb NOT PROVED'; exit 1; }
mkdir -p crates/mgdb/out
printf '#!/usr/bin/env bash\necho ran "$@"; exit 3\n' > crates/mgdb/out/mgdb
echo "rt: mgdb is kept: an earlier run proved it"
RT
    chmod +x "$work/small/bin/rt"
}

# What ./mgdb of the small repository prints, and tells, and its status.
small() { (cd "$work" && SLOW=$work/slow KEPT=$work/kept REFUSES=$work/refuses PATH="$work/small/bin:$PATH" small/mgdb "$@" 2> told; echo "status $?"); }
built() { grep -c 'built the program' "$work/told"; }
# A source that changes after the program was built.
later() { touch -d '+1 minute' "$work/small/crates/$1"; }

builds() {
    small_repository
    check 'it runs the program with the words and gives its status' $'ran run a b\nstatus 3' "$(small run a b)"
    check 'what is missing is built' 1 "$(built)"
    check 'and told' $'mgdb: low is proved (1 of 2)\nmgdb: mgdb is proved (2 of 2)' "$(grep 'is proved' "$work/told")"
    check 'and how long it takes' 1 "$(grep -c 'from nothing this takes [0-9]* to [0-9]* minutes' "$work/told")"
    check 'what is built stays' $'ran \nstatus 3 0' "$(small '') $(built)"
    check 'nothing is told then' '' "$(cat "$work/told")"
    later low/out/old.rt
    check 'what was built is no source' 0 "$(small > /dev/null; built)"
    later low/must-fail/e.edit
    check 'nor is a must-fail edit' 0 "$(small > /dev/null; built)"
    later aside/src/lib.rt
    check 'nor a crate that is not needed' 0 "$(small > /dev/null; built)"
    local source
    for source in low/src/lib.rt low/specs/Lib.antt low/proofs/x.antt mgdb/src/lib.rt; do
        small_repository
        small > /dev/null
        later "$source"
        check "a later $source is built" 1 "$(small > /dev/null; built)"
    done
    small_repository
    touch "$work/refuses"
    check 'where a proof fails nothing runs' 'status 70' "$(small run a)"
    check 'and what rt wrote is told' 1 "$(grep -c 'mgdb NOT PROVED' "$work/told")"
    check 'and no program is left' 'no' "$([ -e "$work/small/crates/mgdb/out/mgdb" ] && echo yes || echo no)"
    rm "$work/refuses" "$work/small/bin/rt"
    # (where the toolchain's folder is none of these)
    PATH=/usr/bin:/bin command -v rt > /dev/null && return
    check 'without rt nothing runs' 'status 70' "$(PATH=/usr/bin:/bin small run a)"
    check 'and that is told' 1 "$(grep -c 'not in PATH' "$work/told")"
}

tells_each_minute() {
    small_repository
    touch "$work/slow"
    sed -i 's/^minute=60$/minute=1/' "$work/small/mgdb"
    small > /dev/null
    check 'each minute it tells how far it is, and how much is left' 'yes' \
        "$(grep -q '^mgdb: 0 min, 1 of 2 crates are proved, about 50 % of the work; at this pace 1 min more$' "$work/told" && echo yes)"
    rm "$work/small/crates/mgdb/out/mgdb"
    touch "$work/kept"
    small > /dev/null
    check 'what was kept tells no pace' 'yes' "$(grep -q '^mgdb: 0 min, 1 of 2 crates are proved, about 50 % of the work$' "$work/told" && echo yes)"
    rm "$work/slow" "$work/kept"
}

crates_that_are_taken
copies
estimates
builds
tells_each_minute
finish 'first command'
