#!/usr/bin/env python3
"""Tests that the pages which name crates and clauses name those that are there.

Each crate of crates.txt stands once in the map of docs/ARCHITECTURE.md and once in docs/PROVED.md, in the section that it
has there, and names each library that its line has; the crates of laws have no code. Names in README.md and docs/ are
names of the code, files there are files of the repository, names of docs/DEFINITIONS.md stand in the files beside them,
those of docs/PROVED.md in the crate, and pages are drawn as in their crates. README tells how many crates there are, and
its first script is that of examples/. .ci/run calls it. Where a check fails its last line is 'N passed, M failed'."""
import os
import re
import sys

ROOT = os.path.dirname(os.path.dirname(os.path.abspath(__file__)))
# Words of scripts, of SQL, of the system and of the toolchain, which stand in backticks as names do.
OTHER = {"rt", "stdin", "stdout", "busy_timeout", "gbak", "DB", "BEGIN", "CONNECT", "INPUT", "COMMIT", "ROLLBACK", "SELEC"}
OTHER |= {"fdatasync", "Pay"}
# Names of what a recipe of docs/DEVELOPING.md makes, and of a file that stands for any.
MADE = {"mg_K", "new_k", "check_k", "XLaws"}
MADE_FILES = {"mg_page_tests/src/tests/k.rt"}
GREATEST_README = 20_000
# The crates of page kinds, by the heading of docs/FILE-FORMAT.md that draws the same page.
KINDS = {
    "Header page": "mg_header", "Page inventory page": "mg_pip", "Transaction inventory page": "mg_tip",
    "Pointer page": "mg_pointer", "Data page": "mg_slots", "Index page": "mg_node",
}
# The pages whose names are tested. docs/PROVING.md speaks of names that a reader gives, and of messages.
PAGES = ["README.md"] + [f"docs/{it}.md" for it in (
    "ARCHITECTURE", "DECISIONS", "DEFINITIONS", "DEVELOPING", "FILE-FORMAT", "PROVED", "SCRIPT", "SQL",
)]
# Libraries that a line of crates.txt has and its crate does not name. Each costs a proof of all that stands above to take
# out, so it goes when its crate is proved anyway.
UNNAMED = {("mg_table_unmaking", "mg_undo"), ("mg_limbo_report", "mg_check_pages")}
# Crates without code outside of the section of laws: what an image means, and what a run promises, as definitions; and the
# laws of a crate beside them.
OTHER_LAWS = {"mg_image", "mg_runs", "mg_release_laws"}


def text_of(path):
    with open(f"{ROOT}/{path}") as file:
        return file.read()


def sections():
    """The crates of crates.txt by their section's word, and those that are marked."""
    found, word, marked = {}, None, set()
    for line in text_of("crates.txt").splitlines():
        head = re.match(r"# ([A-Z][\w ]*) -- ", line)
        crate = re.match(r"(\w+):", line)
        if head:
            word = head[1]
            found[word] = []
        elif crate:
            found[word].append(crate[1])
            if "# not in the program" in line:
                marked.add(crate[1])
    return found, marked


def libraries():
    """What each line of crates.txt has behind its crate."""
    lines = re.findall(r"(?m)^(\w+):([^#\n]*)", text_of("crates.txt"))
    return {crate: rest.split() for crate, rest in lines}


def sources(crate, folders, endings):
    """The texts of a crate's files in these folders, without comments."""
    for top in folders:
        for folder, _, names in os.walk(f"{ROOT}/crates/{crate}/{top}"):
            for name in names:
                if name.endswith(endings):
                    with open(f"{folder}/{name}") as file:
                        yield re.sub(r"(?m)(//|-- ).*$", "", file.read())


def unnamed():
    """The libraries that a line has and no source of its crate names."""
    for crate, names in libraries().items():
        words = set()
        for text in sources(crate, ("src", "specs", "proofs"), (".rt", ".antt")):
            words.update(re.findall(r"\w+", text))
        yield from ((crate, name) for name in names if name not in words)


def has_code(crate):
    """Whether a crate has a function that takes or gives something; a law does neither."""
    function = re.compile(r"\bfn \w+\s*(?:<[^(]*>)?\(([^)]*)\)\s*(->)?")
    return any(of[1].strip() or of[2] for text in sources(crate, ("src",), ".rt") for of in function.finditer(text))


def not_below():
    """What the map says that a crate stands on and its line of crates.txt doesn't name."""
    names = libraries()
    rows = re.findall(r"(?m)^\| \(?`(mg\w*)`\)? \| .* \| (.*) \|$", text_of("docs/ARCHITECTURE.md"))
    return [(crate, it) for crate, below in rows if crate in names for it in re.findall(r"`(\w+)`", below) if it not in names[crate]]


def headed(text, level, entry):
    """What the entries under each heading of a level are, in their order."""
    found, word = {}, None
    for line in text.splitlines():
        if line.startswith("#" * level + " "):
            word = line[level + 1 :]
            found[word] = []
        elif line.startswith("## ") and level > 2:
            word = None
        elif word is not None and (of := re.match(entry, line)):
            found[word].append(of[1])
    return {word: names for word, names in found.items() if names}


def names_of_code():
    """Every word of the crates' sources, with the crates' own names."""
    words = set(os.listdir(f"{ROOT}/crates"))
    for folder, folders, files in os.walk(f"{ROOT}/crates"):
        folders[:] = [it for it in folders if it not in ("out", "must-fail")]
        for name in files:
            if name.endswith((".rt", ".antt")):
                words.add(name.partition(".")[0])
                with open(f"{folder}/{name}") as file:
                    words.update(re.findall(r"\w+", file.read()))
    return words


def unknown(path, words):
    """Names in backticks that no source has. What has a blank, a path, an option or a sign is no name."""
    text = re.sub(r"```.*?```", "", text_of(path), flags=re.S)
    names = {it for it in re.findall(r"`([^`\n]+)`", text) if re.fullmatch(r"[A-Za-z]\w*(?:(?:::|\.)\w+)?", it)}
    files = re.compile(r".*\.(md|txt|antt)")
    known = OTHER | MADE
    return sorted(it for it in names if it not in known and not files.fullmatch(it) and not set(re.split(r"::|\.", it)) <= words)


def missing(path):
    """Files of the repository that a page names, and that are not there."""
    top = r"(?:mg\w+/(?:src|specs|proofs)|crates|docs|tests|examples)"
    names = set(re.findall(rf"`({top}/[\w./-]+)`", text_of(path))) - MADE_FILES
    tries = {it: (it, f"crates/{it}", f"crates/{it}.antt") for it in names if not it.endswith("..")}
    return sorted(it for it, paths in tries.items() if not any(os.path.exists(f"{ROOT}/{at}") for at in paths))


def doubled(path):
    """Headings that a page has twice."""
    heads = re.findall(r"(?m)^#+ .*$", re.sub(r"(?ms)^```.*?^```", "", text_of(path)))
    return sorted({it for it in heads if heads.count(it) > 1})


def words_by_file(crate):
    """The words of each file of a crate's src/ and specs/, by the file's name."""
    found = {}
    for top in ("src", "specs"):
        for folder, _, names in os.walk(f"{ROOT}/crates/{crate}/{top}"):
            for name in (it for it in names if it.endswith((".rt", ".antt"))):
                with open(f"{folder}/{name}") as file:
                    found.setdefault(name.partition(".")[0], set()).update(re.findall(r"\w+", file.read()))
    return found


def misplaced():
    """Names in a table of docs/DEFINITIONS.md that none of the files beside them has, in the crates of which their section
    speaks."""
    every, known, found = set(os.listdir(f"{ROOT}/crates")), {}, []
    for section in re.split(r"(?m)^(?=#{2,3} )", text_of("docs/DEFINITIONS.md")):
        crates = {it for it in re.findall(r"mg_\w+", section) if it in every}
        known.update({it: words_by_file(it) for it in crates if it not in known})
        for names, files in re.findall(r"(?m)^\| (`[^|]*) \| ([^|`]*) \| [^|]+\|$", section):
            places = re.findall(r"\b[A-Z]\w+", files)
            there = {word for it in crates for place in places for word in known[it].get(place, ())}
            found += [(it, files) for it in re.findall(r"`(\w+)", names) if places and it not in there]
    return found


def foreign():
    """Names in an entry of docs/PROVED.md that neither its crate has nor another one that the entry names."""
    every, known, found = set(os.listdir(f"{ROOT}/crates")), {}, []
    for entry in re.split(r"(?m)^(?=##+ )", text_of("docs/PROVED.md")):
        if head := re.match(r"### (\w+)", entry):
            crates = {it for it in re.findall(r"mg_\w+", entry) if it in every} | {head[1]}
            known.update({it: words_by_file(it) for it in crates if it not in known})
            words = {word for it in crates for place in known[it] for word in known[it][place] | {place}} | every
            names = re.findall(r"`([A-Za-z]\w*(?:(?:::|\.)\w+)?)`", entry)
            parts = {part for it in names if not it.endswith(".antt") for part in re.split(r"::|\.", it)}
            found += [(head[1], it) for it in sorted(parts - words - OTHER)]
    return found


def layouts():
    """Where the fields of each kind of page stand and how wide they are, behind the common part: by docs/FILE-FORMAT.md, and
    by the crates' root comments."""
    row = r"\| (\d+) \| ?([^|]*?) ?\| .*"
    drawn = {}
    for section in text_of("docs/FILE-FORMAT.md").split("\n## "):
        table = re.search(r"\| at \| width \|.*\n\|[-|]*\n((?:\|.*\n)*)", section)
        drawn[section.split("\n")[0]] = re.findall(row, table[1]) if table else []
    coded = {it: re.findall(rf"(?m)^//! {row}$", text_of(f"crates/{it}/src/lib.rt")) for it in KINDS.values()}
    return {it: drawn[it] for it in KINDS}, {it: [row for row in coded[KINDS[it]] if row[0] != "0"] for it in KINDS}


def told_counts():
    """How many crates README says that the program needs, and that there are."""
    text = text_of("README.md")
    needed = re.search(r"proves the (\d+) crates that the program needs", text)
    return int(needed[1]), int(re.search(r"proves all (\d+) crates", text)[1])


def first_script():
    """The two columns of README's first script."""
    block = re.search(r"## A first script.*?```\n(.*?)```", text_of("README.md"), re.S)[1].splitlines()
    rows = [re.fullmatch(r"(.*?) {2,}(\S.*)", line).groups() for line in block]
    return [asked for asked, _ in rows if asked], [told for _, told in rows]


def main():
    given, marked = sections()
    every = [crate for crates in given.values() for crate in crates]
    proved = headed(text_of("docs/PROVED.md"), 2, r"### (\w+)")
    noted = set(re.findall(r"(?m)^### (\w+) \(not in the program\)$", text_of("docs/PROVED.md")))
    drawn = headed(text_of("docs/ARCHITECTURE.md"), 3, r"\| \(?`(mg\w*)`\)? \|")
    bracketed = set(re.findall(r"(?m)^\| \(`(mg\w*)`\) \|", text_of("docs/ARCHITECTURE.md")))
    words = names_of_code()
    asked, told = first_script()
    script = [line for line in text_of("examples/hello.script").splitlines() if line and not line.startswith("--")]
    drawn_pages, coded_pages = layouts()
    checks = [
        ("docs/FILE-FORMAT.md draws pages as the crates do", drawn_pages, coded_pages),
        ("each crate has a line", sorted(os.listdir(f"{ROOT}/crates")), sorted(every)),
        ("docs/PROVED.md has each crate in its section", {w: sorted(c) for w, c in given.items()}, {w: sorted(c) for w, c in proved.items()}),
        ("and marks those that the program does not need", marked, noted),
        ("docs/ARCHITECTURE.md has each crate in its section", sorted(map(sorted, given.values())), sorted(map(sorted, drawn.values()))),
        ("and brackets those that the program does not need", marked, bracketed),
        ("a crate of the map stands on libraries that its line names", [], not_below()),
        ("each line names what its crate names", sorted(UNNAMED), sorted(unnamed())),
        ("crates of laws have no code", sorted(set(given["Laws"]) | OTHER_LAWS), sorted(it for it in every if not has_code(it))),
        ("docs/DEFINITIONS.md has each name with its file", [], misplaced()),
        ("docs/PROVED.md has each name with its crate", [], foreign()),
        ("README tells how many crates there are", (len(every) - len(marked), len(every)), told_counts()),
        ("README's first script", script, asked),
        ("and what it prints", text_of("examples/hello.out").splitlines(), told),
        ("README is short", True, len(text_of("README.md").encode()) < GREATEST_README),
    ]
    for page in PAGES:
        checks.append((f"{page} names what is there", [], unknown(page, words)))
        checks.append((f"the files that {page} names are there", [], missing(page)))
        checks.append((f"{page} has no heading twice", [], doubled(page)))
    failed = [it for it in checks if it[1] != it[2]]
    for name, wanted, found in failed:
        print(f"FAILED: {name}\nwanted: {wanted}\ngiven: {found}")
    if failed:
        print(f"{len(checks) - len(failed)} passed, {len(failed)} failed")
        return 1
    print(f"docs: each of {len(checks)} checks is as it has to be")
    return 0


sys.exit(main())
