#!/usr/bin/env python3
"""Reads the system calls of a run, as strace -y wrote them, and prints what the run did with its file that it must not do.

usage: tests/trace.py FILE new|old TRACE..              new: the file was not there before the run
       tests/trace.py --tampered FILE new|old TRACE

FILE is its whole path, as strace prints it. What has to hold of each trace:

  * nothing is read or written before the file is locked, and the lock is kept;
  * what the file held at the opening is synced before a page is read or written, or a line is printed;
  * the folder of a new file is synced before a page is written, or a line is printed;
  * a page write is whole: what a short write left is written behind it;
  * a page write is synced before the next one, before a line is printed, and before the end;
  * behind a page write or a sync that failed nothing is read, written or synced, and the run ends with 3;
  * a line that tells a commit comes behind a page write that the line before did not have.

The last line tells how many page writes and printed lines there were in all, so that a trace of nothing is seen. With
--tampered each call that counts is taken out of the trace, or refused, or falls short, or comes too late, or is one on
another file: in each trace that comes of it the reader has to find a fault, and it prints those in which it finds none; and
it has to find none where a page is written in two parts, or more is synced than has to be."""
import re
import sys

CALL = re.compile(r"(\w+)\((.*)\) += (-?\d+|\?)(?: (\w+))?")
SUBJECT = re.compile(r"(\d+)<([^>]*)>(?:, )?(.*)", re.DOTALL)
# What leaves a file as it is.
HARMLESS = {"fstat", "newfstatat", "statx", "lseek", "fadvise64", "close", "dup", "fcntl"}
SYNCS = {"fsync", "fdatasync"}
PUT = re.compile(r'"@put: OK')
# More than is read of a file to learn its page size, and less than a page.
FRONT = 512


class Call:
    """One system call on a descriptor: its name, its descriptor, the path under that, its other words, and its answer."""

    def __init__(self, line, at):
        self.line, self.at = line, at
        found = CALL.match(line)
        subject = SUBJECT.match(found[2]) if found else None
        self.name, self.arguments = (found[1], found[2]) if found else (None, "")
        self.descriptor, self.path, self.words = (int(subject[1]), subject[2], subject[3]) if subject else (None, None, "")
        self.answer = int(found[3]) if found and found[3] != "?" else -1

    def numbers(self):
        """The last two words of a read or a write at a place: how many bytes, and from where."""
        return [int(word) for word in self.words.rsplit(", ", 2)[1:]]


class Reader:
    """Goes over the calls of a run, and keeps what of the file is open."""

    def __init__(self, path, is_new):
        self.path, self.folder = path, path.rpartition("/")[0] or "/"
        self.folder_owed = is_new
        self.locked = self.synced = self.failed = False
        self.is_open = False
        # The bytes of a page that are not written yet, as (from, how many), and whether a page is not synced.
        self.rest = None
        self.unsynced = None
        self.page_size = None
        self.writes = self.lines = self.writes_told = 0
        self.faults = []

    def fault(self, call, words):
        self.faults.append(f"line {call.at}: {words}: {call.line}")

    def settled(self, call, deed):
        """What has to be settled before a page is read or written, or a line is printed."""
        if not self.synced:
            self.fault(call, f"{deed}, and what the file held is not synced")
        if self.folder_owed:
            self.fault(call, f"{deed}, and the folder of the new file is not synced")
        if self.rest is not None:
            self.fault(call, f"{deed}, and of the page write before it the rest is not written")
        if self.unsynced is not None:
            self.fault(call, f"{deed}, and the page write at {self.unsynced} is not synced")

    def read(self, call):
        size, start = call.numbers()
        if size > FRONT or start > 0:
            self.settled(call, "a page is read")

    def write(self, call):
        size, start = call.numbers()
        if self.rest is None:
            self.settled(call, "a page is written")
            self.page_size = self.page_size or size
            if size != self.page_size or start % size:
                self.fault(call, f"what is written is no page of {self.page_size} bytes")
            self.unsynced = start
            self.writes += 1
        elif self.rest != (start, size):
            self.fault(call, f"{self.rest[1]} bytes at {self.rest[0]} are the rest of the page write before it")
        if call.answer < 0:
            self.failed = True
        elif call.answer < size:
            self.rest = (start + call.answer, size - call.answer)
        else:
            self.rest = None

    def sync(self, call):
        if self.rest is not None:
            self.fault(call, "a page is synced, and the rest of it is not written")
        if call.answer < 0:
            self.failed = True
        else:
            self.synced, self.unsynced = True, None

    def on_file(self, call):
        """One call on the file itself."""
        if call.name == "flock":
            self.locked = call.answer == 0 and "LOCK_EX" in call.words
            return
        if call.name in HARMLESS:
            if call.name == "close":
                self.end(call)
                self.locked = False
            return
        if not self.locked:
            self.fault(call, "the file is not locked")
        if call.name == "ftruncate":
            # (the file gets the length back that it had before a page write that failed)
            if not self.failed:
                self.fault(call, "the file's length is changed")
            return
        if self.failed:
            self.fault(call, "a page write or a sync has failed before")
        if call.name == "pread64":
            self.read(call)
        elif call.name == "pwrite64":
            self.write(call)
        elif call.name in SYNCS:
            self.sync(call)
        else:
            self.fault(call, "no call that the reader knows")

    def printed(self, call):
        self.lines += call.words.count("\\n")
        if self.failed:
            # (what failed is told, and counts as nothing else)
            if PUT.match(call.words):
                self.fault(call, "a commit is told behind a page write or a sync that failed")
            return
        self.settled(call, "a line is printed")
        if PUT.match(call.words) and self.writes == self.writes_told:
            self.fault(call, "a commit is told, and no page was written for it")
        self.writes_told = self.writes

    def end(self, call):
        if not self.failed:
            self.settled(call, "the run ends")

    def step(self, call):
        if call.path == self.path:
            self.is_open = True
            self.on_file(call)
        elif f"<{self.path}>" in call.arguments:
            self.fault(call, "no call that the reader knows")
        elif call.path == self.folder and call.name in SYNCS and call.answer == 0:
            self.folder_owed = False
        elif call.descriptor == 1 and call.name in ("write", "writev"):
            self.printed(call)
        elif self.is_open and (ended := re.search(r"\+\+\+ exited with (\d+)", call.line)):
            self.end(call)
            if self.failed and ended[1] != "3":
                self.fault(call, "a page write or a sync has failed")


def read(lines, path, is_new):
    reader = Reader(path, is_new)
    for at, line in enumerate(lines):
        reader.step(Call(line, at + 1))
    if not reader.is_open:
        reader.faults.append("the file was not opened")
    return reader


def answered(line, answer):
    """The same call with another answer."""
    return line[: list(re.finditer(r"\) += ", line))[-1].end()] + answer


def tampered(lines, path, is_new):
    """Traces of runs that went wrong in one place, each with its name."""
    calls = [Call(line, at + 1) for at, line in enumerate(lines)]
    folder = path.rpartition("/")[0]
    is_write = [it.path == path and it.name == "pwrite64" for it in calls]
    is_sync = [it.name in SYNCS and (it.path == path or is_new and it.path == folder) for it in calls]
    is_printed = [it.descriptor == 1 and it.name == "write" for it in calls]
    for at, (line, call) in enumerate(zip(lines, calls)):
        without, rest = lines[:at], lines[at + 1 :]
        if is_sync[at] or call.name == "flock" and call.path == path:
            yield f"without line {at + 1}", without + rest
            yield f"line {at + 1} on another file", without + [line.replace(call.path, "/another")] + rest
            yield f"line {at + 1} refused", without + [answered(line, "-1 EIO (Input/output error)")] + rest
        if is_write[at]:
            size, _ = call.numbers()
            short = answered(line, str(size // 2))
            yield f"line {at + 1} refused", without + [answered(line, "-1 EIO (Input/output error)")] + rest
            yield f"line {at + 1} short", without + [short] + rest
            yield f"line {at + 1} short and begun anew", without + [short, line] + rest
            yield f"line {at + 1} twice", without + [line, line] + rest
        # A page write behind its sync; a sync behind the next page write or the next line.
        late = is_sync if is_write[at] else [a or b for a, b in zip(is_write, is_printed)] if is_sync[at] else []
        behind = next((n for n in range(at + 1, len(late)) if late[n]), None)
        if behind is not None:
            yield f"line {at + 1} behind line {behind + 1}", without + lines[at + 1 : behind + 1] + [line] + lines[behind + 1 :]


def lawful_variants(lines, path):
    """Traces that differ and are as lawful: a page written in two parts, and a sync of more than the data."""
    for at, line in enumerate(lines):
        call = Call(line, at + 1)
        if call.path == path and call.name == "pwrite64":
            size, start = call.numbers()
            half = size // 2
            end = line.rindex(f", {size}, {start}) = ")
            first = f"{line[:end]}, {size}, {start}) = {half}"
            second = f"{line[:end]}, {size - half}, {start + half}) = {size - half}"
            yield f"line {at + 1} in two parts", lines[:at] + [first, second] + lines[at + 1 :]
        if call.path == path and call.name == "fdatasync":
            yield f"line {at + 1} an fsync", lines[:at] + [line.replace("fdatasync", "fsync")] + lines[at + 1 :]


def text_of(trace):
    with open(trace, errors="replace") as file:
        return file.read().splitlines()


def tell(path, is_new, traces):
    writes = lines = 0
    for trace in traces:
        reader = read(text_of(trace), path, is_new)
        for fault in reader.faults:
            print(f"{trace}, {fault}")
        writes += reader.writes
        lines += reader.lines
    print(f"{writes} page writes, {lines} lines")


def tell_tampered(path, is_new, trace):
    lines = text_of(trace)
    count = 0
    for fault in read(lines, path, is_new).faults:
        print(fault)
    for name, wrong in tampered(lines, path, is_new):
        count += 1
        if not read(wrong, path, is_new).faults:
            print(f"not seen: {name}")
    for name, right in lawful_variants(lines, path):
        for fault in read(right, path, is_new).faults:
            print(f"refused, {name}: {fault}")
    print("some were tried" if count > 50 else f"{count} were tried")


if __name__ == "__main__":
    words = sys.argv[1:]
    if words[0] == "--tampered":
        tell_tampered(words[1], words[2] == "new", words[3])
    else:
        tell(words[0], words[1] == "new", words[2:])
