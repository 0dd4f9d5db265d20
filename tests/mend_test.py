#!/usr/bin/env python3
"""Holds the program `mend` to what is kept and shown of it, and tests the command around it.

    tests/mend_test.py

Held to the program, or to the command in the variable PORT: traces/broken.csv with its mended trace and its list, and
every example of docs/TRACE.md, byte for byte; what document 02 asks of every mending, on these, on a long one and on a
sound one; and what it says and leaves where something fails: arguments, files that are there, names, full disks, closed
streams, readers that go away. Where the program is not built this is left out and said so, but not where CI is true. The
rest needs no program: that the kept files have every cause, tests/mend.sh with a shell in the program's place for which
each trace is what it is to do, and the Makefile. A line for each fault, and then 1."""

import collections
import os
import re
import resource
import shutil
import signal
import socket
import subprocess
import sys
import tempfile
import time

from port import Fault, program
from replay_bench import wait_until_read
from replay_test import DAY, HEADER, PAGE, Page
from replay_test import answered, check_rows, due, ended, files_of, port_set, read, text_of, verdict, write
from words import ROOT

BROKEN, BROKEN_MENDED, BROKEN_LIST = "traces/broken.csv", "traces/broken.mended.csv", "traces/broken.list.csv"
HEAD, LIST_HEAD, UNFINISHED = text_of([HEADER]), b"line,field\r\n", b"unfinished\r\n"
# Lines after which the program says how far it is, and the bytes of the longest name that the system takes.
STEP, LONGEST = 1 << 22, 4095
# Seconds after which something that doesn't come is given up.
PATIENCE = 20

# How a run of the program ended, what it wrote and said, and its list: None where there is none.
Mended = collections.namedtuple("Mended", ["status", "text", "said", "list"])


def lines_of(text):
    """The lines after the header, each with its end."""
    return re.findall(rb"[^\n]*\n|[^\n]+", text[len(HEAD) :])


def entries_of(listed):
    """The fields at fault by line, in the list's order."""
    return {int(line): int(field) for line, field in (entry.split(b",") for entry in listed.split(b"\r\n")[1:-1])}


def summary_of(lines, listed):
    return f"lines: {lines}\nkept: {lines - listed}\nlisted: {listed}\n"


# ---- the page and the kept files, whatever the program does

# Of each kind the fields from 2 to 11: n is a number, o a number or empty, - is empty, f a flag.
FIELDS = {b"start": "n-------n-", b"sent": "n-nnn-----", b"event": "nnno-nnoof"}
WRONG = {"n": ["empty", "no number", "above"], "o": ["no number", "above"], "-": ["filled"], "f": ["empty", "filled"]}
# Other causes, by a line that has one, and its entry in the list: None where it is kept.
CAUSES = {
    "4,097 bytes": (rb"(?s)(?=.{4097}\Z)sent,2500,,0,2,0+,,,,,\r\n", 0),
    "4,096 bytes": (rb"(?s)(?=.{4096}\Z)sent,2500,,0,2,0+,,,,,\r\n", 6),
    "a line feed alone": (rb"sent,2500,,0,2,1300,,,,,\n", 0),
    "a line feed alone, and a field": (rb"sent,0\d+,,0,2,1300,,,,,\n", 0),
    "a line feed alone, after a byte too many": (rb"sent,2500,,0,2,1300,,,,,0\n", 0),
    "no end": (rb"sent,\d+,,0,3,1300,,,,,", 0),
    "an empty line": (rb"\r\n", 0),
    "one field": (rb"sent\r\n", 0),
    "ten fields": (rb"sent,([^,]*,){8}[^,]*\r\n", 0),
    "ten fields, and no kind": (rb"ack,([^,]*,){8}[^,]*\r\n", 0),
    "twelve fields": (rb"event,([^,]*,){10}[^,]*\r\n", 0),
    "a cut line and a start": (rb"sent,\d+start,.*\r\n", 0),
    "no kind": (rb"ack,2500,,0,2,1300,,,,,\r\n", 1),
    "no kind: other case": (rb"Sent,.*\r\n", 1),
    "no kind, and other fields": (rb"ack,,x,.*\r\n", 1),
    "the header again": (rb"kind,time,.*\r\n", 1),
    "CR CR LF": (rb"sent,.*\r\r\n", 11),
    "two fields: the first": (rb"sent,2500,7,x,2,1300,,,,,\r\n", 3),
    "above its limit, and a field": (rb"event,2500,1099511627777,0,x,.*\r\n", 5),
    "above its limit": (rb"event,2500,1099511627777,0,,.*\r\n", None),
    "a moment of 2^64 - 1": (rb"sent,18446744073709551615,.*\r\n", None),
    "earlier": (rb"sent,1999,.*\r\n", None),
    "a total that falls": (rb"event,2500,1300,0,,,1299,1300,,,0\r\n", None),
    "a number never sent": (rb"event,2500,1300,0,2,,1300,1300,,,0\r\n", None),
}
# The beginning of the kept trace: a kind or a whole line, and its entry.
BEFORE_START = [(b"sent", 0), (b"event", 0), (b"sent", 5), (b"event", 11), (b"event", 6), (b"start", 10), (b"sent", 0), (b"start", 0)]
BEFORE_START += [(b"event", 0), (b"start", 0), (b"sent", 0), (b"Start", 1), (b"sent", 0), (b"start", None), (b"sent", 0)]
BEFORE_START += [(b"start", None), (b"event", 0), (b"event", 8), (b"start", None), (b"sent", None)]


def wrong_of(value):
    """What is wrong with a field that is at fault, by its bytes."""
    if not value:
        return "empty"
    if not re.fullmatch(rb"0|[1-9][0-9]*", value):
        return "no number"
    return "above" if int(value) >= 2**64 else "filled"


def check_kept():
    """The kept files fit each other, and have every cause."""
    text, mended, listed = read(BROKEN), read(BROKEN_MENDED), read(BROKEN_LIST)
    lines, entries = lines_of(text), entries_of(listed)
    check_law(BROKEN, text, Mended(0, mended, summary_of(len(lines), len(entries)), listed))
    due(BROKEN, len(text) < 16_384, f"{len(text)} bytes")
    named = [(line, entries.get(number)) for number, line in enumerate(lines, 1)]
    for cause, (pattern, field) in CAUSES.items():
        found = {entry for line, entry in named if re.fullmatch(pattern, line)}
        due(BROKEN, found == {field}, f"{cause}: the entries are {found}, and should be {field}")
    wanted = {(kind, place, wrong) for kind, forms in FIELDS.items() for place, form in enumerate(forms, 2) for wrong in WRONG[form]}
    fields = [(line[:-2].split(b","), entry) for line, entry in named if entry and entry > 1]
    found = {(parts[0], entry, wrong_of(parts[entry - 1])) for parts, entry in fields}
    due(BROKEN, wanted <= found, f"no line for {sorted(wanted - found)}")
    begun = [(line.split(b",")[0], entry) for line, entry in named[: len(BEFORE_START)]]
    due(BROKEN, begun == BEFORE_START, f"it begins with {begun}")


def check_page(page):
    """What the page has of a mending."""
    one = {"damaged.csv"}
    due(PAGE, set(page.mended) == set(page.lists) == set(page.said) == one, "its mended traces and lists")
    names = dict(re.findall(r"^\| (\d+) \| `(\w+)` \| .+ \|$", page.text, re.M))
    due(PAGE, names == {str(place): name for place, name in enumerate(HEADER.split(","), 1)}, f"its fields are {names}")
    shown = {int(entry.split(",")[1]) for _, entry in page.entries}
    due(PAGE, shown == set(range(12)), f"its examples have the fields {sorted(shown)}")
    for line, entry in page.entries:
        text, number = page.example(line, entry)
        due(f"{PAGE}: {line}", entry.startswith(f"{number},"), f"its entry should begin with {number}")
        if "zeros" in line:
            length = len(lines_of(text)[-1])
            due(f"{PAGE}: {line}", length == (4097 if entry == "4,0" else 4096), f"it has {length} bytes")


# ---- the program


def done(words, text, target, **streams):
    """What the program does with a trace, or with the stream that is given in its place."""
    streams = {"stdout": subprocess.PIPE, "stderr": subprocess.PIPE, **({} if "stdin" in streams else {"input": text}), **streams}
    ran = subprocess.run([*words, target], cwd=ROOT, **streams)
    listed = read(target) if os.path.isfile(target) else None
    return Mended(ran.returncode, ran.stdout or b"", (ran.stderr or b"").decode(errors="backslashreplace"), listed)


def fresh(folder):
    """A name that no file of the folder has."""
    return os.path.join(folder, f"list{time.monotonic_ns()}")


def check_law(where, text, ran):
    """The lines kept are unchanged and in order, the others listed in order, and the summary counts both."""
    lines, whole = lines_of(text), (ran.list or b"").startswith(LIST_HEAD)
    due(where, ran.status == 0 and whole, f"it ends with {ran.status}, and its list begins with {(ran.list or b'none')[:20]}")
    if not whole:
        return
    entries = entries_of(ran.list)
    listed = LIST_HEAD + b"".join(b"%d,%d\r\n" % (line, entries[line]) for line in sorted(entries))
    due(where, ran.list == listed and all(1 <= line <= len(lines) for line in entries), "its list is no list in order")
    check_rows(where, ran.text, HEAD + b"".join(line for number, line in enumerate(lines, 1) if number not in entries))
    due(where, ran.said == summary_of(len(lines), len(entries)), f"{ran.said!r} is what the program says")


def check_again(words, where, text, folder):
    """A trace without a line to drop comes out as it is."""
    ran = done(words, text, fresh(folder))
    check_law(where, text, ran)
    due(where, (ran.text, ran.list) == (text, LIST_HEAD), f"its list is {(ran.list or b'none')[:60]}")


def check_held(words, page, folder):
    """The program beside what is kept and shown. Answers how many inputs it was given."""
    wanted = [(BROKEN, read(BROKEN), read(BROKEN_MENDED), read(BROKEN_LIST))]
    wanted += [(f"{PAGE}: {name}", page.named[name], page.mended[name], page.lists[name]) for name in page.mended]
    for where, text, mended, listed in wanted:
        ran = done(words, text, fresh(folder))
        check_law(where, text, ran)
        check_rows(where, ran.text, mended)
        check_rows(f"{where}, the list", ran.list or b"", listed)
        check_again(words, f"{where}, mended again", ran.text, folder)
    for name, said in page.said.items():
        due(f"{PAGE}: said of {name}", done(words, page.named[name], fresh(folder)).said == said, "the program says something else")
    for line, entry in page.entries:
        text, _ = page.example(line, entry)
        ran = done(words, text, fresh(folder))
        check_law(f"{PAGE}: {line}", text, ran)
        due(f"{PAGE}: {line}", ran.list == LIST_HEAD + text_of([entry]), f"its list is {ran.list}, and {entry} stands there")
    for where, text in ((DAY, read(DAY)), (BROKEN_MENDED, read(BROKEN_MENDED)), ("a header alone", HEAD)):
        check_again(words, where, text, folder)
    return len(wanted) + len(page.entries) + 3


def check_replayed(words, folder):
    """The lines that are listed are those with 6 in the replay, and the rows of the others stay."""
    with port_set(None):
        replay = program("replay")
    rows = lambda text: [row.split(b",", 2) for row in answered(replay, text)[0].split(b"\r\n")[1:-1]]
    ran = done(words, read(BROKEN), fresh(folder))
    before, after = rows(read(BROKEN)), rows(ran.text)
    sixes = [int(number) for number, refusal, _ in before if refusal == b"6"]
    due("the replay", sixes == list(entries_of(ran.list or b"")), f"6 stands in rows {sixes}")
    others = [row[1:] for row in before if row[1] != b"6"]
    due("the replay", [row[1:] for row in after] == others, "of a mended trace it has other rows")


def in_pieces(words, pieces, target):
    """What the program writes, and its list, where each piece is read before the next is written."""
    streams = {"stdin": subprocess.PIPE, "stdout": subprocess.PIPE, "stderr": subprocess.DEVNULL}
    with subprocess.Popen([*words, target], cwd=ROOT, bufsize=0, **streams) as running:
        for piece in pieces:
            running.stdin.write(piece)
            wait_until_read(running.pid, running.stdin)
        running.stdin.close()
        mended = running.stdout.read()
    return mended, read(target)


def check_pieces(words, folder):
    """Pieces that end in the long lines, near the end, before CR, between CR and LF and after it; and a line of which the
    last piece alone would be one."""
    text = read(BROKEN)
    ends = [found.end() for found in re.finditer(rb"[^\n]{4000,}\n", text)]
    cuts = [0, *sorted(end - before for end in ends for before in (40, 2, 1, 0)), len(text)]
    given = in_pieces(words, [text[begin:end] for begin, end in zip(cuts, cuts[1:])], fresh(folder))
    due("in pieces", given == (read(BROKEN_MENDED), read(BROKEN_LIST)), f"it comes out as {given}")
    start, sent = text_of([HEADER, "start,0,,,,,,,,1,"]), text_of(["sent,0,,0,1,1,,,,,"])
    for length in (1, 4095, 4096, 4097, 9000):
        given = in_pieces(words, [start + b"9" * length, sent, sent], fresh(folder))
        wanted = (start + sent, LIST_HEAD + (b"2,1\r\n" if length == 1 else b"2,0\r\n"))
        due(f"in pieces, {length} bytes before", given == wanted, f"it comes out as {given}")


def check_long(words, folder):
    """Many lines, a long line, and what is said after so many."""
    text = HEAD + read(BROKEN)[len(HEAD) :] * 40
    ran = done(words, text, fresh(folder))
    check_law("a long trace", text, ran)
    check_again(words, "a long trace, mended again", ran.text, folder)
    text = text_of([HEADER, "start,0,,,,,,,,1,", "9" * 300_000, "sent,0,,0,1,1,,,,,"])
    ran = done(words, text, fresh(folder))
    check_law("a long line", text, ran)
    due("a long line", ran.list == LIST_HEAD + b"2,0\r\n", f"its list is {ran.list}")
    target = fresh(folder)
    ran = done(words, HEAD + b"\n" * (STEP + 1), target)
    due("how far it is", ran.said == f"{STEP} lines\n" + summary_of(STEP + 1, STEP + 1), f"{ran.said!r} is what the program says")
    due("how far it is", ran.text == HEAD and (ran.list or b"").endswith(b"\r\n%d,0\r\n" % (STEP + 1)), "what it writes")
    os.remove(target)


def check_command(words, folder):
    """The program behind its command."""
    below = os.path.join(folder, "command")
    os.mkdir(below)
    kept = {"broken.csv": read(BROKEN), "broken.mended.csv": read(BROKEN_MENDED), "broken.list.csv": read(BROKEN_LIST)}
    said = summary_of(len(lines_of(read(BROKEN))), len(entries_of(read(BROKEN_LIST)))) + placed(below, "broken")
    given = ended([*SHELL, write(os.path.join(below, "broken.csv"), read(BROKEN))], PORT=" ".join(words))
    due("the command", given == (0, "", said), f"{given}, and should be {(0, '', said)}")
    check_files("the command", below, kept)
    given = ended([*SHELL, os.path.join(ROOT, PAGE), below], PORT=" ".join(words))
    due("the command, a wrong header", given == (1, "", FAILING["a wrong header"][1]), f"{given}")
    check_files("the command, a wrong header", below, kept)


# ---- where something fails

NO_NAME = "name the list, and nothing else: mend LIST <trace >mended"
CLOSED = "standard output or standard error is closed: nothing was mended"
NO_READ, NO_LIST = "the input can't be read", "the list can't be made"
NO_WRITE, NO_ENTRY = "the mended trace can't be written", "the list can't be written"


def check_failed(where, ran, said, listed=None, text=b"", status=0):
    """What a program that failed says, and what it left."""
    wanted = Mended(status, text, said + "\n" if said else "", listed)
    due(where, ran == wanted, f"{str(ran)[:400]}, and should be {str(wanted)[:400]}")


def check_headers(words, folder):
    """Wrong headers: 6, and nothing is written, whatever the list is called."""
    header = HEADER.encode()
    wrong = [b"", b"k", b"kind\r\n", HEAD[:-1], HEAD[:-2], header + b"\n", header + b"\n\n", b"\xef\xbb\xbf" + HEAD, b"\r\n" + HEAD]
    wrong += [HEAD.upper(), HEAD.replace(b",", b";"), header + b" \r\n", header[:-1] + b"h\r\n", b'"kind"' + HEAD[4:]]
    wrong.append(read(PAGE))
    for text in wrong:
        check_failed(f"a wrong header: {text[:70]}", done(words, text, fresh(folder)), "6")
    there = write(fresh(folder), "before")
    check_failed("a wrong header, and a list that is there", done(words, b"kind\r\n", there), "6", b"before")
    check_failed("a wrong header, and no folder", done(words, b"kind\r\n", os.path.join(folder, "none", "list")), "6")


def check_names(words, folder):
    """Names of a list with which nothing is done, and the longest that is taken."""
    text, day = read(BROKEN), write(os.path.join(folder, "day.csv"), read(DAY))
    none, other = fresh(folder), fresh(folder)
    for arguments in ([], [none, other]):
        rows, said = answered([*words, *arguments], text)
        due(f"{len(arguments)} arguments", (rows, said) == (b"", NO_NAME + "\n"), f"it writes {rows[:60]} and says {said!r}")
        due(f"{len(arguments)} arguments", not os.path.exists(none) and not os.path.exists(other), "a list was made")
    there = write(fresh(folder), "before")
    link = fresh(folder)
    os.symlink("nowhere", link)
    for where, target, why, left in [
        ("an empty name", "", "No such file or directory", None),
        ("a list that is there", there, "File exists", b"before"),
        ("a link", link, "File exists", None),
        ("a folder", folder, "File exists", None),
        ("no folder", os.path.join(folder, "none", "list"), "No such file or directory", None),
        ("a file for a folder", os.path.join(there, "list"), "Not a directory", None),
        ("too long a name", os.path.join(folder, "n" * 256), "File name too long", None),
        ("a path of one byte too many", long_path(folder, LONGEST + 1), "File name too long", None),
    ]:
        check_failed(where, done(words, text, target), f"{NO_LIST}: {why}", left)
    due("a link", not os.path.lexists(os.path.join(folder, "nowhere")), "what it names was made")
    with open(day, "rb") as trace:
        check_failed("the trace itself", done(words, None, day, stdin=trace), f"{NO_LIST}: File exists", read(DAY))
    ran = done(words, text, long_path(folder, LONGEST))
    due("the longest path", (ran.text, ran.list) == (read(BROKEN_MENDED), read(BROKEN_LIST)), f"{ran.said!r} is what the program says")
    if os.geteuid() != 0:
        closed = os.path.join(folder, "closed")
        os.mkdir(closed, 0o500)
        check_failed("a folder that can't be written", done(words, text, os.path.join(closed, "list")), f"{NO_LIST}: Permission denied")


def long_path(folder, length):
    """A path of a file in the folder, of so many bytes."""
    return folder + "/" * (length - len(folder) - 4) + "long"


def check_streams(words, folder):
    """Streams that are closed or broken: no list is left, and none that has lines of the trace."""
    shell = lambda redirected: ["sh", "-c", f'exec "$@" {redirected}', "sh", *words]
    no_input = f"{NO_READ}: Bad file descriptor"
    for redirected, said in [
        (">&-", CLOSED),
        ("2>&-", ""),
        (">&- 2>&-", ""),
        ("<&-", no_input),
        ("<&- >&-", no_input),
        ("<&- 2>&-", ""),
    ]:
        check_failed(redirected, done(shell(redirected), read(BROKEN), fresh(folder)), said)
    with open(os.path.join(ROOT, DAY), "rb") as day:
        check_failed("2>&-, a file", done(shell("2>&-"), None, fresh(folder), stdin=day), "")
    here = os.open(ROOT, os.O_RDONLY)
    check_failed("a folder as input", done(words, None, fresh(folder), stdin=here), f"{NO_READ}: Is a directory")
    os.close(here)
    # What one end has not read when it is closed breaks the other, once that has read all.
    for text, left in ((b"kind", b""), (HEAD, HEAD), (read(BROKEN_MENDED), read(BROKEN_MENDED))):
        near, far = socket.socketpair()
        with near, far:
            far.send(b"unread")
            near.sendall(text)
            near.close()
            check_failed("a read that fails", done(words, None, fresh(folder), stdin=far), f"{NO_READ}: Connection reset by peer", None, left)
    if os.path.exists("/dev/full"):
        for text in (HEAD, read(DAY)):
            with open("/dev/full", "wb") as full:
                check_failed("a full disk", done(words, text, fresh(folder), stdout=full), f"{NO_WRITE}: No space left on device")


def limited(size):
    """No file grows over so many bytes, and a write that would fails."""

    def begin():
        signal.signal(signal.SIGXFSZ, signal.SIG_IGN)
        resource.setrlimit(resource.RLIMIT_FSIZE, (size, size))

    return begin


def check_full(words, folder):
    """Files that can't grow: neither the list nor the mended trace is taken for whole."""
    dropped = HEAD + b"\r\n" * 20_000
    for size in (0, 5, 12, 4096, 100_000):
        ran = done(words, dropped, fresh(folder), preexec_fn=limited(size))
        check_failed(f"a list of {size} bytes", ran._replace(text=b""), f"{NO_ENTRY}: File too large")
    for size in (30, 100_000):
        with open(fresh(folder), "wb") as mended:
            ran = done(words, read(DAY), fresh(folder), stdout=mended, preexec_fn=limited(size))
        check_failed(f"a mended trace of {size} bytes", ran, f"{NO_WRITE}: File too large")


def check_left(words, folder):
    """A reader that goes away, and a program that is killed: the list says that it was never finished."""
    for ignored in (False, True):
        target = fresh(folder)
        begin = (lambda: signal.signal(signal.SIGPIPE, signal.SIG_IGN)) if ignored else None
        with open(os.path.join(ROOT, DAY), "rb") as day:
            running = subprocess.Popen([*words, target], cwd=ROOT, stdin=day, stdout=subprocess.PIPE, stderr=subprocess.PIPE, preexec_fn=begin)
            running.stdout.read(100)
            running.stdout.close()
            said = running.stderr.read().decode()
            running.wait()
        left = read(target) if os.path.exists(target) else None
        where = "a reader that has gone" if ignored else "a reader that goes"
        check_failed(where, Mended(running.returncode, b"", said, left), "", UNFINISHED, status=128 + signal.SIGPIPE)
    target = fresh(folder)
    running = subprocess.Popen([*words, target], cwd=ROOT, bufsize=0, stdin=subprocess.PIPE, stdout=subprocess.PIPE)
    running.stdin.write(HEAD)
    running.stdout.read(len(HEAD))
    running.kill()
    running.wait()
    due("killed", os.path.exists(target) and read(target) == UNFINISHED, "its list is not unfinished")


def check_sentences(page):
    """The page has each sentence with which the program fails, and no other."""
    rows = set(re.findall(r"^\| `([^`]+)` \| [^`|]+ \| (?:no list|nothing was made).* \|$", page.text, re.M))
    wanted = {NO_NAME, "6", CLOSED, "the input is too long: 2^40 pieces were read"}
    wanted |= {f"{sentence}: .." for sentence in (NO_READ, NO_LIST, NO_WRITE, NO_ENTRY)}
    due(PAGE, rows == wanted, f"its sentences are {sorted(rows)}, and should be {sorted(wanted)}")


# ---- the command, with a shell in the program's place

SHELL = ["sh", os.path.join(ROOT, "tests", "mend.sh")]
LISTED = "printf 'line,field\\r\\n4,0\\r\\n' >\"$1\"\n"
SUMMARY = "printf 'lines: 9\\nkept: 8\\nlisted: 1\\n' >&2\n"
WHOLE = "printf mended\n" + LISTED + SUMMARY
SAID = summary_of(9, 1)
NO_SUMMARY, NOT_WHOLE = "the program ended without a summary\n", "the list is not whole\n"
# Traces with which neither file is left, and what is said.
FAILING = {
    "silent": (f"printf mended\n{LISTED}", NO_SUMMARY),
    "far": (f"printf mended\n{LISTED}echo '4194304 lines' >&2\n", f"4194304 lines\n{NO_SUMMARY}"),
    "a sentence": (f"printf mended\n{LISTED}echo \"{NO_WRITE}: ..\" >&2\n", f"{NO_WRITE}: ..\n"),
    "a sentence after all": (f"{WHOLE}echo 'the input is too long' >&2\n", f"{SAID}the input is too long\n"),
    "a wrong header": ("echo 6 >&2\n", "6\nThe header is wrong or missing: nothing was mended.\n"),
    "no end of a line": (f"{LISTED}printf 'cut' >&2\n", "cut\n"),
    "half a summary": (f"{LISTED}printf 'lines: 9\\nkept: 8\\n' >&2\n", "lines: 9\nkept: 8\n"),
    "half a summary, and more": (f"{LISTED}printf 'lines: 9\\nkept: 8\\nno room\\n' >&2\n", "lines: 9\nkept: 8\nno room\n"),
    "the end of a summary": (f"{LISTED}echo 'listed: 1' >&2\n", "listed: 1\n"),
    "another status": (f"{WHOLE}exit 3\n", f"{SAID}the program ended with 3\n"),
    "killed": (f"{WHOLE}kill -9 $$\n", f"{SAID}the program ended with 137\n"),
    "killed before": ("printf mended\nkill -TERM $$\n", NO_SUMMARY),
    "unfinished": (f"printf 'unfinished\\r\\n' >\"$1\"\n{SUMMARY}", SAID + NOT_WHOLE),
    "no list": (f"printf mended\n{SUMMARY}", SAID + NOT_WHOLE),
    "an empty list": (f": >\"$1\"\n{SUMMARY}", SAID + NOT_WHOLE),
    "a list without CR": (f"echo line,field >\"$1\"\n{SUMMARY}", SAID + NOT_WHOLE),
    "a list without LF": (f"printf 'line,field\\r' >\"$1\"\n{SUMMARY}", SAID + NOT_WHOLE),
    "a list with more": (f"printf 'line,fields\\r\\n' >\"$1\"\n{SUMMARY}", SAID + NOT_WHOLE),
}
MADE_OF = {"mended.csv": b"mended", "list.csv": b"line,field\r\n4,0\r\n"}


def placed(folder, name):
    """What is said at the end of the two files, of which each begins with this name."""
    stem = os.path.join(folder, name)
    return f"the mended trace: {stem}.mended.csv\nthe lines that were dropped: {stem}.list.csv\n"


def check_files(where, folder, names):
    """The folder has these files and no other, hidden or not."""
    found = files_of(folder)
    due(where, found == names, f"there is {found}, and should be {names}")


def check_placed(where, words, folder, name):
    """A command that does all, and names the two files."""
    given, wanted = ended(words, PORT="sh -s"), (0, "", SAID + placed(folder, name))
    due(where, given == wanted, f"{given}, and should be {wanted}")


def check_whole(folder):
    """Both files in their place, with names of every sort, and the trace as it was."""
    odd = "o'd\"d $(name) $$x"
    for at, (name, stem) in enumerate([("t.csv", "t"), (f"{odd}.csv", odd), ("T.CSV", "T"), ("t", "t"), ("-e.csv.csv", "-e.csv")]):
        made = {f"{stem}.{ending}": content for ending, content in MADE_OF.items()}
        for command in ("sh", "make"):
            beside, out = os.path.join(folder, f"beside{at}{command}"), os.path.join(folder, f"out{at}{command}", odd)
            os.makedirs(beside)
            trace = write(os.path.join(beside, name), WHOLE)
            whole = {name: WHOLE.encode(), **made}
            words, more = ([*SHELL, trace], out) if command == "sh" else (["mend", f"TRACE={trace}"], f"OUT={out}")
            for words, target, left in ((words, beside, whole), ([*words, more], out, made)):
                check_placed(f"{command}: {name}", words, target, stem)
                check_files(f"{command}: {name}", target, left)
    # Names are seen from where the command is called, and the program from the root.
    here = os.path.join(folder, "here")
    os.makedirs(here)
    for name, arguments, target in (("t", ["t.csv"], ""), ("-e", ["-e.csv"], ""), ("t", ["t.csv", "-o"], "-o"), ("t", ["./t.csv", "a/b/"], "a/b")):
        write(os.path.join(here, arguments[0]), f"[ -f tests/mend.sh ] || exit 1\n{WHOLE}")
        words = ["sh", "-c", 'cd "$1" && shift && exec sh "$@"', "sh", here, SHELL[1], *arguments]
        check_placed(f"{arguments}", words, target, name)
        due(f"{arguments}", os.path.exists(os.path.join(here, target, f"{name}.mended.csv")), "the mended trace isn't there")


def check_failing(folder):
    """Neither file is left where something fails, and what was there stays."""
    for name, (script, said) in FAILING.items():
        below = os.path.join(folder, name)
        os.makedirs(below)
        trace = write(os.path.join(below, "t.csv"), script)
        given = ended([*SHELL, trace], PORT="sh -s")
        due(name, given == (1, "", said), f"{given}, and should be {(1, '', said)}")
        check_files(name, below, {"t.csv": script.encode()})
    trace = os.path.join(folder, "silent", "t.csv")
    given = ended(["mend", f"TRACE={trace}"], PORT="sh -s")
    due("make, silent", given == (2, "", NO_SUMMARY), f"{given}")
    status, text, said = ended([*SHELL, trace], PORT="no-such-program")
    due("no such program", (status, text) == (1, "") and "no-such-program" in said, f"{status} {text} {said}")
    check_files("no such program", os.path.join(folder, "silent"), {"t.csv": FAILING["silent"][0].encode()})


def check_there(folder):
    """A file that is there before, or that comes up meanwhile, stays, and nothing is made."""
    for ending in MADE_OF:
        below = os.path.join(folder, ending)
        os.makedirs(below)
        there = os.path.join(below, f"t.{ending}")
        trace = write(os.path.join(below, "t.csv"), f": >'{below}/begun'\n{WHOLE}")
        makers = {"a file": lambda: write(there, "before"), "a link": lambda: os.symlink("nowhere", there), "a folder": lambda: os.mkdir(there)}
        for kind, make in makers.items():
            make()
            given = ended([*SHELL, trace], PORT="sh -s")
            said = f"{there} is there already, and nothing was done. Move it away, or name a folder: OUT=folder\n"
            due(f"{kind} that is there", given == (1, "", said), f"{given}, and should be {(1, '', said)}")
            due(f"{kind} that is there", sorted(os.listdir(below)) == sorted(["t.csv", f"t.{ending}"]), f"there is {os.listdir(below)}")
            due(f"{kind} that is there", kind != "a file" or read(there) == b"before", "it was written to")
            (os.rmdir if kind == "a folder" else os.remove)(there)
        script = f"printf another >'{there}'\n{WHOLE}"
        write(trace, script)
        given = ended([*SHELL, trace], PORT="sh -s")
        said = f"{SAID}{there} has come up meanwhile: nothing was mended.\n"
        due("meanwhile", given == (1, "", said), f"{given}, and should be {(1, '', said)}")
        check_files("meanwhile", below, {"t.csv": script.encode(), f"t.{ending}": b"another"})


def check_names_given(folder):
    """What is no trace, and what is no folder."""
    os.makedirs(folder)
    trace, none = write(os.path.join(folder, "t.csv"), WHOLE), os.path.join(folder, "none.csv")
    usage = "mend: name a trace, and a folder if what is made of it goes elsewhere\n"
    for words, status, said in [
        (SHELL, 1, usage),
        ([*SHELL, ""], 1, usage),
        ([*SHELL, trace, folder, folder], 1, usage),
        ([*SHELL, folder], 1, f"{folder} is a folder: name one trace.\n"),
        ([*SHELL, none], 1, f"There is no file {none}.\n"),
        ([*SHELL, "/dev/null"], 1, "There is no file /dev/null.\n"),
        (["mend"], 2, "Name a trace, TRACE=file.\n"),
        (["mend", f"TRACES={folder}"], 2, "Name a trace, TRACE=file.\n"),
        (["mend", f"TRACE={none}"], 2, f"There is no {none}.\n"),
        (["mend", f"TRACE={folder}"], 2, f"{folder} is a folder: name one trace.\n"),
    ]:
        given = ended(words, PORT="sh -s")
        due(f"{words[-2:]}", given == (status, "", said), f"{given}, and should be {(status, '', said)}")
    status, text, said = ended([*SHELL, trace, os.path.join(trace, "out")], PORT="sh -s")
    due("no folder", status == 1 and text == "" and "Not a directory" in said, f"{status} {said}")
    if os.geteuid() != 0:
        os.chmod(trace, 0)
        due("a trace that can't be read", ended([*SHELL, trace], PORT="sh -s")[0] != 0, "it ends with 0")
        os.chmod(trace, 0o600)
        os.chmod(folder, 0o500)
        said = f"Nothing can be written in the folder {folder}/: name another, OUT=folder\n"
        given = ended([*SHELL, trace], PORT="sh -s")
        due("a folder that can't be written", given == (1, "", said), f"{given}")
        os.chmod(folder, 0o700)
    check_files("names", folder, {"t.csv": WHOLE.encode()})


def begun(trace):
    """The command at work, in a group of its own; it has said its first line, which is answered too."""
    setting = {**os.environ, "PORT": "sh -s"}
    running = subprocess.Popen([*SHELL, trace], env=setting, stdout=subprocess.PIPE, stderr=subprocess.PIPE, start_new_session=True)
    return running, running.stderr.readline()


def check_at_work(folder):
    """What is said comes at once; till the end neither file has its name, but both are beside it; and an end from outside
    leaves neither."""
    for name, end in (("HUP", os.kill), ("INT", os.killpg), ("TERM", os.kill), ("TERM", os.killpg)):
        below = os.path.join(folder, f"{name} {end.__name__}")
        os.makedirs(below)
        trace = write(os.path.join(below, "t.csv"), f"printf mended\n{LISTED}echo begun >&2; sleep 0.4\n{SUMMARY}")
        running, said = begun(trace)
        end(running.pid, getattr(signal, f"SIG{name}"))
        running.communicate()
        status = 128 + getattr(signal, f"SIG{name}")
        due(f"{below}", (said, running.returncode) == (b"begun\n", status), f"it said {said} and ended with {running.returncode}")
        check_files(below, below, {"t.csv": read(trace)})
    below = os.path.join(folder, "work")
    os.makedirs(below)
    go, seen = os.path.join(folder, "go"), os.path.join(folder, "seen")
    wait = f"for i in $(seq {PATIENCE * 50}); do [ -e '{go}' ] || sleep 0.02; done; [ -e '{go}' ] || exit 1\n"
    look = f"{{ ls '{below}'; dirname \"${{1%/*}}\"; }} >'{seen}'\n"
    trace = write(os.path.join(below, "t.csv"), f"printf mended\n{LISTED}echo begun >&2\n{wait}{look}{SUMMARY}")
    running, said = begun(trace)
    write(go, "")
    _, rest = running.communicate()
    due("as it comes", (said + rest).decode() == f"begun\n{SAID}{placed(below, 't')}" and running.returncode == 0, f"{said + rest}")
    due("till the end", read(seen).decode() == f"t.csv\n{below}\n", f"there is {read(seen)}")


# A kit that builds a program once, and leaves it when it has not changed. As `rt run` it is called in the crate's folder,
# and ends with the program's own status.
RT = '''#!/bin/sh
echo proved
name=${PWD##*/}
echo "$1 $name" >>../../log
mkdir -p out
[ -e "out/$name" ] || : >"out/$name"
echo "rt: running out/$name; so it says" >&2
exit 1
'''


def check_built(folder):
    """A program is built where a source of a crate that it knows is newer, and not otherwise; so is the other."""
    crates = ["crates/low/src/a.rt", "crates/mend/src/main.rt", "crates/replay/src/main.rt", "crates/far/src/b.rt"]
    others = {"crates.txt": "far:\nlow:\nreplay: low far io\nmend: low\n", "log": "", "t.csv": ""}
    commands = {"tests/mend.sh": "echo mended\n", "tests/replay.sh": "echo rows\n", "bin/rt": RT}
    for name, content in {**dict.fromkeys(crates, ""), **others, **commands}.items():
        os.makedirs(os.path.dirname(os.path.join(folder, name)), exist_ok=True)
        write(os.path.join(folder, name), content)
    shutil.copy(os.path.join(ROOT, "Makefile"), folder)
    shutil.copy(os.path.join(ROOT, "tests", "build.sh"), os.path.join(folder, "tests"))
    os.chmod(os.path.join(folder, "bin", "rt"), 0o755)
    path = os.path.join(folder, "bin") + os.pathsep + os.environ["PATH"]

    old = lambda name, seconds: os.utime(os.path.join(folder, name), (time.time() - seconds,) * 2)

    def made(target, newer, wanted):
        """After a change of one file, or of none, a command builds so, or nothing."""
        if newer:
            for name, seconds in {**dict.fromkeys(crates, 90), f"crates/{target}/out/{target}": 60, newer: 30}.items():
                old(name, seconds)
        before = len(read(os.path.join(folder, "log")))
        status, text, said = ended([target, "TRACE=t.csv"], folder, PATH=path)
        built = read(os.path.join(folder, "log"))[before:].decode()
        fine = (status, text, built) == (0, "mended\n" if target == "mend" else "rows\n", wanted)
        due(f"make {target}, {newer}", fine, f"it ends with {status}, writes {text!r}, says {said!r} and builds {built!r}")

    for target, other in (("mend", "replay"), ("replay", "mend")):
        made(target, None, f"run {target}\n")
        made(target, None, "")
        for newer in ("crates/low/src/a.rt", f"crates/{target}/src/main.rt"):
            made(target, newer, f"run {target}\n")
            made(target, None, "")
        made(target, f"crates/{other}/src/main.rt", "")
        made(target, "crates/far/src/b.rt", "run replay\n" if target == "replay" else "")
    given = ended(["-n", "diff-mends", "SEED=3", "COUNT=5"])
    due("make diff-mends", given[0] == 0 and "sh tests/mend_diff.sh 3 5\n" in given[1], f"{given}")


def main():
    page = Page(read(PAGE).decode())
    check_kept()
    check_page(page)
    check_sentences(page)
    with tempfile.TemporaryDirectory() as work:
        below = lambda name: os.path.join(work, name)
        check_whole(below("whole"))
        check_failing(below("failing"))
        check_there(below("there"))
        check_names_given(below("names"))
        check_at_work(below("work"))
        check_built(below("built"))
        lists = below("lists")
        os.mkdir(lists)
        try:
            words = program("mend")
            held = f"{check_held(words, page, lists)} inputs held to the program"
            check_replayed(words, lists)
            for check in (check_command, check_long, check_pieces, check_headers, check_names, check_streams, check_full, check_left):
                check(words, lists)
        except Fault as fault:
            held = f"the program was not held: {fault}"
            due("the program", os.environ.get("CI") != "true", str(fault))
    return verdict("mend", f"{len(page.entries)} lines of {PAGE}, {len(lines_of(read(BROKEN)))} of {BROKEN}, one command; {held}")


if __name__ == "__main__":
    sys.exit(main())
