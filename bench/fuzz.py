#!/usr/bin/env python3
"""Whether `fmc` keeps its word on texts that nobody would write.

    bench/fuzz.py [BINARY [COUNT [SEED [JOBS]]]]

Makes COUNT texts (1,000) with the seeds from SEED (0) on, each a program of examples/, examples/gallery or `make` in
which bytes, tokens, lines or units were dropped, doubled, exchanged, changed or taken from another program, and
wants of each:

- A call ends by no signal, writes nothing to standard error, and one text of the form that its status says.
- `check`, `list`, `compile`, `run` and `trace` refuse alike. What `list` writes, laid out as a text with each statement
  at its line, has the same answers of `check`, `compile` and `run`, and the same list.
- `run` writes the same report with the same status for each slice, number of workers and plan, where `check` says
  deterministic. Another program is run by one worker, and writes the same report where the slice is the same.
- `replay` of the trace writes the report of the run. A trace that is bent in one byte is answered too, and where just
  its entries are bent and a deterministic program has ended, by the same report.

It prints each finding with its seed and its text's path in a temporary folder, and last what the texts were. BINARY
is the built program, by default crates/fmc_cli/out/fmc_cli; JOBS texts are tried at once, by default as many as there
are processors. A call that takes over 20 seconds is printed as slow and is no finding. The status is 1 where there is
a finding. `bench/fuzz.py BINARY 1 SEED` makes the text of one seed again.
"""
import collections
import functools
import glob
import multiprocessing
import os
import random
import re
import subprocess
import sys
import tempfile

TOP = os.path.dirname(os.path.dirname(os.path.abspath(__file__)))
LIMIT = 20
TURNS = "20000"
MADE = ["0", "181"]
PLAIN = ()
SLICES = [("--slice", "1"), ("--slice", "7"), ("--slice", "1000"), ("--slice", "1000000")]
PLACES = [("--workers", "1"), ("--workers", "64", "--plan", "block")]
ALONE = ("--workers", "1")

TOKEN = re.compile(rb"'[^'\n]*'|[A-Z]\w*|\d+|\.[A-Z]+\.|\*\*|[^\s\w]", re.I)
NAME = re.compile(rb"[A-Z]\w*", re.I)
NUMBER = re.compile(rb"\d+")
OPERATOR = re.compile(rb"\.[A-Z]+\.|\*\*|[-+*/]", re.I)
NUMBERS = b"0 1 2 3 7 64 1000 65536 65537 99999 4294967296 9223372036854775807 9223372036854775808".split()
OPERATORS = b"+ - * / ** .EQ. .NE. .LT. .LE. .GT. .GE. .AND. .OR. .NOT. .EQV. .NEQV.".split()
WORDS = NUMBERS + OPERATORS + b"""
    PROGRAM PROCESS SUBROUTINE FUNCTION END IMPLICIT NONE INTEGER LOGICAL DIMENSION PARAMETER INPORT OUTPORT
    INTENT(IN) PROCESSORS IF( THEN ELSE ELSEIF ENDIF GOTO CONTINUE DO WHILE ENDDO CALL RETURN STOP PRINT*,
    WRITE(6,*) CHANNEL(IN= OUT= MERGER( SEND( PORT= RECEIVE( IOSTAT= END= ENDCHANNEL( MOVEPORT(FROM= TO= PROBE(
    EMPTY= PROCESSES ENDPROCESSES PROCESSCALL PROCESSDO ENDPROCESSDO LOCATION( SUBMACHINE( ABS( MOD( SIGN( DIM( MAX(
    MIN( .TRUE. .FALSE. ( ) , = : ' ''
""".split()
ROWS = [b"C a comment", b"", b"      CONTINUE", b"      STOP", b"      RETURN", b"      ENDDO", b"      ENDIF",
        b"      END", b"      PROCESSES", b"      ENDPROCESSES", b"      PRINT *", b"      IMPLICIT NONE", b"     +",
        b"     +  ,I", b"\t"]

FORMS = {
    "report": rb"(?: [^\n]*\n)*(?:var \w+ = [^\n]+\n)*(?:fault main\S* line \d+ \w+\n)*"
              rb"(?:wait main\S* line \d+ (?:join|receive main\S*:\d+) for (?:main\S*|nobody)\n)*"
              rb"(?:cycle main[^\n]*\n)*(?:turns \d+\n)?",
    "check": rb"(?:not )?deterministic(?:: line \d+)?\n",
    "list": rb"(?:[ \d]{6} [ \d]{5} [^\n]+\n)+",
    "compile": rb"fmc object 1\n(?:[a-z]+(?: -?[A-Z0-9_]+)+\n)+",
    "trace": rb"fmc trace 2\nturns \d+\nlines \d+\n(?:\d+ \d+(?: \d+)?\n)*source\n(?s:.*)",
    3: rb"line \d+: E\d\d [^\n]+\n",
    4: rb"spent \d+\n",
    9: rb"source too long\n",
    10: rb"malformed trace: line \d+\n",
    11: rb"illegal turn: entry \d+\n",
    12: rb"unfinished\n",
}
STATUSES = {"check": (0, 3), "list": (0, 3), "compile": (0, 3), "run": (0, 1, 2, 3, 4), "trace": (0, 1, 2, 3, 4),
            "replay": (0, 1, 2, 3, 4, 9, 10, 11, 12)}
ENDS = {0: "done", 1: "faulted", 2: "deadlocked", 3: "refused", 4: "spent"}


class Finding(Exception):
    pass


class Slow(Exception):
    pass


# ---- what is tried


def ending(report):
    """The status that a report's lines tell."""
    if re.search(rb"^fault ", report, re.M):
        return 1
    return 2 if re.search(rb"^wait main line ", report, re.M) else 0


def form(command, status):
    if command == "trace" and status == 4:
        return FORMS["trace"]
    if status > 2:
        return FORMS[status]
    return FORMS.get(command, FORMS["report"])


def call(binary, words, source):
    """The status and the text of a call."""
    shown = " ".join(words)
    try:
        done = subprocess.run([binary, *words], input=source, stdout=subprocess.PIPE, stderr=subprocess.PIPE,
                              timeout=LIMIT)
    except subprocess.TimeoutExpired:
        raise Slow(shown) from None
    status, text = done.returncode, done.stdout
    if status not in STATUSES[words[0]]:
        raise Finding(f"{shown}: status {status}")
    if done.stderr:
        raise Finding(f"{shown}: standard error has {done.stderr[:100]!r}")
    if not re.fullmatch(form(words[0], status), text):
        raise Finding(f"{shown}: status {status} and another text: {text[:100]!r}")
    if words[0] in ("run", "replay") and status < 3 and ending(text) != status:
        raise Finding(f"{shown}: status {status} of a report that tells {ending(text)}")
    return status, text


def same(told, found, wanted):
    if found != wanted:
        raise Finding(f"{told}: {found[0]} and {found[1][-100:]!r}, wanted {wanted[0]} and {wanted[1][-100:]!r}")


def laid_out(listing):
    """A text with the statements of a listing, each at its line."""
    rows = []
    for row in listing.splitlines():
        line, label, text = int(row[:6]), row[7:12], row[13:]
        if line <= len(rows):
            raise Finding(f"list: what stands above line {line} doesn't fit there")
        rows += [b""] * (line - 1 - len(rows))
        pieces = [text[at:at + 66] for at in range(0, len(text), 66)]
        rows += [label + b" " + pieces[0]] + [b"     +" + piece for piece in pieces[1:]]
    return b"\n".join(rows) + b"\n"


def run_words(setup):
    return ["run", "--turns", TURNS, "--vars", *setup]


def try_trace(rng, binary, text, setup, wanted, is_deterministic):
    """The trace of a setup, and the same bent in a byte."""
    status, trace = call(binary, ["trace", "--turns", TURNS, *setup], text)
    same("trace " + " ".join(setup), (status, b""), (wanted[0], b""))
    same("replay of trace " + " ".join(setup), call(binary, ["replay", "--vars"], trace), wanted)
    first, behind = trace.index(b"\n", trace.index(b"\nlines ") + 1) + 1, trace.index(b"source\n")
    for low, high in ((0, len(trace)), (first, behind)):
        at = rng.randrange(low, max(high, low + 1))
        byte = rng.choice([b"%d" % rng.randrange(10), bytes([rng.randrange(256)])])
        found = call(binary, ["replay", "--vars"], trace[:at] + byte + trace[at + 1:])
        if first <= at < behind and is_deterministic and found[0] < 3:
            same(f"replay of a trace bent at {at}", found, wanted)


def try_lawful(rng, binary, text, checked):
    """All that is wanted of a lawful text. Gives the status of its run."""
    is_deterministic = checked[1] == b"deterministic\n"
    listed = call(binary, ["list"], text)
    again = laid_out(listed[1])
    same("list of the list", call(binary, ["list"], again), listed)
    same("check of the list", call(binary, ["check"], again), checked)
    same("compile of the list", call(binary, ["compile"], again), call(binary, ["compile"], text))
    if is_deterministic:
        first, equal = PLAIN, SLICES + PLACES
        setups = [first, *equal]
    else:
        first, equal = ALONE, [("--slice", "1000", *ALONE)]
        setups = [first, *(slice + ALONE for slice in SLICES)]
    reports = {setup: call(binary, run_words(setup), text) for setup in setups}
    for setup in equal:
        same("run " + " ".join(setup), reports[setup], reports[first])
    same("run of the list", call(binary, run_words(first), again), reports[first])
    setup = rng.choice([*reports])
    try_trace(rng, binary, text, setup, reports[setup], is_deterministic)
    return reports[first][0]


def try_text(rng, binary, text):
    """What a text is: the rule that it breaks, or how its run ends."""
    checked = call(binary, ["check"], text)
    if checked[0] == 0:
        return ENDS[try_lawful(rng, binary, text, checked)]
    for command in "list", "compile", "run", "trace":
        same(command, call(binary, [command], text), checked)
    if int(checked[1].split(b":")[0][5:]) > text.count(b"\n") + 1:
        raise Finding(f"check: a line that isn't there: {checked[1]!r}")
    return checked[1].split()[2].decode()


# ---- how texts are made


def without_notes(text):
    return b"".join(row for row in text.splitlines(True) if row.strip() and row[:1] not in b"Cc*!")


def programs(binary):
    """What is changed: all programs without their comments."""
    found = []
    for path in sorted(glob.glob(f"{TOP}/examples/*.f") + glob.glob(f"{TOP}/examples/gallery/*.f")):
        with open(path, "rb") as file:
            found.append(without_notes(file.read()))
    return found + [subprocess.run([binary, "make", number], stdout=subprocess.PIPE).stdout for number in MADE]


def span(rng, text):
    """Where some bytes stand, mostly few."""
    at = rng.randrange(len(text) + 1)
    return at, min(len(text), at + rng.choice([1, 1, 1, 2, 3, 8, 40]))


def drop_bytes(rng, text, others):
    at, end = span(rng, text)
    return text[:at] + text[end:]


def double_bytes(rng, text, others):
    at, end = span(rng, text)
    return text[:end] + text[at:]


def exchange_bytes(rng, text, others):
    at, end = span(rng, text)
    return text[:at] + text[at:end][::-1] + text[end:]


def put_byte(rng, text, others):
    at = rng.randrange(len(text) + 1)
    return text[:at] + bytes([rng.choice([rng.randrange(256), rng.randrange(32, 127)])]) + text[at + rng.randrange(2):]


def put_word(rng, text, others):
    at = rng.randrange(len(text) + 1)
    return text[:at] + rng.choice(WORDS) + text[at:]


def changed_at(rng, text, kind, choose):
    """One token of a kind is chosen anew."""
    places = [*kind.finditer(text)]
    if not places:
        return text
    it = rng.choice(places)
    return text[:it.start()] + choose(places) + text[it.end():]


def change_token(rng, text, others):
    return changed_at(rng, text, TOKEN, lambda places: rng.choice(WORDS))


def change_number(rng, text, others):
    return changed_at(rng, text, NUMBER, lambda places: rng.choice([rng.choice(NUMBERS), b"%d" % rng.randrange(30)]))


def change_operator(rng, text, others):
    return changed_at(rng, text, OPERATOR, lambda places: rng.choice(OPERATORS))


def change_name(rng, text, others):
    return changed_at(rng, text, NAME, lambda places: rng.choice(places).group())


def change_like(rng, text, others):
    """A token of another program."""
    return changed_at(rng, text, TOKEN, lambda places: rng.choice(TOKEN.findall(rng.choice(others))))


def change_rows(change):
    def mutate(rng, text, others):
        rows = text.split(b"\n")
        change(rng, rows, rng.randrange(len(rows)), others)
        return b"\n".join(rows)
    return mutate


@change_rows
def drop_row(rng, rows, at, others):
    del rows[at]


@change_rows
def move_row(rng, rows, at, others):
    rows.insert(rng.randrange(len(rows)), rows.pop(at))


@change_rows
def double_row(rng, rows, at, others):
    rows.insert(rng.randrange(len(rows)), rows[at])


@change_rows
def put_row(rng, rows, at, others):
    rows.insert(at, rng.choice(ROWS))


@change_rows
def take_rows(rng, rows, at, others):
    taken = rng.choice(others).split(b"\n")
    begin = rng.randrange(len(taken))
    rows[at:at + rng.randrange(2)] = taken[begin:begin + rng.choice([1, 1, 1, 2, 5])]


@change_rows
def cut_row(rng, rows, at, others):
    """A statement goes on in a further line."""
    cut = rng.randrange(6, max(7, len(rows[at])))
    rows[at:at + 1] = [rows[at][:cut], b"     +" + rows[at][cut:]]


def take_unit(rng, text, others):
    units = re.split(rb"(?<=\n)(?=      (?:PROCESS|SUBROUTINE|INTEGER FUNCTION) *\w)", rng.choice(others))
    return text + rng.choice(units)


def end_rows(rng, text, others):
    return text.replace(b"\n", b"\r\n")


def make_small(rng, text, others):
    return text.lower()


GENTLE = [change_number, change_number, change_operator, change_name, change_name, drop_row, move_row, double_row,
          cut_row, take_unit]
WILD = GENTLE + [drop_bytes, double_bytes, exchange_bytes, put_byte, put_word, change_token, change_like, put_row,
                 take_rows, end_rows, make_small]


def mutated(rng, others):
    text = rng.choice(others)
    kinds = rng.choice([GENTLE, WILD])
    for _ in range(rng.choice([1, 1, 1, 2, 2, 3, 6])):
        text = rng.choice(kinds)(rng, text, others)
    return text


# ---- all texts


def try_seed(binary, others, seed):
    """The seed, what its text is, what is told of it, and the text."""
    rng = random.Random(seed)
    text = mutated(rng, others)
    try:
        return seed, try_text(rng, binary, text), "", text
    except Finding as finding:
        return seed, "finding", str(finding), text
    except Slow as slow:
        return seed, "slow", str(slow), text


def main():
    words = dict(enumerate(sys.argv[1:]))
    binary = os.path.abspath(words.get(0, f"{TOP}/crates/fmc_cli/out/fmc_cli"))
    count, first = int(words.get(1, 1000)), int(words.get(2, 0))
    folder, counts = None, collections.Counter()
    with multiprocessing.Pool(int(words.get(3, os.cpu_count()))) as pool:
        work = functools.partial(try_seed, binary, programs(binary))
        for seed, what, told, text in pool.imap(work, range(first, first + count), 8):
            counts[what] += 1
            if told:
                folder = folder or tempfile.mkdtemp(prefix="fuzz-")
                path = os.path.join(folder, f"{seed}.f")
                with open(path, "wb") as file:
                    file.write(text)
                print(f"{what}, seed {seed}, {path}: {told}", flush=True)
    rules = [what for what in counts if re.fullmatch(r"E\d\d", what)]
    counts["refused"] = sum(counts.pop(rule) for rule in rules)
    kinds = ", ".join(f"{counts[kind]} {kind}" for kind in [*ENDS.values(), "slow"])
    print(f"{count} texts: {kinds}; {len(rules)} rules broken; {counts['finding']} findings")
    sys.exit(1 if counts["finding"] else 0)


if __name__ == "__main__":
    main()
