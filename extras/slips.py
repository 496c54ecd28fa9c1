"""Finds what is lawful and mostly a slip. Each finding has the name of its kind, a place and a sentence.

The kinds whose words are those of the source alone (`columns`, `comment`) are looked for in every text, the others in
a lawful program.
"""
import itertools
import re

from source import INTRINSICS, closing, in_parentheses, is_comment, is_name, parted, rows_of, statements, units

KINDS = ("columns", "comment", "words", "sign", "unset", "unread", "unused", "uncalled", "unreached", "quotient",
         "loop", "both", "open", "given", "undone")
CLOSERS = ("END", "ELSE", "ELSEIF", "ENDIF", "ENDDO", "ENDPROCESSES", "ENDPROCESSDO")
DECLARING = re.compile(r"(INTEGER|LOGICAL|REAL|DOUBLE *PRECISION|COMPLEX|CHARACTER|PARAMETER|DIMENSION|DATA|COMMON|SAVE"
                       r"|INPORT|OUTPORT)(\*\d+)? +[A-Z]", re.I)
COMMENTED = re.compile(r"C(ALL *(\w+) *(\(.*\))?|ONTINUE|HANNEL *\( *(IN|OUT) *=.*\)) *$", re.I)
PORTED = ("SEND", "RECEIVE", "ENDS", "ENDCHANNEL", "PROBE")
PUT = ("ASSIGNMENT", "IOSTAT", "EMPTY")
TURNED = {".GE.": ".LE.", ".GT.": ".LT.", ".LE.": ".GE.", ".LT.": ".GT.", ".NE.": ".NE.", ".EQ.": ".EQ."}
NEGATED = {".GE.": ".LT.", ".GT.": ".LE.", ".LE.": ".GT.", ".LT.": ".GE.", ".NE.": ".EQ.", ".EQ.": ".NE."}
# where a relation to a bound first fails, from the bound, and whether that is above or below what it lets through
FAILS = {".GE.": (-1, -1), ".GT.": (0, -1), ".LE.": (1, 1), ".LT.": (0, 1), ".NE.": (0, 0)}
NONE = {"INTEGER": "0", "LOGICAL": ".FALSE.", "INPORT": "NULL", "OUTPORT": "NULL"}


class Finding:
    """What is said of a place: a line, the column of its first character and that behind its last one, from 0."""

    def __init__(self, kind, line, begin, end, text):
        self.kind, self.line, self.begin, self.end, self.text = kind, line, begin, end, text

    def __str__(self):
        return f"line {self.line}: {self.text} [{self.kind}]"


class Use:
    """A name in a statement: whether it is read, whether it is set, and by what.

    `by` is the class of the statement, but ENDS for the port of a RECEIVE that has END= or IOSTAT=, ITEM for an item
    of a message, and IOSTAT and EMPTY for their variables. `to` is the unit and the formal that an argument is for.
    """

    def __init__(self, one, word, is_read, is_set, by, is_whole, to=None):
        self.one, self.word, self.name = one, word, str(word)
        self.is_read, self.is_set, self.by, self.is_whole, self.to = is_read, is_set, by, is_whole, to


def behind_columns(source):
    """Text behind column 72."""
    for number, row in enumerate(rows_of(source), 1):
        text = row[72:].strip()
        if text and not is_comment(row):
            begin = len(row) - len(row[72:].lstrip())
            yield Finding("columns", number, begin, len(row.rstrip()), f"behind column 72 nothing is read: {text}")


def commented(source):
    """Statements with a C in column 1: CONTINUE, CHANNEL, and CALL with a list or of a unit of the source."""
    names = None
    for number, row in enumerate(rows_of(source), 1):
        text = row[:72].rstrip()
        found = COMMENTED.match(text)
        if found and found.group(2) and not found.group(3):
            names = names or {unit.name for unit in units(statements(source))}
            found = found.group(2).upper() in names
        if found:
            yield Finding("comment", number, 0, len(text), f"a C in column 1 makes a comment: {text}")


class Program:
    """A lawful program: its units, and for each of them the uses of its names."""

    def __init__(self, source):
        self.units = units(statements(source))
        self.named = {unit.name: unit for unit in self.units}
        self.uses = {unit: [use for one in unit.statements for part in one.parts()
                            for use in self.used(unit, one, part)] for unit in self.units}

    def expression(self, unit, one, words, by):
        """The names of an expression, all of which are read."""
        for at, word in enumerate(words):
            is_call = words[at + 1 : at + 2] == ["("]
            if is_name(word) and word not in unit.constants and not (is_call and word not in unit.bounds):
                yield Use(one, word, True, False, by, not is_call)

    def variable(self, unit, one, words, is_read, is_set, by, to=None):
        """A variable or an element, and the names of its subscripts."""
        if words:
            yield Use(one, words[0], is_read, is_set, by, len(words) == 1, to)
            yield from self.expression(unit, one, words[1:], by)

    def arguments(self, unit, one, words, by):
        """The names of a call's arguments. One that has a place is read and set, save for INTENT(IN)."""
        called = self.named.get(str(words[0])) if words else None
        formals = called.formals if called else []
        for part, formal in zip(parted(in_parentheses(words, 1)[0]), formals):
            if is_place(part) and part[0] not in unit.constants and (len(part) == 1 or part[0] in unit.bounds):
                is_back = called.intents.get(formal) != "IN"
                yield from self.variable(unit, one, part, True, is_back, by, (called, formal))
            else:
                yield from self.expression(unit, one, part, by)
        yield from self.expression(unit, one, in_parentheses(words, 1)[1], by)

    def used(self, unit, one, part):
        """The names that a statement uses."""
        kind, words = part.kind, part.words
        if kind == "ASSIGNMENT":
            at = words.index("=")
            yield from self.variable(unit, one, words[:at], False, True, kind)
            yield from self.expression(unit, one, words[at + 1 :], kind)
        elif kind in ("IF", "TEST"):
            yield from self.expression(unit, one, words, kind)
        elif kind in ("ELSEIF", "DOWHILE"):
            yield from self.expression(unit, one, in_parentheses(words)[0], kind)
        elif kind in ("PRINT", "WRITE"):
            yield from self.expression(unit, one, in_parentheses(words)[1], kind)
        elif kind in ("DO", "PROCESSDO"):
            at = words.index("=")
            yield Use(one, words[at - 1], False, True, kind, True)
            yield from self.expression(unit, one, words[at + 1 :], kind)
        elif kind in ("CALL", "PROCESSCALL"):
            yield from self.arguments(unit, one, words, kind)
        elif kind in ("CHANNEL", "MERGER", "MOVEPORT", "SEND", "RECEIVE", "ENDCHANNEL", "PROBE"):
            yield from self.ports(unit, one, kind, words)

    def ports(self, unit, one, kind, words):
        """The names of a statement on channels or messages."""
        group, items = in_parentheses(words)
        keyed = [(part[0] if part[1:2] == ["="] else "PORT", part[2:] if part[1:2] == ["="] else part)
                 for part in parted(group)]
        if kind == "RECEIVE" and {"END", "IOSTAT"} & {str(key) for key, _ in keyed}:
            kind = "ENDS"
        for key, place in keyed:
            if key in ("IOSTAT", "EMPTY"):
                yield from self.variable(unit, one, place, False, True, str(key))
            elif key in ("IN", "OUT", "TO"):
                yield from self.variable(unit, one, place, False, True, kind)
            elif key != "END":
                yield from self.variable(unit, one, place, True, key == "FROM", kind)
        for part in parted(items):
            if kind == "SEND":
                yield from self.expression(unit, one, part, "ITEM")
            else:
                yield from self.variable(unit, one, part, False, True, "ITEM")

    def fate(self, unit, name):
        """What becomes of a name in a unit and in those that get it as an argument, as a set of words.

        `set`: a statement sets it; `closed`: the outport is closed; `gone`: the port goes elsewhere; `ends`: it is
        received from until the end of the channel.
        """
        found, seen, ahead = set(), {(unit, name)}, [(unit, name)]
        while ahead:
            at, called = ahead.pop()
            for use in self.uses[at]:
                if use.name != called:
                    continue
                if use.to:
                    if use.to not in seen:
                        seen.add(use.to)
                        ahead.append(use.to)
                    if use.to[0].intents.get(use.to[1]) == "IN":
                        found.add("closed")
                elif use.by in ("ENDCHANNEL", "ENDS"):
                    found.add("closed" if use.by == "ENDCHANNEL" else "ends")
                elif use.by == "MOVEPORT" or use.by == "ITEM" and use.is_read:
                    found.add("gone")
                elif use.is_set:
                    found.add("set")
        return found


def is_place(words):
    """Whether an argument is a variable, an element or a whole array, syntactically."""
    is_element = words[1:2] == ["("] and closing(words, 1) == len(words)
    return bool(words) and is_name(words[0]) and (len(words) == 1 or is_element)


def at_word(kind, one, word, text):
    """A finding at a word of a statement."""
    line, column = one.place(word)
    return Finding(kind, line, column, column + len(word), text)


def at_statement(kind, one, text):
    """A finding at a statement, by its first row."""
    row = one.rows[0][1][:72].rstrip()
    return Finding(kind, one.line, 6, len(row), text)


def two_words(program):
    """Assignments to a name that the source writes as two words: a declaration, or the branch of an IF."""
    for unit in program.units:
        for one in unit.statements:
            for part in one.parts():
                if part.kind != "ASSIGNMENT":
                    continue
                name = part.words[0]
                begin, end = one.offsets[name.at], one.offsets[name.at + len(name) - 1] + 1
                spread = one.spread[begin:end]
                if " " in spread:
                    what = "declares nothing" if DECLARING.match(spread) else "is one name"
                    yield at_word("words", one, name, f"`{spread.strip()}` {what}: this assigns to {name}")


def signs(program):
    """`K =+ 1`: an assignment of 1."""
    for unit in program.units:
        for one in unit.statements:
            for part in one.parts():
                if part.kind == "ASSIGNMENT":
                    behind = one.spread[one.offsets[part.words[part.words.index("=")].at] :]
                    if re.match(r"=\+|=- ", behind):
                        what = "".join(part.words[part.words.index("=") + 1 :])
                        name = "".join(part.words[: part.words.index("=")])
                        yield at_word("sign", one, part.words[part.words.index("=")],
                                      f"{behind[:2]} is = and a sign: {name} becomes {what}")


def never(program):
    """Variables that are read and never set, set and never read, or declared and never used."""
    for unit in program.units:
        uses = {}
        for use in program.uses[unit]:
            uses.setdefault(use.name, []).append(use)
        known = {*unit.formals, unit.name, *unit.constants}
        for name, them in uses.items():
            if name in known:
                continue
            kind = unit.types.get(name, "INTEGER")
            if not any(use.is_set for use in them):
                if name in unit.ports and not any(use.by in PORTED for use in them):
                    continue
                yield at_word("unset", them[0].one, them[0].word,
                              f"{name} is read and never set: it is {NONE[kind]}")
            elif not any(use.is_read for use in them) and all(use.by in PUT for use in them):
                yield at_word("unread", them[0].one, them[0].word, f"{name} is set and never read")
        for name, (one, word) in unit.where.items():
            if name not in uses and name not in known and name not in program.named and name not in INTRINSICS:
                yield at_word("unused", one, word, f"{name} is declared and never used")


def uncalled(program):
    """Units that nothing calls."""
    called = set()
    for unit in program.units:
        for one in unit.statements[1:]:
            for part in one.parts():
                if part.kind in ("CALL", "PROCESSCALL"):
                    called.add(str(part.words[0]))
                called.update(str(word) for at, word in enumerate(part.words)
                              if part.words[at + 1 : at + 2] == ["("] and word not in unit.bounds)
    for unit in program.units:
        if unit.kind != "PROGRAM" and unit.name not in called:
            yield at_statement("uncalled", unit.heading, f"nothing calls {unit.name}")


def quotients(program):
    """Divisions of two numbers that leave something."""
    for unit in program.units:
        for one in unit.statements:
            for part in one.parts():
                words = part.words
                for at in range(1, len(words) - 1):
                    if words[at] != "/" or not (words[at - 1].isdigit() and words[at + 1].isdigit()):
                        continue
                    if words[at - 2 : at - 1] in (["*"], ["/"], ["**"]) or words[at + 2 : at + 3] == ["**"]:
                        continue
                    above, below = int(words[at - 1]), int(words[at + 1])
                    if below and above % below:
                        yield at_word("quotient", one, words[at - 1], f"{above}/{below} is {above // below}")


def loops(unit):
    """Each statement of a unit with the loops round it, the outermost first, as pairs of a variable and a line."""
    opened = []
    for one in unit.statements:
        if one.kind in ("ENDDO", "ENDPROCESSDO") and opened:
            opened.pop()
        yield one, [loop for loop in opened if loop[1]]
        while one.label and opened and opened[-1][0] == one.label:
            opened.pop()
        if one.kind in ("DO", "PROCESSDO"):
            label = str(one.words[0]) if one.words[0].isdigit() else ""
            opened.append((label, str(one.words[one.words.index("=") - 1]), one.line))
        elif one.kind == "DOWHILE":
            opened.append(("", "", one.line))


def loop_variables(program):
    """The variable of a loop that is set within the loop."""
    for unit in program.units:
        round_it = {id(one): opened for one, opened in loops(unit)}
        for use in program.uses[unit]:
            for _, name, line in round_it[id(use.one)]:
                if use.is_set and use.name == name and use.by not in ("CALL", "PROCESSCALL"):
                    yield at_word("loop", use.one, use.word,
                                  f"{name} counts the loop of line {line}: setting it changes no number of turns")


def value(unit, words):
    """The value of a bound, where it is a number or a constant that is one; else none."""
    text = "".join(words)
    sign = -1 if text.startswith("-") else 1
    text = text.lstrip("-")
    if text.isdigit():
        return sign * int(text)
    known = unit.constants.get(text)
    return sign * value(unit, known) if known else None


def guard_of(unit, words, is_negated):
    """Of a relation between a variable and a bound: the variable, the bound's value or none, and where it fails."""
    for at, word in enumerate(words):
        if word in TURNED:
            left, right, order = words[:at], words[at + 1 :], str(word)
            if len(left) != 1 or not is_name(left[0]) or left[0] in unit.constants:
                left, right, order = right, left, TURNED[order]
            order = NEGATED[order] if is_negated else order
            if len(left) == 1 and is_name(left[0]) and left[0] not in right and order in FAILS:
                return str(left[0]), value(unit, right), FAILS[order]
    return None


def is_outside(unit, array, subscript, guard):
    """Whether an element whose subscript is a variable and a number is outside its array where a guard first fails."""
    name, bound, (behind, side) = guard
    bounds = unit.bounds[array]
    shift = re.fullmatch(re.escape(name) + r"([+-]\d+)?", "".join(subscript))
    if len(bounds) != 1 or not shift:
        return False
    past = behind + int(shift.group(1) or 0)
    ends = parted(bounds[0], ":")
    low, high = (value(unit, ends[0]), value(unit, ends[1])) if len(ends) == 2 else (1, value(unit, bounds[0]))
    if None in (bound, low, high):
        return past * side > 0
    return not low <= bound + past <= high


def faulty(unit, guarded, guard):
    """The elements and quotients of an operand that fault where a guard fails: where each begins, and its words."""
    name, bound, (behind, _) = guard
    for at, word in enumerate(guarded):
        if word in unit.bounds and guarded[at + 1 : at + 2] == ["("]:
            if any(is_outside(unit, word, it, guard) for it in parted(in_parentheses(guarded, at + 1)[0])):
                yield guarded[at : closing(guarded, at + 1)]
        is_divisor = guarded[at + 1 : at + 2] == [name] and guarded[at + 2 : at + 3] not in (["("], ["**"])
        if word == "/" and is_divisor and at and bound is not None and bound + behind == 0:
            yield guarded[at - 1 : at + 2]
        if word == "MOD" and word not in unit.bounds and bound is not None and bound + behind == 0:
            if parted(in_parentheses(guarded, at + 1)[0])[1:] == [[name]]:
                yield guarded[at : closing(guarded, at + 1)]


def conditions(words):
    """Each two operands of one .AND. or .OR. of a condition, in both orders, and which of the two it is."""
    if ".AND." not in words and ".OR." not in words:
        return
    for at, word in enumerate(words):
        if word == "(":
            yield from conditions(words[at + 1 : closing(words, at) - 1])
    sides = parted(words, ".OR.")
    for way, parts in [(".OR.", sides)] + [(".AND.", parted(it, ".AND.")) for it in sides]:
        for guard, guarded in itertools.permutations(parts, 2):
            yield way, guard, guarded


def both_sides(program):
    """A relation that guards a subscript or a divisor on the other side of .AND. or .OR.: both are evaluated."""
    for unit in program.units:
        for one in unit.statements:
            for part in one.parts():
                for way, left, right in conditions(part.words):
                    guard = guard_of(unit, left, way == ".OR.")
                    for element in faulty(unit, right, guard) if guard else ():
                        what = "fails" if way == ".AND." else "holds"
                        yield at_word("both", one, element[0], f"{''.join(element)} is evaluated also where "
                                      f"{''.join(left)} {what}: {way} evaluates both sides")


def unreached(program):
    """Statements without a label behind GOTO, RETURN or STOP."""
    for unit in program.units:
        for one, after in zip(unit.statements, unit.statements[1:]):
            if one.kind in ("GOTO", "RETURN", "STOP") and not after.label and after.kind not in CLOSERS:
                yield at_statement("unreached", after, f"nothing leads here: {one.text} stands before it")


def blocks(unit):
    """The process blocks of a unit: the opening statement, and its calls, each with whether a PROCESSDO is round it."""
    opener, calls, depth, labels = None, [], 0, []
    for one in unit.statements:
        if one.kind == "PROCESSES":
            opener, calls = one, []
        elif one.kind == "PROCESSDO":
            if opener is None:
                opener, calls = one, []
            depth += 1
            labels.append(str(one.words[0]) if one.words[0].isdigit() else "")
        elif one.kind == "PROCESSCALL":
            calls.append((one, depth > 0))
        ended = 1 if one.kind == "ENDPROCESSDO" else labels.count(one.label) if one.label else 0
        for _ in range(min(ended, len(labels))):
            labels.pop()
            depth -= 1
        if opener and (one.kind == "ENDPROCESSES" or opener.kind == "PROCESSDO" and depth == 0):
            yield opener, calls
            opener = None


def channels(unit):
    """The channels of a unit, for each outport: the names of its inport and of itself."""
    for one in unit.statements:
        for part in one.parts():
            if part.kind in ("CHANNEL", "MERGER"):
                ends = [(str(it[0]), str(it[2])) for it in parted(in_parentheses(part.words)[0])]
                inport = next(name for key, name in ends if key == "IN")
                yield from ((inport, name) for key, name in ends if key == "OUT")


def stays_open(program, process, formal):
    """Whether a process gives an outport back without having closed it or sent it on."""
    return process.intents.get(formal) != "IN" and not program.fate(process, formal) & {"closed", "gone"}


def open_ports(program):
    """Outports that stay open for who reads until the end of the channel, while the parent waits for it."""
    for unit in program.units:
        for opener, calls in blocks(unit):
            inside = {id(one) for one, _ in calls}
            uses = [use for use in program.uses[unit] if use.to and id(use.one) in inside]
            for inport, outport in channels(unit):
                readers = [use for use in uses if use.name == inport and "ends" in program.fate(*use.to)]
                if not readers:
                    continue
                waits = f"{readers[0].to[0].name}, which reads until no writer is open, waits for ever"
                for process, formal in [use.to for use in uses if use.name == outport]:
                    if stays_open(program, process, formal):
                        word = next(it for it in process.heading.words[1:] if it == formal)
                        yield at_word("open", process.heading, word, f"{formal} goes back to {unit.name} when "
                                      f"{process.name} ends, so {waits}: INTENT(IN) {formal} or ENDCHANNEL({formal})")
                if all(use.by in ("CHANNEL", "MERGER", "SEND") for use in program.uses[unit] if use.name == outport):
                    yield at_statement("open", opener, f"{unit.name} keeps {outport} open, so {waits}: "
                                       f"ENDCHANNEL({outport}) before this")


def given(program):
    """A port that a process block gives twice: the second process gets NULL."""
    for unit in program.units:
        for _, calls in blocks(unit):
            before = {}
            for one, is_many in calls:
                for part in parted(in_parentheses(one.words, 1)[0]):
                    if not is_place(part) or part[0] not in unit.ports:
                        continue
                    port, process = "".join(part), str(one.words[0])
                    if port in before:
                        yield at_word("given", one, part[0], f"{port} is given to {before[port]} before: "
                                      f"{process} gets NULL")
                    elif is_many and len(part) == 1:
                        yield at_word("given", one, part[0], f"the first {process} of the PROCESSDO gets {port}: "
                                      "the others get NULL")
                    before[port] = process


def undone(program):
    """A variable that comes back from several processes of a block, one of which changes it."""
    for unit in program.units:
        for _, calls in blocks(unit):
            inside = {id(one): is_many for one, is_many in calls}
            back = {}
            for use in program.uses[unit]:
                if use.to and id(use.one) in inside and use.is_set and use.is_whole and use.name not in unit.ports:
                    back.setdefault(use.name, []).append(use)
            for name, uses in back.items():
                setting = [use for use in uses if "set" in program.fate(*use.to)]
                first = uses.index(setting[0]) if setting else 0
                only = [use for use in uses[first:] if use not in setting]
                if setting and only:
                    reader = only[0].to
                    yield at_word("undone", only[0].one, only[0].word, f"{name} comes back from {reader[0].name} too, "
                                  f"which doesn't change it, and may undo what {setting[0].to[0].name} did: "
                                  f"INTENT(IN) {reader[1]} in {reader[0].name}")
                elif len(setting) > 1 or any(inside[id(use.one)] for use in setting):
                    yield at_word("undone", setting[0].one, setting[0].word, f"{name} comes back from several "
                                  "processes, each of which has its own copy: what the last call did counts alone")


def find(source, is_lawful=True):
    """The findings of a source, in order of lines; of a text that isn't lawful those of its lines alone."""
    found = [*behind_columns(source), *commented(source)]
    if is_lawful:
        program = Program(source)
        for look in (two_words, signs, never, uncalled, unreached, quotients, loop_variables, both_sides, open_ports,
                     given, undone):
            found += look(program)
    joined = {(it.line, it.begin) for it in found if it.kind == "words"}
    unique = {str(it): it for it in found if it.kind != "unread" or (it.line, it.begin) not in joined}
    return sorted(unique.values(), key=lambda it: (it.line, it.begin, it.kind))
