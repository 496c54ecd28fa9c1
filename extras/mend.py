"""Puts something lawful in the place of a refused statement, so that what is refused behind it can be told too.

All of it is advice: `fmc check` judges each mended text, and of several ways to mend a statement that one is taken
after which `check` gets furthest, in the order of its phases and then of lines.
"""
import re

import common
from source import (DECLARATIONS, HEADINGS, OPENERS, Part, closing, in_parentheses, is_name, parted, row_of, rows_of,
                    statements_of, tokens, units)

REFUSAL = re.compile(r"line (\d+): (E\d\d) (.*)")
RELATIONS = {"==": ".EQ.", "/=": ".NE.", "<=": ".LE.", ">=": ".GE.", "<": ".LT.", ">": ".GT."}
MOST = 100


class Told:
    """A refusal: the place of its row in a draft, the line that this row has in the source, the rule and its text."""

    def __init__(self, at, line, rule, text):
        self.at, self.line, self.rule, self.text = at, line, rule, text
        self.key = (int(rule[1]), line, rule)

    def __str__(self):
        return f"line {self.line}: {self.rule} {self.text}"


def told_of(answer, rows):
    """The refusal that an answer of `check` is, for numbered rows; none of another answer."""
    found = REFUSAL.match(answer)
    if not found:
        return None
    at = int(found.group(1)) - 1
    return Told(at, rows[at][0] if at < len(rows) else 1, found.group(2), found.group(3))


class Draft:
    """A text that is mended: its rows, each with its line in the source, and what the last change was.

    A row that is put in has the line of a row beside it.
    """

    def __init__(self, rows, how=""):
        self.rows, self.how = rows, how

    @staticmethod
    def of(source):
        return Draft([*enumerate(rows_of(source), 1)])

    def told(self):
        """The refusal of this text, or none if it is lawful."""
        text = "".join(row + "\n" for _, row in self.rows)
        status, answer = common.call(["check"], text.encode("latin-1"))
        return told_of(answer.decode("latin-1"), self.rows) if status == 3 else None

    def statements(self):
        return statements_of([row for _, row in self.rows])

    def with_rows(self, first, behind, rows, how):
        """This draft with other rows in the place of those from one to that before another."""
        line = self.rows[min(first, len(self.rows) - 1)][0] if self.rows else 1
        return Draft(self.rows[:first] + [(line, row) for row in rows] + self.rows[behind:], how)

    def instead(self, one, text, how=None):
        """This draft with another text in the place of a statement; with none, what is left is a label at most."""
        first, behind = one.rows[0][0] - 1, one.rows[-1][0]
        label = one.label if one.label.isdigit() else ""
        if not text:
            rows = row_of(label, "CONTINUE") if label and one.kind not in DECLARATIONS else []
            return self.with_rows(first, behind, rows, how or "taken out")
        return self.with_rows(first, behind, row_of(label, text), how or f"taken as {text}")

    def added(self, one, rows, how):
        """This draft with rows in front of a statement."""
        return self.with_rows(one.rows[0][0] - 1, one.rows[0][0] - 1, rows, how)

    def declared(self, unit, names):
        """This draft with declarations behind the heading of a unit."""
        behind = unit.heading.rows[-1][0]
        rows = [f"      {kind} {name}" for name, kind in names.items()]
        how = " and ".join(f"{name} declared as {kind}" for name, kind in names.items())
        return self.with_rows(behind, behind, rows, how)


def unit_at(draft, at):
    """The unit of a row, its statement there, and all units."""
    found = units(draft.statements())
    for unit in found:
        for one in unit.statements:
            if one.rows[0][0] - 1 <= at < one.rows[-1][0]:
                return unit, one, found
    return (found[-1], found[-1].statements[-1], found) if found else (None, None, [])


def candidates(unit, one):
    """The names of a statement that have no type by what its unit declares."""
    names = []
    for part in one.parts():
        names += [str(word) for word in part.words if is_name(word)]
    if one is unit.heading:
        names = [*([unit.name] if unit.kind == "FUNCTION" else []), *unit.formals]
    return [name for name in dict.fromkeys(names) if not unit.has_type(name)]


def is_logical(unit, name):
    """Whether the statements of a unit use a name as a logical one."""
    text, relation = re.escape(name), r"\.(LT|LE|GT|GE|EQ|NE)\."
    forms = (rf"^{text}=(\.TRUE\.|\.FALSE\.|\.NOT\.|.*\.(AND|OR)\.|.*{relation})",
             rf"\.NOT\.{text}$", rf"EMPTY={text}\)",
             rf"(\.AND\.|\.OR\.){text}\b(?!{relation})", rf"(IF|DOWHILE)\({text}\)")
    return any(re.search(form, one.text) for form in forms for one in unit.statements)


def undeclared(draft, told):
    """Those names of the told statement that `fmc check` wants declared, each with INTEGER or LOGICAL."""
    unit, one, _ = unit_at(draft, told.at)
    if unit is None:
        return {}
    names = {name: "LOGICAL" if is_logical(unit, name) else "INTEGER" for name in candidates(unit, one)}
    found = {}
    for name in names:
        others = {it: kind for it, kind in names.items() if it != name}
        after = draft.declared(unit, others).told()
        if after and (after.line, after.rule) == (told.line, "E31"):
            found[name] = names[name]
    return found


def free_form(draft, told):
    """A row that begins left of column 7, moved to its place."""
    row = draft.rows[told.at][1]
    label, text = re.match(r"\s*(\d{0,5})\s*(.*)", row.expandtabs(8)).groups()
    if text:
        yield draft.with_rows(told.at, told.at + 1, row_of(label, text.rstrip()), "moved to column 7")
    yield draft.with_rows(told.at, told.at + 1, [], "taken out")


def plain_row(draft, told):
    """A row without bytes that aren't printable."""
    row = draft.rows[told.at][1].expandtabs(8)
    row = "".join(sign if " " <= sign <= "~" else " " for sign in row[:72]) + row[72:]
    yield draft.with_rows(told.at, told.at + 1, [row], "with blanks in their place")


def neutral(one):
    """A lawful statement that opens, parts or closes what a statement does, or "" of others."""
    text = one.text
    loop = re.match(r"(PROCESS)?DO(\d*),?([A-Z]\w*)?", text)
    if re.match(r"IF\(.*\)THEN", text) or text.startswith("SELECTCASE"):
        return "IF (.TRUE.) THEN"
    if re.match(r"ELSEIF\(.*", text):
        return "ELSE IF (.TRUE.) THEN"
    if text.startswith("DOWHILE") or text == "DO":
        return "DO WHILE (.TRUE.)"
    if loop and one.kind in ("DO", "PROCESSDO"):
        name = loop.group(3) if loop.group(3) and "I" <= loop.group(3)[0] <= "N" else "I"
        return f"{loop.group(1) or ''}DO {loop.group(2)} {name[:31]} = 1, 1"
    if text.startswith("ENDSELECT"):
        return "END IF"
    if re.match(r"END(PROGRAM|SUBROUTINE|FUNCTION|PROCESS(?!ES|DO))", text):
        return "END"
    return ""


def relations(text):
    """A text with the relations of this language, also where a condition has a bare =."""
    pieces = re.split(r"('(?:[^']|'')*')", text)
    for at in range(0, len(pieces), 2):
        pieces[at] = re.sub(r"==|/=|<=|>=|<|>", lambda it: RELATIONS[it.group()], pieces[at])
    text = "".join(pieces)
    found = re.match(r"(ELSE)?IF\(|DOWHILE\(", text)
    if not found:
        return text
    words = tokens(text, found.end() - 1)
    end = closing(words, 0)
    inside = "".join(".EQ." if word == "=" else word for word in words[:end])
    return text[: found.end() - 1] + inside + "".join(words[end:])


def declaration(text):
    """A declaration of another Fortran as one of this language."""
    found = re.match(r"(REAL|DOUBLEPRECISION|COMPLEX|CHARACTER|INTEGER|LOGICAL)"
                     r"(?:\*\d+|\*\(\*\)|\((?:KIND=|LEN=)?\w+\))?((?:,[A-Z]+(?:\([^()]*\))?)*?)"
                     r"(?:::)?((?<=::)[A-Z].*|(?<=[A-Z0-9)])[A-Z].*)$", text)
    if not found:
        return ""
    names = [part for part in parted(tokens(found.group(3), 0)) if part]
    if "PARAMETER" in found.group(2):
        return f"PARAMETER({','.join(''.join(part) for part in names)})"
    kept = []
    for part in names:
        end = closing(part, 1) if part[1:2] == ["("] else 1
        kept.append("".join(part[:end]))
    kind = "LOGICAL" if found.group(1) == "LOGICAL" else "INTEGER"
    return f"{kind} {', '.join(kept)}"


def translations(one):
    """What a statement that is none of the grammar may have been meant as."""
    text = one.text
    note = re.match(r"((?:'(?:[^']|'')*'|[^'!])*)!", text)
    if note:
        text = note.group(1)
        yield text
    yield text.rstrip("&,")
    yield text.replace('"', "'")
    yield relations(text)
    yield re.sub(r",(IOSTAT|ERR)=[A-Z0-9]\w*(?=[,)])", "", text)
    yield re.sub(r"^CHANNEL\((\w+),(\w+)\)$", r"CHANNEL(IN=\1, OUT=\2)", text)
    yield re.sub(r"^(STOP|PAUSE).*", "STOP", text)
    yield re.sub(r"^PRINT.*?,|^WRITE\(.*?\)", "PRINT *, ", text)
    yield re.sub(r"([*/(=])([+-])(\w+)", r"\1(\2\3)", text)
    yield re.sub(r"^(RECURSIVE)?((REAL|DOUBLEPRECISION|COMPLEX|CHARACTER(\*\d+)?)?FUNCTION)", "INTEGER FUNCTION ", text)
    yield re.sub(r"^RECURSIVE", "", text)
    yield re.sub(r"^((?:INTEGER|LOGICAL)?FUNCTION)([A-Z]\w*)$", r"\1 \2()", text)
    yield declaration(text)


def is_form(text):
    """Whether a text has the class of a statement; no more than a guess of what `check` says."""
    return bool(Part.class_of(text.replace(" ", ""), 0)[0])


def grammar(draft, told):
    _, one, _ = unit_at(draft, told.at)
    for text in dict.fromkeys([*translations(one), neutral(one)]):
        if is_form(text) and text != one.text:
            yield draft.instead(one, text)
    if ";" in one.text:
        pieces = [*filter(None, one.text.split(";"))]
        rows = [row for at, piece in enumerate(pieces) for row in row_of("" if at else one.label, piece)]
        yield draft.with_rows(one.rows[0][0] - 1, one.rows[-1][0], rows, "taken as several lines")
    if one.kind == "PROCESSCALL" or one.text.startswith("IF("):
        yield draft.instead(one, "")
    yield draft.instead(one, "")


def large(draft, told):
    _, one, _ = unit_at(draft, told.at)
    if told.rule == "E11":
        yield draft.instead(one, re.sub(r"\d{19,}", "1", one.text))
    for name in re.findall(r"[A-Z]\w{31,}", one.text) if told.rule == "E12" else ():
        spread = re.compile(r" *".join(name), re.I)
        yield Draft([(line, spread.sub(name[:31], row)) for line, row in draft.rows], f"{name} cut to 31 characters")
    yield draft.instead(one, "")


def out_of_place(draft, told):
    unit, one, _ = unit_at(draft, told.at)
    if one is unit.heading:
        yield draft.added(one, ["      PROGRAM MAIN"], "PROGRAM put in front")
        yield draft.added(one, ["      SUBROUTINE NONAME"], "SUBROUTINE put in front")
    elif one.kind in HEADINGS:
        yield draft.added(one, ["      END"], "END put in front")
    elif one.kind in DECLARATIONS:
        rows = draft.rows[one.rows[0][0] - 1 : one.rows[-1][0]]
        rest = draft.rows[: one.rows[0][0] - 1] + draft.rows[one.rows[-1][0] :]
        behind = unit.heading.rows[-1][0]
        yield Draft(rest[:behind] + rows + rest[behind:], "moved behind the heading")
    elif one.kind == "PROCESSCALL":
        text = draft.rows[one.rows[0][0] - 1 : one.rows[-1][0]]
        rows = ["      PROCESSES", *(row for _, row in text), "      END PROCESSES"]
        yield draft.with_rows(one.rows[0][0] - 1, one.rows[-1][0], rows, "put between PROCESSES and END PROCESSES")
    elif one.kind == "RETURN":
        yield draft.instead(one, "STOP")
    yield draft.instead(one, "")


def missing_ends(unit):
    """The first statement in front of which ends of blocks are missing, and the rows of these ends; or none."""
    opened = []
    for one in unit.statements:
        if one.kind in OPENERS:
            label = re.match(r"(?:PROCESS)?DO(\d*)", one.text).group(1) if one.kind in ("DO", "PROCESSDO") else ""
            opened.append((row_of(label, "CONTINUE")[0] if label else f"      {OPENERS[one.kind]}", one.kind, label))
        elif one.kind in OPENERS.values():
            depth = [at for at, (_, kind, label) in enumerate(opened) if OPENERS[kind] == one.kind and not label]
            if depth and depth[-1] < len(opened) - 1:
                return one, [row for row, _, _ in reversed(opened[depth[-1] + 1 :])]
            del opened[depth[-1] if depth else len(opened) :]
        elif one.kind == "END" and opened:
            return one, [row for row, _, _ in reversed(opened)]
        while one.label and opened and opened[-1][2] == one.label and one.kind not in OPENERS:
            opened.pop()
    return None


def blocks(draft, told):
    unit, one, _ = unit_at(draft, told.at)
    missing = missing_ends(unit)
    if missing:
        before, rows = missing
        line = draft.rows[before.rows[0][0] - 1][0]
        yield draft.added(before, rows, f"{', '.join(row.strip() for row in rows)} put in front of line {line}")
    yield draft.instead(one, "")


def labels(draft, told):
    unit, one, _ = unit_at(draft, told.at)
    last = unit.statements[-1]
    rows = draft.rows[one.rows[0][0] - 1 : one.rows[-1][0]]
    if told.rule == "E22":
        yield draft.with_rows(told.at, one.rows[-1][0], [" " * 5 + rows[0][1][5:], *(row for _, row in rows[1:])],
                              "without its label")
    for label in re.findall(r"(?:GOTO|END=)(\d{1,5})", one.text) if told.rule == "E23" else ():
        yield draft.added(last, row_of(label, "CONTINUE"), f"{label} CONTINUE put in front of the unit's END")
    if told.rule == "E25":
        label = re.match(r"(?:PROCESS)?DO(\d+)", one.text)
        yield draft.instead(one, re.sub(r"^((?:PROCESS)?DO)\d+,?", r"\1 ", one.text))
        if label:
            yield draft.added(last, row_of(label.group(1), "CONTINUE"), "its end put in front of the unit's END")
    yield draft.instead(one, re.sub(r"GOTO\d+", "CONTINUE", re.sub(r",END=\d+", "", one.text)))
    yield draft.instead(one, "")


def whole(draft, told):
    unit, one, _ = unit_at(draft, told.at)
    behind = len(draft.rows)
    if told.rule == "E28":
        yield draft.with_rows(behind, behind, ["      END"], "END put behind it")
    elif told.rule == "E27":
        yield draft.instead(one, one.text.replace(unit.name, unit.name[:27] + "2", 1))
    elif unit is not None and one.kind == "PROGRAM":
        yield draft.instead(one, f"PROCESS {unit.name}")
    else:
        yield draft.with_rows(behind, behind, ["      PROGRAM NONAME", "      END"], "a PROGRAM put behind it")
    if one is not None:
        yield draft.instead(one, "")


def in_block(draft, told):
    unit, one, _ = unit_at(draft, told.at)
    yield draft.instead(one, "")
    depth = 0
    for other in unit.statements[unit.statements.index(one) :] if one.kind in OPENERS else ():
        depth += (other.kind in OPENERS) - (other.kind in OPENERS.values())
        if depth == 0:
            yield draft.with_rows(one.rows[0][0] - 1, other.rows[-1][0], [], "taken out with its block")
            break


def declarations(draft, told):
    unit, one, _ = unit_at(draft, told.at)
    if told.rule == "E31":
        names = undeclared(draft, told)
        if names:
            yield draft.declared(unit, names)
    for other in unit.statements if told.rule == "E34" else ():
        smaller = re.sub(r"(?<=\w)\([^()]*\)", "(1)", other.text)
        if other.kind in ("INTEGER", "LOGICAL", "DIMENSION") and smaller != other.text:
            yield draft.instead(other, smaller)
    if one is unit.heading:
        return
    words = one.words
    fields = in_parentheses(words)[0] if one.kind in ("INPORT", "OUTPORT", "INTENT") else None
    front = one.kind + (f"({''.join(fields)})" if fields is not None else "")
    parts = parted(in_parentheses(words)[1] if fields is not None else words)
    if one.kind == "PARAMETER":
        parts = parted(in_parentheses(words)[0])
        ones = [f"{part[0]}=1" if part else "" for part in parts]
        yield draft.instead(one, f"PARAMETER({','.join(ones)})")
    elif one.kind in DECLARATIONS:
        for at in range(len(parts)):
            kept = ",".join("".join(part) for part in parts[:at] + parts[at + 1 :])
            yield draft.instead(one, f"{front} {kept}" if kept else "")
        if told.rule in ("E32", "E33"):
            yield draft.instead(one, front + " " + ",".join(f"{part[0]}(1)" if len(part) > 1 else "".join(part)
                                                            for part in parts if part))
    yield draft.instead(one, neutral(one))


def meaning(draft, told):
    _, one, _ = unit_at(draft, told.at)
    yield draft.instead(one, neutral(one))


MENDS = {"E01": plain_row, "E02": free_form, "E03": free_form, "E10": grammar, "E11": large, "E12": large,
         "E20": out_of_place, "E21": blocks, "E22": labels, "E23": labels, "E24": labels, "E25": labels, "E26": whole,
         "E27": whole, "E28": whole, "E29": in_block, "E30": declarations, "E31": declarations, "E32": declarations,
         "E33": declarations, "E34": declarations}


def mended(draft, told, before):
    """A draft in which the told statement is mended, with its refusal or none; none where nothing gets further.

    `before` counts how often each place was told before; a place that was told twice is told no more.
    """
    best = None
    for other in MENDS.get(told.rule, meaning)(draft, told):
        if [row for _, row in other.rows] != [row for _, row in draft.rows]:
            after = other.told()
            key = after.key if after else (9,)
            is_new = not after or before.get(key, 0) < 2
            if is_new and key != told.key and (best is None or key > best[0]):
                best = key, other, after
    return best and best[1:]


def go_on(source):
    """Each refusal of a source in turn with what was done to go on; at the end None and whether it is lawful then."""
    draft, before = Draft.of(source), {}
    told = draft.told()
    for _ in range(MOST):
        if told is None:
            break
        before[told.key] = before.get(told.key, 0) + 1
        found = mended(draft, told, before)
        yield told, found[0].how if found else ""
        if not found:
            break
        draft, told = found
    yield None, told is None
