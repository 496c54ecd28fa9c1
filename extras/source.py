"""The fixed form as `fmc` reads it: lines, statements, the class of a statement, and the units with their names.

Texts are strings in which each byte of the source is one character (latin-1). Nothing here refuses a text: what isn't
lawful gets the class "" or a part that is empty.
"""
import re

TOKEN = re.compile(r"'(?:[^']|'')*'?|\.[A-Z]+\.|[A-Z][A-Z0-9_]*|\d+|\*\*|.", re.S)
SIGN = re.compile(r"'(?:[^']|'')*'?|[()=,]", re.S)
CAPITALS = {32: None, **{small: small - 32 for small in range(97, 123)}}
ALONE = ("END", "ENDIF", "ENDDO", "ENDPROCESSES", "ENDPROCESSDO", "ELSE", "CONTINUE", "RETURN", "STOP", "PROCESSES",
         "IMPLICITNONE")
FRONTS = ("ELSEIF(", "DOWHILE(", "GOTO", "ENDCHANNEL(", "CHANNEL(", "MERGER(", "SEND(", "RECEIVE(", "MOVEPORT(",
          "PROBE(", "PROCESSCALL", "PROCESSORS(", "PROCESS", "PROGRAM", "SUBROUTINE", "INTEGERFUNCTION",
          "LOGICALFUNCTION", "FUNCTION", "CALL", "PRINT*", "WRITE(", "INTEGER", "LOGICAL", "DIMENSION", "PARAMETER(",
          "INPORT(", "OUTPORT(", "INTENT(")
HEADINGS = ("PROGRAM", "PROCESS", "SUBROUTINE", "FUNCTION", "INTEGERFUNCTION", "LOGICALFUNCTION")
DECLARATIONS = ("IMPLICITNONE", "INTEGER", "LOGICAL", "DIMENSION", "PARAMETER", "INPORT", "OUTPORT", "INTENT",
                "PROCESSORS")
OPENERS = {"IF": "ENDIF", "DO": "ENDDO", "DOWHILE": "ENDDO", "PROCESSES": "ENDPROCESSES", "PROCESSDO": "ENDPROCESSDO"}
INTRINSICS = ("ABS", "IABS", "MOD", "SIGN", "ISIGN", "DIM", "IDIM", "MAX", "MAX0", "MIN", "MIN0")


class Word(str):
    """A token, with the place of its first character in the text of its statement."""

    at = 0


def rows_of(source):
    """The lines of a source, each without its line feed and the CR at its end."""
    rows = source.decode("latin-1").split("\n")
    if rows[-1] == "":
        rows.pop()
    return [row[:-1] if row.endswith("\r") else row for row in rows]


def row_of(label, text):
    """The lines of a statement with a label and a text."""
    pieces = [text[at : at + 66] for at in range(0, len(text), 66)]
    return [f"{label:>5} {pieces[0]}"] + [f"     +{piece}" for piece in pieces[1:]]


def is_comment(row):
    return row[:1] in ("C", "c", "*", "!") or not row[:72].strip(" ")


def is_continuation(row):
    return not is_comment(row) and row[5:6] not in ("", " ", "0")


def squeezed(text):
    """A text without the blanks outside its character constants and with capitals there, and its characters' places."""
    kept, where, begin = [], [], 0
    for number, piece in enumerate(text.split("'")):
        if number:
            kept.append("'")
            where.append(begin - 1)
        if number % 2:
            kept.append(piece)
            where.extend(range(begin, begin + len(piece)))
        else:
            kept.append(piece.translate(CAPITALS))
            where.extend(begin + at for at, sign in enumerate(piece) if sign != " ")
        begin += len(piece) + 1
    return "".join(kept), where


def tokens(text, first, end=None):
    """The tokens of a part of a text."""
    found = []
    for it in TOKEN.finditer(text, first, len(text) if end is None else end):
        word = Word(it.group())
        word.at = it.start()
        found.append(word)
    return found


def closing(words, first):
    """The place behind the parenthesis that closes the one at a place, or that of the end."""
    depth = 0
    for at in range(first, len(words)):
        depth += (words[at] == "(") - (words[at] == ")")
        if depth == 0:
            return at + 1
    return len(words)


def parted(words, sign=","):
    """The parts between those signs of a list that stand outside parentheses; of no words there are none."""
    parts, depth = [[]], 0
    for word in words:
        depth += (word == "(") - (word == ")")
        if word == sign and depth == 0:
            parts.append([])
        else:
            parts[-1].append(word)
    return parts if words else []


def in_parentheses(words, first=0):
    """The words between a parenthesis at a place and the one that closes it, and the words behind."""
    if words[first : first + 1] != ["("]:
        return [], words[first:]
    end = closing(words, first)
    return words[first + 1 : end - 1], words[end:]


def is_name(word):
    return "A" <= word[:1] <= "Z"


class Part:
    """A statement, or what stands behind the test of a logical IF: its class, its words, and that inner part."""

    def __init__(self, text, first):
        self.first = first
        self.kind, begin = self.class_of(text, first)
        self.words = tokens(text, begin)
        self.inner = None
        if self.kind == "IF":
            test, behind = in_parentheses(self.words)
            if behind != ["THEN"]:
                self.kind = "TEST"
                self.inner = Part(text, behind[0].at) if behind else None
            self.words = test

    @staticmethod
    def class_of(text, first):
        """The class of a text, "" of none, and where its words begin."""
        rest = text[first:]
        level, top, is_if = 0, set(), rest.startswith("IF(")
        for it in SIGN.finditer(rest):
            sign = it.group()
            level += (sign == "(") - (sign == ")")
            if level == 0:
                if is_if and sign == ")" and rest[it.end() : it.end() + 1] not in ("", "="):
                    return "IF", first + 2
                is_if = False
                top.add(sign)
        if "=" in top:
            if "," not in top:
                return "ASSIGNMENT", first
            for keyword in ("PROCESSDO", "DO"):
                if rest.startswith(keyword):
                    return keyword, first + len(keyword)
            return "", first
        if rest in ALONE:
            return rest, first + len(rest)
        for front in FRONTS:
            if rest.startswith(front):
                return front.rstrip("(*"), first + len(front.rstrip("("))
        return "", first


class Statement(Part):
    """A statement of a source: the rows that it stands on, its label, and its text without blanks."""

    def __init__(self, rows):
        self.rows = rows
        self.line = rows[0][0]
        self.label = rows[0][1][:5].replace(" ", "")
        spread = "".join(row[6:72].ljust(66) for _, row in rows)
        self.spread = spread.rstrip(" ")
        self.text, where = squeezed(spread)
        self.places = [(rows[at // 66][0], at % 66 + 6) for at in where]
        self.offsets = where
        super().__init__(self.text, 0)

    def place(self, word):
        """The line and the column, from 0, of a word."""
        return self.places[word.at] if word.at < len(self.places) else (self.line, 6)

    def parts(self):
        """The statement, and what stands behind its test if it is a logical IF."""
        part = self
        while part is not None:
            yield part
            part = part.inner


def statements(source):
    """The statements of a source."""
    return statements_of(rows_of(source))


def statements_of(rows):
    """The statements of some lines; a continuation without a statement before it begins one."""
    kept = []
    for number, row in enumerate(rows, 1):
        if is_comment(row):
            continue
        if kept and is_continuation(row):
            kept[-1].append((number, row))
        else:
            kept.append([(number, row)])
    return [Statement(rows) for rows in kept]


class Unit:
    """A unit: its heading, its statements, and what its declarations say of names."""

    def __init__(self, rows):
        self.statements = rows
        self.heading = rows[0]
        words = self.heading.words if self.heading.kind in HEADINGS else []
        self.kind = "FUNCTION" if self.heading.kind.endswith("FUNCTION") else self.heading.kind
        self.name = str(words[0]) if words else ""
        self.formals = [str(part[0]) for part in parted(in_parentheses(words, 1)[0]) if part]
        self.types, self.bounds, self.constants, self.intents, self.ports, self.where = {}, {}, {}, {}, {}, {}
        self.is_implicit = True
        if self.heading.kind in ("INTEGERFUNCTION", "LOGICALFUNCTION"):
            self.types[self.name] = self.heading.kind[:7]
        for one in rows[1:]:
            if one.kind in DECLARATIONS:
                self.declare(one)

    def declare(self, one):
        """Keeps what a declaration says."""
        if one.kind == "IMPLICITNONE":
            self.is_implicit = False
        elif one.kind == "PARAMETER":
            for part in parted(in_parentheses(one.words)[0]):
                if part:
                    self.constants[str(part[0])] = part[2:]
        elif one.kind == "INTENT":
            way, names = in_parentheses(one.words)
            for part in parted(names):
                self.intents["".join(part)] = "".join(way)
        elif one.kind != "PROCESSORS":
            fields, names = in_parentheses(one.words) if one.kind in ("INPORT", "OUTPORT") else (None, one.words)
            for part in parted(names):
                if part:
                    self.declarator(one, part, fields)

    def declarator(self, one, part, fields):
        name = str(part[0])
        self.where.setdefault(name, (one, part[0]))
        if one.kind != "DIMENSION":
            self.types[name] = one.kind
        if fields is not None:
            self.ports[name] = one.kind
        if len(part) > 1:
            self.bounds[name] = parted(in_parentheses(part, 1)[0])

    def has_type(self, name):
        """Whether a name has a type by a declaration or by its first letter."""
        return name in self.types or self.is_implicit and "I" <= name[0] <= "N"


def units(rows):
    """The units of some statements, cut behind each END."""
    found, begin = [], 0
    for at, one in enumerate(rows):
        if one.kind == "END" or at == len(rows) - 1:
            found.append(Unit(rows[begin : at + 1]))
            begin = at + 1
    return found
