#!/usr/bin/env python3
"""Whether extras/lint finds what is a slip, and nothing where there is none.

    bench/lint.py [BINARY]

BINARY is the built program, by default crates/fmc_cli/out/fmc_cli. The statements that extras/source.py reads of each
example are those of `fmc list`. Of each example lint says what EXAMPLES has, and of each row of SLIPS the kinds of that
row, each with its line. Of a text that isn't lawful it writes the answer of `check`. The programs of docs/LINT.md are
compared by bench/pages.py.
"""
import glob
import os
import subprocess
import sys

TOP = os.path.dirname(os.path.dirname(os.path.abspath(__file__)))
sys.path.insert(0, os.path.join(TOP, "extras"))
import common  # noqa: E402
import slips  # noqa: E402
import source  # noqa: E402

# what is found in examples, all else being silent: the file, and the findings
EXAMPLES = {}

SENDER = """
      PROCESS SENDER(Q)
      OUTPORT (INTEGER) Q
      SEND(Q) 1
      END
"""
READER = """
      PROCESS READER(P)
      INPORT (INTEGER) P
   10 RECEIVE(P, END=20) K
      PRINT *, K
      GOTO 10
   20 END
"""
TWO = """
      PROGRAM P
      INPORT (INTEGER) IN
      OUTPORT (INTEGER) OUT
      %s
      PROCESSES
        PROCESSCALL %s
        PROCESSCALL READER(IN)
      ENDPROCESSES
      END
"""
MADE = "CHANNEL(IN=IN, OUT=OUT)"
SENDS = TWO % (MADE, "SENDER(OUT)")


def main_of(text, declared=""):
    """A program of some statements."""
    rows = [*filter(None, declared.split("\n")), *text.split("\n")]
    return "      PROGRAM P\n" + "".join(f"      {row}\n" for row in rows) + "      END\n"


# a name, a program, and what is found there: a kind and a line each
SLIPS = [
    ("a deck's numbers", "      PROGRAM P".ljust(72) + "P0000010\n      END\n", ["columns 1"]),
    ("blanks behind column 72", "      PROGRAM P".ljust(80) + "\n      END\n", []),
    ("a comment behind column 72", "C".ljust(75, "x") + "\n      PROGRAM P\n      END\n", []),
    ("a constant that is cut", "      PROGRAM P\n" + "      PRINT *, 1".ljust(72) + "00\n      END\n", ["columns 2"]),
    ("a commented CALL", "      PROGRAM P\nCALL S(1)\n      END\n", ["comment 2"]),
    ("a note that begins with call", "      PROGRAM P\nCall it a day\nCall home\n      END\n", []),
    ("a commented CHANNEL", "      PROGRAM P\nCHANNEL(IN=A, OUT=B)\n      END\n", ["comment 2"]),
    ("a commented CONTINUE", "      PROGRAM P\nCONTINUE\n      END\n", ["comment 2"]),
    ("a declaration with a value", main_of("INTEGER N = 3\nPRINT *, M\nM = 1"), ["words 2"]),
    ("the same without a blank", main_of("INTEGERN = 3\nPRINT *, INTEGERN"), []),
    ("a field and its array in two words", main_of("LAST ONE = 3\nPRINT *, LASTONE"), ["words 2"]),
    ("an element, written wide", main_of("LIST (1) = 3\nPRINT *, LIST", "INTEGER LIST(2)"), []),
    ("=+", main_of("K =+ 1\nPRINT *, K"), ["sign 2"]),
    ("=-", main_of("K =- 1\nPRINT *, K"), ["sign 2"]),
    ("a sign", main_of("K = -1\nK=-1\nK = +1\nPRINT *, K"), []),
    ("a relation behind =", main_of("L = -K .EQ. +K\nPRINT *, L, K\nK = 1", "LOGICAL L"), []),
    ("read, not set", main_of("PRINT *, K"), ["unset 2"]),
    ("read in a bound of a loop", main_of("DO I = 1, N\nPRINT *, I\nENDDO"), ["unset 2"]),
    ("read as a subscript", main_of("M(I) = 1\nPRINT *, M", "INTEGER M(3)"), ["unset 3"]),
    ("set by a loop", main_of("DO I = 1, 3\nPRINT *, I\nENDDO"), []),
    ("set by a call", main_of("CALL S(K)\nPRINT *, K") + "      SUBROUTINE S(N)\n      N = 1\n      END\n", []),
    ("only read by a call", main_of("CALL S(K)")
     + "      SUBROUTINE S(N)\n      INTENT(IN) N\n      PRINT *, N\n      END\n", ["unset 2"]),
    ("a constant", main_of("PRINT *, N", "PARAMETER (N = 3)"), []),
    ("a function", main_of("PRINT *, N(3), MOD(3, 2)") + "      INTEGER FUNCTION N(I)\n      N = I\n      END\n", []),
    ("the field of a message", main_of("CHANNEL(IN=IP, OUT=IQ)\nSEND(IQ) 1, K\nRECEIVE(IP) I, K\nPRINT *, I",
                                       "INPORT (INTEGER N, INTEGER X(N)) IP\nOUTPORT (INTEGER N, INTEGER X(N)) IQ"
                                       "\nINTEGER K(3)"), []),
    ("a port that is NULL", main_of("RECEIVE(Q) I", "INPORT (INTEGER) Q"), ["unset 3"]),
    ("set, not read", main_of("K = 1"), ["unread 2"]),
    ("read by what sets it", main_of("K = K + 1"), []),
    ("received, not read", main_of("CHANNEL(IN=IP, OUT=IQ)\nSEND(IQ) 1\nRECEIVE(IP) I",
                                   "INPORT (INTEGER) IP\nOUTPORT (INTEGER) IQ"), []),
    ("EMPTY, not read", main_of("CHANNEL(IN=IP, OUT=IQ)\nPROBE(IP, EMPTY=L)",
                                "INPORT (INTEGER) IP\nOUTPORT (INTEGER) IQ\nLOGICAL L"), ["unread 6"]),
    ("declared, not used", main_of("PRINT *, 1", "LOGICAL L(4)"), ["unused 2"]),
    ("the type of a function", main_of("PRINT *, TEN(1)", "INTEGER TEN")
     + "      INTEGER FUNCTION TEN(I)\n      TEN = 10*I\n      END\n", []),
    ("not called", main_of("PRINT *, 1") + SENDER.lstrip("\n"), ["uncalled 4"]),
    ("called by itself alone", main_of("PRINT *, 1") + "      PROCESS Q\n      PROCESSES\n      PROCESSCALL Q\n"
     "      ENDPROCESSES\n      END\n", []),
    ("behind GOTO", main_of("GOTO 10\nPRINT *, 1") [:-10] + "   10 END\n", ["unreached 3"]),
    ("behind a logical IF", main_of("IF (1 .EQ. 1) STOP\nPRINT *, 1"), []),
    ("STOP in a branch", main_of("IF (1 .EQ. 1) THEN\nSTOP\nELSE\nSTOP\nENDIF"), []),
    ("a quotient", main_of("PRINT *, 7/2"), ["quotient 2"]),
    ("a quotient of a product", main_of("PRINT *, K*7/2, 8/4, 21/6**2, 2**3/3\nK = 1"), []),
    ("a loop's variable", main_of("DO 10 I = 1, 3\nI = 2\nDO J = 1, 2\nI = J\nENDDO")[:-10]
     + "   10 CONTINUE\n      END\n", ["loop 3", "loop 5"]),
    ("a loop's variable behind the loop", main_of("DO I = 1, 3\nPRINT *, I\nENDDO\nI = 2"), []),
    ("a guard below", main_of("I = 1\nIF (I .GE. 1 .AND. K(I) .EQ. 0) STOP\nK(1) = 1", "INTEGER K(3)"), ["both 4"]),
    ("a guard above", main_of("I = 1\nIF (I .LT. 3 .AND. K(I+1) .EQ. 0) STOP\nK(1) = 1", "INTEGER K(3)"), ["both 4"]),
    ("a guard above that needn't be", main_of("I = 1\nIF (I .LT. 3 .AND. K(I) .EQ. 0) STOP\nK(1) = 1",
                                              "INTEGER K(3)"), []),
    ("a guard with an element to spare", main_of("I = 1\nIF (I .GE. 1 .AND. K(I) .EQ. 0) STOP\nK(1) = 1",
                                                 "INTEGER K(0:3)"), []),
    ("a guard by a constant", main_of("I = 1\nIF (N .GE. I .AND. K(I) .EQ. 0) STOP\nK(1) = 1",
                                      "PARAMETER (N = 3)\nINTEGER K(N)"), ["both 5"]),
    ("a guard by a variable", main_of("I = 1\nM = 3\nIF (I .LE. M .AND. K(I) .EQ. 0) STOP\nK(1) = 1", "INTEGER K(3)"),
     ["both 5"]),
    ("a guard by OR", main_of("I = 1\nIF (I .LT. 1 .OR. K(I) .EQ. 0) STOP\nK(1) = 1", "INTEGER K(3)"), ["both 4"]),
    ("a guard in parentheses", main_of("I = 1\nIF (I .GT. 5 .OR. (I .GE. 1 .AND. K(I) .EQ. 0)) STOP\nK(1) = 1",
                                       "INTEGER K(6)"), ["both 4"]),
    ("a guard of a divisor", main_of("I = 1\nIF (I .NE. 0 .AND. 7/I .EQ. 0) STOP"), ["both 3"]),
    ("a guard of MOD", main_of("I = 1\nIF (I .NE. 0 .AND. MOD(7, I) .EQ. 0) STOP"), ["both 3"]),
    ("a comparison that is no guard", main_of("I = 1\nIF (I .GT. 5 .AND. 7/I .EQ. 0) STOP"), []),
    ("one IF in another", main_of("I = 1\nIF (I .GE. 1) THEN\nIF (K(I) .EQ. 0) STOP\nENDIF\nK(1) = 1",
                                  "INTEGER K(3)"), []),
    ("a sender that doesn't close", SENDS + SENDER + READER, ["open 12"]),
    ("a sender that closes", SENDS + SENDER.replace("SEND(Q) 1", "SEND(Q) 1\n      ENDCHANNEL(Q)") + READER, []),
    ("a sender with INTENT(IN)", SENDS + SENDER.replace("SEND(Q)", "INTENT(IN) Q\n      SEND(Q)") + READER, []),
    ("a sender whose subroutine closes", SENDS + SENDER.replace("SEND(Q) 1", "CALL LAST(Q)")
     + "      SUBROUTINE LAST(R)\n      OUTPORT (INTEGER) R\n      ENDCHANNEL(R)\n      END\n" + READER, []),
    ("a sender whose port goes on", SENDS + SENDER.replace("SEND(Q) 1", "MOVEPORT(FROM=Q, TO=R)\n      ENDCHANNEL(R)")
     .replace(") Q\n", ") Q, R\n") + READER, []),
    ("a reader of one message", SENDS + SENDER + READER.replace(", END=20", "").replace("GOTO 10", "GOTO 20"), []),
    ("a parent that keeps the port", TWO % (MADE + "\n      SEND(OUT) 1", "LOOK(1)")
     + "      PROCESS LOOK(N)\n      PRINT *, N\n      END\n" + READER, ["open 7"]),
    ("a parent that closes it", TWO % (MADE + "\n      SEND(OUT) 1\n      ENDCHANNEL(OUT)", "LOOK(1)")
     + "      PROCESS LOOK(N)\n      PRINT *, N\n      END\n" + READER, []),
    ("a port given twice", SENDS.replace("PROCESSCALL READER", "PROCESSCALL SENDER(OUT)\n        PROCESSCALL READER")
     + SENDER.replace("SEND(Q) 1", "ENDCHANNEL(Q)") + READER, ["given 8"]),
    ("a port given in a PROCESSDO", SENDS.replace("PROCESSCALL SENDER(OUT)", "PROCESSDO I = 1, 2\n        "
     "PROCESSCALL SENDER(OUT)\n        ENDPROCESSDO") + SENDER.replace("SEND(Q) 1", "ENDCHANNEL(Q)") + READER,
     ["given 8"]),
    ("a port given in two blocks", main_of("CHANNEL(IN=IP, OUT=IQ)\nDO I = 1, 2\nPROCESSES\nPROCESSCALL SENDER(IQ)\n"
     "ENDPROCESSES\nENDDO\nPROCESSES\nPROCESSCALL SENDER(IQ)\nENDPROCESSES",
                                           "INPORT (INTEGER) IP\nOUTPORT (INTEGER) IQ") + SENDER, []),
    ("two that change", main_of("PROCESSES\nPROCESSCALL A(N)\nPROCESSCALL A(N)\nENDPROCESSES\nPRINT *, N")
     + "      PROCESS A(N)\n      N = N + 1\n      END\n", ["undone 3"]),
    ("two that read", main_of("N = 1\nPROCESSES\nPROCESSCALL A(N)\nPROCESSCALL A(N)\nENDPROCESSES")
     + "      PROCESS A(N)\n      PRINT *, N\n      END\n", []),
    ("one that reads before a change", main_of("N = 1\nPROCESSES\nPROCESSCALL A(N)\nPROCESSCALL B(N)\nENDPROCESSES")
     + "      PROCESS A(N)\n      PRINT *, N\n      END\n      PROCESS B(N)\n      N = 2\n      END\n", []),
    ("one that reads behind one that changes", main_of("PROCESSES\nPROCESSCALL B(N)\nPROCESSCALL A(N)\nENDPROCESSES")
     + "      PROCESS A(N)\n      PRINT *, N\n      END\n      PROCESS B(N)\n      N = 2\n      END\n", ["undone 4"]),
    ("an element for each", main_of("PROCESSDO I = 1, 3\nPROCESSCALL A(N(I))\nENDPROCESSDO\nPRINT *, N", "INTEGER N(3)")
     + "      PROCESS A(N)\n      N = N + 1\n      END\n", []),
]
# what the script writes, with words in front of its file: the words, a text, the lines, and the status
REFUSED = "      PROGRAM P\nCALL S(1)\n      X = 1\n      END\n"
COMMENTED = "line 2: a C in column 1 makes a comment: CALL S(1) [comment]"
CALLS = [
    ([], main_of("PRINT *, 1"), [], 0),
    ([], main_of("PRINT *, K"), ["line 2: K is read and never set: it is 0 [unset]"], 1),
    (["--but", "unset"], main_of("PRINT *, K"), [], 0),
    (["--but", "unset,columns", "--but", "both"], main_of("PRINT *, K\nM = 1"),
     ["line 3: M is set and never read [unread]"], 1),
    (["--but", "everything"], main_of("PRINT *, K"), [], 2),
    (["--only"], main_of("PRINT *, K"), [], 2),
    ([], REFUSED, ["line 3: E31 no type", COMMENTED], 3),
    ([], "", ["line 1: E26 not exactly one PROGRAM"], 3),
    ([], "\xff\x00'(((\n     1=\nIF(\n      IF((\n", ["line 1: E01 bad character"], 3),
]


def written(binary, words, text):
    """What the script writes of a text, and its status."""
    done = subprocess.run([f"{TOP}/extras/lint", *words, "-"], input=text.encode("latin-1"), stdout=subprocess.PIPE,
                          stderr=subprocess.DEVNULL, env={**os.environ, "FMC": binary})
    return done.stdout.decode("latin-1").splitlines(), done.returncode


def findings(text):
    """The findings in a text, and the answer of `check` where it isn't lawful."""
    status, answer = common.call(["check"], text)
    return ([answer.decode("latin-1")] if status else []) + [*map(str, slips.find(text, status == 0))]


def kinds(rows):
    """The kinds and the lines of some findings."""
    return [f"{row.split('[')[-1].rstrip(']')} {row.split(':')[0].split()[1]}" for row in rows]


def main():
    binary = os.path.abspath(sys.argv[1] if len(sys.argv) > 1 else f"{TOP}/crates/fmc_cli/out/fmc_cli")
    os.environ["FMC"] = binary
    wrong = 0

    def compare(name, found, wanted):
        nonlocal wrong
        if found != wanted:
            wrong += 1
            print(f"{name}: {found}, and not {wanted}")

    examples = sorted(glob.glob(f"{TOP}/examples/*.f") + glob.glob(f"{TOP}/examples/gallery/*.f"))
    for name in examples:
        with open(name, "rb") as file:
            text = file.read()
        listed = common.call(["list"], text)[1].decode("latin-1")
        read = "".join(f"{one.line:6} {one.label:>5} {one.text}\n" for one in source.statements(text))
        compare(f"{name}, its statements", read, listed)
        compare(name, findings(text), EXAMPLES.get(os.path.relpath(name, TOP), []))
    for name, text, wanted in SLIPS:
        compare(name, kinds(findings(text.encode())), wanted)
    for words, text, wanted, status in CALLS:
        compare(f"lint {words} of {text!r}", written(binary, words, text), (wanted, status))
    print(f"{len(examples)} examples, {len(SLIPS)} slips and their neighbours; {wrong} wrong")
    sys.exit(1 if wrong else 0)


if __name__ == "__main__":
    main()
