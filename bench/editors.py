#!/usr/bin/env python3
"""Whether Vim and Emacs colour the words of Fortran M.

    bench/editors.py

Has each of the two that is installed show a program without a window, asks it for the colour of each word of WORDS, and
compares that with what is written there: the group in Vim, the face in Emacs. The second program has none of these
words as a statement, and stays as it is.
"""
import os
import shutil
import subprocess
import sys
import tempfile

TOP = os.path.dirname(os.path.dirname(os.path.abspath(__file__)))
PROGRAM = """C     a PROCESS in a comment, and SEND(Q)
      PROGRAM P
      INPORT (INTEGER) A
      outport (integer) B
      CHANNEL(IN=A, OUT=B)
      PROCESSES
        PROCESSCALL FEED(B) LOCATION(1)
        PROCESSDO I = 1, 3
          PROCESSCALL FEED(B) SUBMACHINE(1:1)
        ENDPROCESSDO
      END PROCESSES
      PRINT *, 'SEND(Q) INPORT'
      MERGER(IN=A, OUT=B)
      PROBE(A, EMPTY=L)
      MOVEPORT(FROM=A, TO=B)
      ENDCHANNEL(B)
      RECEIVE(PORT=A, END=10) I
   10 END
      PROCESS FEED(B)
      PROCESSORS(4)
      SEND(B) 1
      END
"""
PLAIN = """      PROGRAM P
      SEND = 1
      LOCATION = 2
      END
"""
# a line, a word, its group in Vim, its face in Emacs
WORDS = [
    (1, "PROCESS", "fortranComment", "font-lock-comment-face"), (1, "SEND", "fortranComment", "font-lock-comment-face"),
    (3, "INPORT", "fortranMType", "font-lock-type-face"), (4, "outport", "fortranMType", "font-lock-type-face"),
    (5, "CHANNEL", "fortranMMessage", "font-lock-keyword-face"),
    (6, "PROCESSES", "fortranMProcess", "font-lock-keyword-face"),
    (7, "PROCESSCALL", "fortranMProcess", "font-lock-keyword-face"),
    (7, "LOCATION", "fortranMPlace", "font-lock-builtin-face"),
    (8, "PROCESSDO", "fortranMProcess", "font-lock-keyword-face"),
    (9, "SUBMACHINE", "fortranMPlace", "font-lock-builtin-face"),
    (10, "ENDPROCESSDO", "fortranMProcess", "font-lock-keyword-face"),
    (11, "END", "fortranMProcess", "font-lock-keyword-face"),
    (11, "PROCESSES", "fortranMProcess", "font-lock-keyword-face"),
    (12, "SEND", "fortranStringR", "font-lock-string-face"),
    (13, "MERGER", "fortranMMessage", "font-lock-keyword-face"),
    (14, "PROBE", "fortranMMessage", "font-lock-keyword-face"), (14, "EMPTY", "fortranMKey", "font-lock-constant-face"),
    (15, "MOVEPORT", "fortranMMessage", "font-lock-keyword-face"),
    (16, "ENDCHANNEL", "fortranMMessage", "font-lock-keyword-face"),
    (17, "RECEIVE", "fortranMMessage", "font-lock-keyword-face"),
    (17, "PORT", "fortranMKey", "font-lock-constant-face"),
    (19, "PROCESS", "fortranMUnit", "font-lock-keyword-face"),
    (20, "PROCESSORS", "fortranMPlace", "font-lock-builtin-face"),
    (21, "SEND", "fortranMMessage", "font-lock-keyword-face"),
]
NOTHING = [(2, "SEND", "", "nil"), (3, "LOCATION", "", "nil")]


def places(program, words):
    """The line and the column, from 1, of each word."""
    rows = program.splitlines()
    return [(line, rows[line - 1].index(word) + 1) for line, word, _, _ in words]


def vim(name, where, folder):
    """The groups that Vim gives to some places of a file."""
    script, out = os.path.join(folder, "try.vim"), os.path.join(folder, "groups")
    asked = ", ".join(f'synIDattr(synID({line}, {column}, 1), "name")' for line, column in where)
    with open(script, "w", encoding="ascii") as file:
        file.write(f"set nocompatible\nset rtp^={TOP}/extras/vim\nset rtp+={TOP}/extras/vim/after\n"
                   "filetype on\nsyntax on\n"
                   f'edit {name}\ncall writefile([{asked}], "{out}")\nqa!\n')
    subprocess.run(["vim", "-es", "-u", script], stdin=subprocess.DEVNULL, timeout=60)
    with open(out, encoding="ascii") as file:
        return file.read().splitlines()


def emacs(name, where, folder):
    """The faces that Emacs gives to some places of a file."""
    script = os.path.join(folder, "try.el")
    asked = "".join(f'(goto-char (point-min)) (forward-line {line - 1}) (forward-char {column - 1})'
                    f'(princ (format "%s\\n" (get-text-property (point) (quote face))))' for line, column in where)
    with open(script, "w", encoding="ascii") as file:
        file.write(f'(load "{TOP}/extras/emacs/fmc.el" nil t)'
                   '(add-hook (quote fortran-mode-hook) (function fmc-mode-maybe))'
                   f'(find-file "{name}")(font-lock-ensure){asked}')
    done = subprocess.run(["emacs", "--batch", "-Q", "-l", script], stdout=subprocess.PIPE, stderr=subprocess.DEVNULL,
                          timeout=60)
    return done.stdout.decode().splitlines()


def main():
    tried = wrong = 0
    with tempfile.TemporaryDirectory() as folder:
        for editor, place in ((vim, 2), (emacs, 3)):
            if not shutil.which(editor.__name__):
                print(f"{editor.__name__} isn't installed")
                continue
            for number, (program, words) in enumerate(((PROGRAM, WORDS), (PLAIN, NOTHING))):
                name = os.path.join(folder, f"{editor.__name__}{number}.f")
                with open(name, "w", encoding="ascii") as file:
                    file.write(program)
                for row, found in zip(words, editor(name, places(program, words), folder), strict=True):
                    tried += 1
                    if found != row[place]:
                        wrong += 1
                        print(f"{editor.__name__}, line {row[0]}: {row[1]} is {found or 'plain'}, and not {row[place]}")
    print(f"{tried} words; {wrong} wrong")
    sys.exit(1 if wrong else 0)


if __name__ == "__main__":
    main()
