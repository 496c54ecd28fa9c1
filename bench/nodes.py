#!/usr/bin/env python3
"""What it costs to play a program on hosts, by instructions.

    bench/nodes.py [BINARY]

BINARY is the built program, by default crates/fmc_cli/out/fmc_cli; valgrind counts its instructions. Four things are
measured, and the status is 1 where one of them isn't so:

- `nodes 1` of the program of `make 7` takes at most 20 times what `run` takes with one worker, both without what an empty
  program takes.
- Twice as many messages take at most 2.3 times as much: a sender and a receiver of 500, 1,000 and 2,000 numbers.
- Twice as many processes take at most 2.3 times as much: 500, 1,000 and 2,000 children, each of which starts one.
- A lost packet costs one sending more: where each sending comes at once, and where each packet is lost twice, the same
  messages take at most three times as much.
"""
import os
import re
import subprocess
import sys

TOP = os.path.dirname(os.path.dirname(os.path.abspath(__file__)))
EMPTY = "      PROGRAM EMPTY\n      END\n"
PAIR = """      PROGRAM PAIR
      INPORT (INTEGER) P
      OUTPORT (INTEGER) Q
      CHANNEL(IN=P, OUT=Q)
      PROCESSES
      PROCESSCALL GIVE(Q)
      PROCESSCALL TAKE(P)
      ENDPROCESSES
      END

      PROCESS GIVE(Q)
      OUTPORT (INTEGER) Q
      DO 10 I = 1, {}
   10 SEND(Q) I
      ENDCHANNEL(Q)
      END

      PROCESS TAKE(P)
      INPORT (INTEGER) P
      K = 0
   10 RECEIVE(P, END=20) I
      K = K + I
      GOTO 10
   20 PRINT *, K
      END
"""
WIDE = """      PROGRAM WIDE
      PROCESSES
      PROCESSDO I = 1, {}
      PROCESSCALL CHILD(I)
      ENDPROCESSDO
      ENDPROCESSES
      END

      PROCESS CHILD(K)
      INTENT (IN) K
      PROCESSES
      PROCESSCALL LEAF(K)
      ENDPROCESSES
      END

      PROCESS LEAF(K)
      INTENT (IN) K
      I = K
      END
"""


def counted(binary, words, source):
    """The instructions of a call, and what it writes."""
    line = ["valgrind", "--tool=callgrind", "--callgrind-out-file=/dev/null", binary, *words]
    done = subprocess.run(line, input=source.encode(), stdout=subprocess.PIPE, stderr=subprocess.PIPE)
    found = re.search(rb"Collected : (\d+)", done.stderr)
    return int(found.group(1)), done.stdout


def main():
    binary = sys.argv[1] if len(sys.argv) > 1 else f"{TOP}/crates/fmc_cli/out/fmc_cli"
    turns = ["--turns", "1000000000"]
    failed = False

    def told(text, is_so):
        nonlocal failed
        failed = failed or not is_so
        print(text + ("" if is_so else "  NOT SO"))

    start, _ = counted(binary, ["run", "--workers", "1"], EMPTY)
    made = subprocess.run([binary, "make", "7"], stdout=subprocess.PIPE).stdout.decode()
    once, report = counted(binary, ["run", "--workers", "1", *turns], made)
    hosted, other = counted(binary, ["nodes", "1", *turns], made)
    times = (hosted - start) / (once - start)
    told(f"make 7: run {once - start:,}, nodes 1 {hosted - start:,}: {times:.1f} times", times <= 20 and report == other)

    for what, program in (("messages", PAIR), ("children", WIDE)):
        last = None
        for count in (500, 1000, 2000):
            own, _ = counted(binary, ["nodes", "0", *turns], program.format(count))
            own -= start
            told(f"{count} {what}: {own:,}, {own // count:,} each", last is None or own <= 2.3 * last)
            last = own

    few, _ = counted(binary, ["nodes", "0", *turns], PAIR.format(1))
    costs = []
    for number in range(6):
        own, _ = counted(binary, ["nodes", str(number), *turns], PAIR.format(1000))
        costs.append(own - few)
    print("1000 messages by number: " + ", ".join(f"{it:,}" for it in costs))
    told(f"dearest to cheapest {max(costs) / min(costs):.2f}", max(costs) <= 3 * min(costs))
    sys.exit(1 if failed else 0)


if __name__ == "__main__":
    main()
