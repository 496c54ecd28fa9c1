"""Plays runs of programs by their code, and knows of each step what it does.

| Module | What it has |
|---|---|
| texts | reads traces and object texts, by `fmc` |
| statements | makes a function of Python of each statement of the code |
| state, machine | the processes and channels of a run, and its steps |
| playing | plays the entries of a trace, and compares what came of it with the answer of `fmc replay` |
| report | writes the report of a run |
| views, lanes | what extras/look and extras/timeline show |
| ends | finds the ends that schedules lead to |

Nothing of it is proved.
"""
