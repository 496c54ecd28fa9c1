"""What the scripts of this folder share: where `fmc` is, how it is called, and what docs/RULES.md says of a rule."""
import os
import re
import subprocess

TOP = os.path.dirname(os.path.dirname(os.path.realpath(__file__)))
RULES = os.path.join(TOP, "docs/RULES.md")


def fmc():
    """The program that decides: that of the variable FMC, or else the script of this repository."""
    return os.environ.get("FMC") or os.path.join(TOP, "fmc")


def call(words, text, timeout=None):
    """The status of `fmc WORDS` and what it writes, with a text as its input."""
    done = subprocess.run([fmc(), *words], input=text, stdout=subprocess.PIPE, timeout=timeout)
    return done.returncode, done.stdout


def read_page(name):
    with open(name, encoding="utf-8") as file:
        return file.read()


def rule_text(page, rule):
    """What the page of the rules says of one, up to its first program."""
    found = re.search(rf"^(### {rule} .*?)\n+```", page, re.M | re.S)
    return found.group(1) if found else ""
