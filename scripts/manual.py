#!/usr/bin/env python3
"""Prints the manual page of halfgates, made from the texts of its --help.

  manual.py PROGRAM
"""

import re
import subprocess
import sys

# Each command has this option, and ends with this paragraph; the page says them once.
HELP = "-h, --help"
ARGUMENTS_FROM = "With `--args-from FILE` "

EXIT_STATUS = [
    ("0", "The command succeeded, whatever it found, or the help or the version was printed."),
    ("1", "A fault: a line on standard error says \\(oqhalfgates: fault CODE NAME\\(cq."),
    ("2", "The command line doesn\\(aqt parse: a message on standard error says why."),
    ("3", "An audit found the files dishonest."),
]


def asked(program, *words):
    return subprocess.run([program, *words], capture_output=True, text=True, check=True).stdout


def escaped(text):
    """The text as roff takes it: no byte of it is an instruction."""
    text = text.replace("\\", "\\e").replace("-", "\\-").replace("'", "\\(aq").replace("`", "\\(ga")
    return re.sub(r"^\.", r"\\&.", text, flags=re.M)


def tagged(rows):
    """A list of terms, each with what is said of it."""
    return "".join(f".TP\n.B {escaped(term)}\n{escaped(said)}\n" for term, said in rows)


def rows(block):
    """The terms of a block of help, each with what is said of it. Two spaces or more part them."""
    return [re.split(r" {2,}", line.strip(), maxsplit=1) for line in block.splitlines()[1:]]


def paragraph(text):
    """A paragraph as it stands where its lines are indented, which shows a command, and else to be filled."""
    lines = text.splitlines()
    shown = [line for line in lines if line.startswith("  ")]
    filled = [line for line in lines if not line.startswith("  ")]
    example = f".PP\n.RS 4\n.EX\n{escaped(chr(10).join(line.strip() for line in shown))}\n.EE\n.RE\n" if shown else ""
    return f".PP\n{escaped(chr(10).join(filled))}\n{example}"


def command(program, name):
    """The subsection of a command."""
    about, usage, *blocks = asked(program, name, "--help").rstrip("\n").split("\n\n")
    page = f".SS {escaped(usage.removeprefix('Usage: '))}\n{escaped(about)}.\n"
    for block in blocks:
        if block.splitlines()[0] in ("Arguments:", "Options:"):
            page += tagged((term, said) for term, said in rows(block) if term != HELP)
        elif not block.startswith(ARGUMENTS_FROM):
            page += paragraph(block)
    return page


def manual(program):
    about, usage, commands, options, *others = asked(program, "--help").rstrip("\n").split("\n\n")
    page = f'.TH HALFGATES 1 "" "{asked(program, "--version").strip()}" "User Commands"\n'
    page += f".SH NAME\nhalfgates \\- {escaped(about[0].lower() + about[1:])}\n"
    page += f".SH SYNOPSIS\n{escaped(usage.removeprefix('Usage: '))}\n"
    page += ".SH COMMANDS\n" + "".join(command(program, name) for name, _ in rows(commands))
    page += f".SH OPTIONS\n{tagged(rows(options))}" + "".join(map(paragraph, others))
    status = "".join(f".TP\n.B {number}\n{said}\n" for number, said in EXIT_STATUS)
    return f"{page}.SH EXIT STATUS\n{status}"


if __name__ == "__main__":
    sys.stdout.write(manual(sys.argv[1]))
