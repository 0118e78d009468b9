#!/usr/bin/env python3
"""Writes the man page of a program, from its own --help.

usage: tools/man_page.py PROGRAM [NAME]

NAME is what the command is called where it is installed (flatc). The refusals come from the program's list of them, and
what the program doesn't print (exit status, environment, examples) from packaging/man_page_end. The date is that of
SOURCE_DATE_EPOCH, if it is set.
"""
import os
import re
import sys
import textwrap
import time

from command_help import Described

ROOT = os.path.dirname(os.path.dirname(os.path.abspath(__file__)))


def escaped(text):
    """A text as roff prints it, in lines of at most 80 bytes."""
    text = text.replace("\\", "\\e").replace("-", "\\-").replace("'", "\\(aq")
    lines = textwrap.wrap(text, 79, break_long_words=False, break_on_hyphens=False)
    return "\n".join(f"\\&{it}" if it.startswith(".") else it for it in lines)


def bold(text):
    return f"\\fB{escaped(text)}\\fR"


def italic(text):
    return f"\\fI{escaped(text)}\\fR"


def synopsis(usage, name):
    """A line of a synopsis: what is typed as it is in bold, placeholders in italics."""
    words = [bold(name)]
    for word in usage.split()[1:]:
        placeholder = re.fullmatch(r"(\[?)<?(\w+)>?(\]?\.*)", word) if word[0] in "<[" else None
        words.append(placeholder[1] + italic(placeholder[2]) + placeholder[3] if placeholder else bold(word))
    return " ".join(words)


def entry(head, about):
    return [".TP", head, escaped(about)]


def option_entry(option):
    head = ", ".join(bold(it) for it in option.spellings())
    return entry(head + (f" {italic(option.value)}" if option.value else ""), option.about)


def command_section(found, name):
    lines = [f".SS {found.name}", f"{escaped(found.about)}.", ".PP", ".nf"]
    lines += [synopsis(it, name) for it in found.usages]
    lines.append(".fi")
    for argument, more, about in found.arguments:
        lines += entry(italic(argument) + escaped(more or ""), about)
    for option in found.options:
        if option.long != "--help":
            lines += option_entry(option)
    return [*lines, ".PP", escaped(found.notes)] if found.notes else lines


def man_page(described, name):
    """The text of the man page."""
    when = time.gmtime(int(os.environ.get("SOURCE_DATE_EPOCH", time.time())))
    title = f'"{name} {described.version}" "User Commands"'
    about = described.top.about
    lines = [f".TH {name.upper()} 1 {time.strftime('%Y-%m-%d', when)} {title}", ".SH NAME"]
    lines += [f"{name} \\- {escaped(about[0].lower() + about[1:])}", ".SH SYNOPSIS", ".nf"]
    lines += [synopsis(usage, name) for found in described.commands for usage in found.usages]
    lines += [".fi", ".SH OPTIONS"]
    lines += [line for option in described.top.options for line in option_entry(option)]
    lines.append(".SH COMMANDS")
    lines += [line for found in described.commands for line in command_section(found, name)]
    lines.append(".SH REFUSALS")
    lines += [line for number, word, about in described.refusals for line in entry(bold(f"{number} {word}"), about)]
    with open(f"{ROOT}/packaging/man_page_end", encoding="utf-8") as it:
        return "\n".join(lines) + "\n" + it.read().replace("@NAME@", escaped(name))


def main():
    if len(sys.argv) not in (2, 3):
        sys.exit(__doc__)
    print(man_page(Described.of(sys.argv[1]), (*sys.argv[2:], "flatc")[0]), end="")


if __name__ == "__main__":
    main()
