#!/usr/bin/env python3
"""Writes the completions of a program for bash, zsh or fish, from its own --help and its list of refusals.

usage: tools/completions.py PROGRAM bash|zsh|fish [NAME]

NAME is what the command is called where it is installed (flatc). Where a line has a schema, files *.fbs come first.
bash needs the package bash-completion.
"""
import os
import re
import sys

from command_help import Described

PACKAGING = os.path.join(os.path.dirname(os.path.dirname(os.path.abspath(__file__))), "packaging")


def single_quoted(text):
    return "'" + text.replace("'", "'\\''") + "'"


def names_of(described):
    return [name for name, _ in described.top.commands]


def schema_lines(found, indent, test):
    """Lines of a shell script that set the number of schemas at the start of a command's line; `test` is for a flag."""
    counts = found.places().items()
    tests = {flag: test.replace("FLAG", flag) + " && " if flag else "" for flag, _ in counts}
    return [f"{indent}{tests[flag]}schemas={count}" for flag, count in counts if flag or count]


# What the value of a flag is; of others it is any word.
DIRECTORY = "DIR"
VALUES = {"FORMAT": ("line", "human", "short", "json")}


def valued(described, *values):
    """The flags that such a value follows, or any value."""
    options = [option for found in described.commands for option in found.options if option.value]
    options = [option for option in options if not values or option.value in values]
    return list(dict.fromkeys(it for option in options for it in option.spellings()))


def bash_values(described):
    """Cases of a shell script on the word before: the words that may follow it."""
    indent = " " * 8
    return "\n".join(
        f"{indent}{' | '.join(valued(described, value))})\n{indent}    mapfile -t COMPREPLY < "
        f"<(compgen -W '{' '.join(words)}' -- \"$cur\")\n{indent}    return\n{indent}    ;;"
        for value, words in VALUES.items()
    )


def bash(described):
    """What packaging/completion.bash takes."""
    indent = " " * 12
    cases = [f"        '') candidates='{' '.join([*names_of(described), *described.top.spellings()])}' ;;"]
    for found in described.commands:
        cases.append(f"        {found.name})\n{indent}candidates='{' '.join(found.spellings())}'")
        cases += schema_lines(found, indent, '[[ " ${words[*]} " == *" FLAG "* ]]') + [f"{indent};;"]
    cases.append(f"        help) candidates='{' '.join(names_of(described))}' ;;")
    refusals = " ".join(f"'{number} {name}'" for number, name, _ in described.refusals)
    lists = {"DIRECTED": valued(described, DIRECTORY), "VALUED": valued(described)}
    lists = {name: " | ".join(flags) for name, flags in lists.items()}
    return {"CASES": "\n".join(cases), "REFUSALS": refusals, "VALUES": bash_values(described), **lists}


def zsh_text(text):
    return re.sub(r"([\[\]:\\])", r"\\\1", text)


def zsh_value(value):
    """What completes a flag's value."""
    if value == DIRECTORY:
        return f":{value}:_files -/"
    return f":{value}:({' '.join(VALUES.get(value, ())) or ' '})"


def zsh_option(option):
    tail = f"[{zsh_text(option.about)}]" + (zsh_value(option.value) if option.value else "")
    if not option.short:
        return single_quoted(option.long + tail)
    both = f"({option.short} {option.long})"
    return f"{single_quoted(both)}{{{option.short},{option.long}}}{single_quoted(tail)}"


def zsh(described):
    """What packaging/completion.zsh takes."""
    indent, cases = " " * 20, []
    for found in described.commands:
        cases.append(f"                {found.name})\n{indent}flags=(")
        cases += [f"{indent}    {zsh_option(it)}" for it in found.options] + [f"{indent})"]
        cases += schema_lines(found, indent, "(( $words[(I)FLAG] ))") + [f"{indent};;"]
    refusals = [single_quoted(f"{number}:{name}: {about}") for number, name, about in described.refusals]
    commands = [single_quoted(f"{name}:{about}") for name, about in described.top.commands]
    listed = {"REFUSALS": refusals, "COMMANDS": commands, "TOP": map(zsh_option, described.top.options)}
    return {"CASES": "\n".join(cases), **{part: "\n        ".join(lines) for part, lines in listed.items()}}


def fish_value(value):
    """What completes a flag's value."""
    words = "(__fish_complete_directories)" if value == DIRECTORY else " ".join(VALUES.get(value, ()))
    return f" -x -a '{words}'" if words else " -x"


def fish_option(when, option):
    short = f" -s {option.short[1:]}" if option.short else ""
    takes = fish_value(option.value) if option.value else ""
    return f"complete -c @NAME@ -n {when}{short} -l {option.long[2:]}{takes} -d {single_quoted(option.about)}"


def fish(described):
    """What packaging/completion.fish takes."""
    lines = [fish_option("__fish_use_subcommand", it) for it in described.top.options]
    for name, about in described.top.commands:
        lines.append(f"complete -c @NAME@ -n __fish_use_subcommand -f -a {name} -d {single_quoted(about)}")
    for found in described.commands:
        lines += [fish_option(f"'__fish_seen_subcommand_from {found.name}'", it) for it in found.options]
        counts = found.places()
        without = "".join(f"; and not __fish_contains_opt {flag[2:]}" for flag in counts if flag)
        if counts.get(None):
            when = f"'__@IDENTIFIER@_is_schema {found.name} {counts[None]}{without}'"
            lines.append(f"complete -c @NAME@ -n {when} -f -a '(__@IDENTIFIER@_schemas)'")
    refusals = [f"    echo {number}\\t{single_quoted(f'{name}: {it}')}" for number, name, it in described.refusals]
    names = {"VALUED": " ".join(valued(described)), "COMMANDS": " ".join(names_of(described))}
    return {"LINES": "\n".join(lines), "REFUSALS": "\n".join(refusals), **names}


SHELLS = {"bash": bash, "zsh": zsh, "fish": fish}


def completion(described, shell, name):
    """The text of a completion script."""
    parts = SHELLS[shell](described)
    with open(f"{PACKAGING}/completion.{shell}", encoding="utf-8") as it:
        text = it.read()
    for part, value in parts.items():
        text = text.replace(f"@{part}@", value)
    return text.replace("@NAME@", name).replace("@IDENTIFIER@", re.sub(r"\W", "_", name))


def main():
    if len(sys.argv) not in (3, 4) or sys.argv[2] not in SHELLS:
        sys.exit(__doc__)
    print(completion(Described.of(sys.argv[1]), sys.argv[2], (*sys.argv[3:], "flatc")[0]), end="")


if __name__ == "__main__":
    main()
