"""What the built program says of itself: its commands, flags and arguments as --help prints them, and the numbers of
refusals. A line of help that isn't understood ends the run, so that nothing is left out unseen."""
import re
import subprocess
import sys
from dataclasses import dataclass, field

OPTION = re.compile(r" +(?:(-\w), )?(--[\w-]+)(?: <(\w+)>)? {2,}(\S.*)")
COMMAND = re.compile(r" {2}(\w+) {2,}(\S.*)")
ARGUMENT = re.compile(r" {2}[<\[](\w+)[>\]](\.\.\.)? {2,}(\S.*)")
NUMBER = re.compile(r"(\d+) (\w+): (\S.*)")
PATTERNS = {"Arguments": ARGUMENT, "Options": OPTION, "Commands": COMMAND}
SCHEMAS = ("SCHEMA", "OLD", "NEW")


@dataclass
class Option:
    short: str | None
    long: str
    value: str | None
    about: str

    def spellings(self):
        return [it for it in (self.short, self.long) if it]


@dataclass
class Help:
    """The help of the program, or of one of its commands."""
    name: str
    about: str = ""
    usages: list = field(default_factory=list)
    options: list = field(default_factory=list)
    arguments: list = field(default_factory=list)
    commands: list = field(default_factory=list)
    notes: str = ""

    def spellings(self):
        return [it for option in self.options for it in option.spellings()]

    def places(self):
        """How many paths at the start of a line are schemas, for each flag that changes it; None is without one."""
        counts = {}
        for usage in self.usages:
            words = usage.split()[2:]
            flags = [it for it in words if it.startswith("--")] or [None]
            valued = {it.long: it.value for it in self.options}
            names = [it.strip("<>[].") for it in words if it[0] in "<[" and it != "[OPTIONS]"]
            names = names[1:] if valued.get(flags[0]) else names
            counts[flags[0]] = sum(it in SCHEMAS for it in names)
        return {flag: count for flag, count in counts.items() if flag is None or count != counts.get(None)}


def add_line(found, section, line):
    """Adds a line of a section to what was found."""
    if section == "Usage":
        found.usages.append(line.strip())
        return
    parts = PATTERNS[section].fullmatch(line)
    if not parts:
        sys.exit(f"{found.name} --help: not understood: {line!r}")
    if section == "Options":
        found.options.append(Option(*parts.groups()))
    elif section == "Arguments":
        found.arguments.append(parts.groups())
    else:
        found.commands.append(parts.groups())


def parse_help(name, text):
    """The help of a command, read from what it prints."""
    found = Help(name)
    found.about, _, rest = text.partition("\n\n")
    section = None
    for line in rest.splitlines():
        head = re.fullmatch(r"(Usage|Arguments|Options|Commands):(.*)", line)
        if head:
            section, line = head[1], head[2]
        elif line and not line.startswith(" "):
            section = "notes"
        if section == "notes":
            found.notes = f"{found.notes} {line}".strip()
        elif line.strip():
            add_line(found, section, line)
    if not found.about or not found.usages or not found.options:
        sys.exit(f"{name} --help: no usage or no options in {text!r}")
    return found


def printed(program, *words):
    return subprocess.run([program, *words], capture_output=True, text=True, check=True).stdout


@dataclass
class Described:
    """A program: its own help, that of each command, its refusals as (number, name, sentence), and its version."""
    top: Help
    commands: list
    refusals: list
    version: str

    @classmethod
    def of(cls, program):
        top = parse_help("flatc", printed(program, "--help"))
        names = [name for name, _ in top.commands if name != "help"]
        commands = [parse_help(it, printed(program, it, "--help")) for it in names]
        lines = printed(program, "explain").splitlines()
        wrong = [it for it in lines if not NUMBER.fullmatch(it)]
        if wrong or not lines:
            sys.exit(f"explain: not understood: {wrong}")
        refusals = [NUMBER.fullmatch(it).groups() for it in lines]
        return cls(top, commands, refusals, printed(program, "--version").split()[-1])
