"""The commands of the program with their options, as its own help tells them."""
import re
import subprocess
from typing import Dict, List, NamedTuple, Tuple

OPTION = re.compile(r' +(?:-\w, )?--(?P<name>[\w-]+)(?: <(?P<value>[^>]+)>)?  +(?P<help>\S.*)')
COMMAND = re.compile(r'  (?P<name>[\w-]+)  +(?P<line>\S.*)')


class Option(NamedTuple):
    name: str
    value: str          # what its value is called, or '' for a flag
    help: str


class Command(NamedTuple):
    name: str
    about: str
    usage: str
    options: List[Option]
    example: str


class Program(NamedTuple):
    about: str
    groups: List[Tuple[str, List[Tuple[str, str]]]]     # headings, each with the names of commands and a line for each
    commands: Dict[str, Command]


class Unknown(Exception):
    """The help isn't in the form that is read here."""


def told(program: str, *words: str) -> str:
    """Returns what the program says about its words: on standard error, with status 2."""
    ran = subprocess.run([program, *words], stdin=subprocess.DEVNULL, stdout=subprocess.PIPE, stderr=subprocess.PIPE, text=True)
    if ran.returncode != 2 or ran.stdout:
        raise Unknown(f'`{" ".join(["sortition", *words])}` has status {ran.returncode}, and not 2')
    return ran.stderr


def paragraphs(text: str) -> List[List[str]]:
    return [it.split('\n') for it in text.strip('\n').split('\n\n')]


def groups_of(parts: List[List[str]]) -> List[Tuple[str, List[Tuple[str, str]]]]:
    groups = []
    for heading, *lines in parts:
        rows = [COMMAND.fullmatch(it) for it in lines]
        if not heading.endswith(':') or not rows or None in rows:
            raise Unknown(f'`sortition help` has a group that is none: {heading}')
        groups.append((heading[:-1], [(it['name'], it['line']) for it in rows]))
    return groups


def command_of(name: str, text: str) -> Command:
    parts = paragraphs(text)
    if len(parts) != 4 or not parts[1][0].startswith('Usage: ') or parts[2][0] != 'Options:' or not parts[3][0].startswith('Example: '):
        raise Unknown(f'`sortition help {name}` has other parts than a line, its usage, its options and an example')
    rows = [OPTION.fullmatch(it) for it in parts[2][1:]]
    if None in rows:
        raise Unknown(f'`sortition help {name}` has a line of an option that is none')
    options = [Option(it['name'], it['value'] or '', it['help']) for it in rows]
    return Command(name, ' '.join(parts[0]), parts[1][0][len('Usage: '):], options, parts[3][0][len('Example: '):])


def program_of(program: str) -> Program:
    """Reads the help of the program and of each of its commands."""
    parts = paragraphs(told(program, 'help'))
    if len(parts) < 4 or not parts[1][0].startswith('Usage: '):
        raise Unknown('`sortition help` has other parts than a line, its usage, groups of commands and a last line')
    groups = groups_of(parts[2:-1])
    names = dict.fromkeys(name for _, rows in groups for name, _ in rows)
    return Program(parts[0][0], groups, {it: command_of(it, told(program, 'help', it)) for it in names})


def version_of(program: str) -> str:
    """Returns what `--version` tells, or '' if the program has no such option."""
    said = told(program, '--version')
    return said.strip() if said.startswith('sortition ') else ''
