"""Man pages: of the program and each command by the program's help, of each tool by what its file says of it. None is written by hand."""
import re
import time
from typing import Dict, List, Tuple

from .helps import Command, Program

# Where the pages of the documents are, once the package is installed.
DOCUMENTS = '/usr/share/doc/sortition'


def escaped(text: str) -> str:
    """The text as roff prints it: a hyphen is a hyphen, and no line begins a request."""
    text = text.replace('\\', '\\e').replace('-', '\\-')
    return re.sub(r"^(?=[.'])", r'\\&', text, flags=re.M)


def quoted(text: str) -> str:
    return '"' + escaped(text).replace('"', '\\(dq') + '"'


class Page:
    """A man page of section 1."""

    def __init__(self, name: str, line: str, version: str, epoch: int) -> None:
        day = time.strftime('%Y-%m-%d', time.gmtime(epoch))
        # (no line is filled up with blanks, and no word is parted)
        self.lines = [f'.TH {quoted(name.upper())} 1 "{day}" {quoted("sortition " + version)} "Citizens\\(aq assemblies by lot"', '.ad l', '.nh']
        self.section('Name')
        self.lines.append(f'{escaped(name)} \\- {escaped(line)}')

    def section(self, title: str) -> None:
        self.lines.append(f'.SH {quoted(title.upper())}')

    def group(self, title: str) -> None:
        self.lines.append(f'.SS {quoted(title)}')

    def paragraph(self) -> None:
        if not self.lines[-1].startswith('.SH '):
            self.lines.append('.PP')

    def text(self, text: str) -> None:
        self.paragraph()
        self.lines.append(escaped(text))

    def item(self, head: str, text: str) -> None:
        self.lines += ['.TP', f'.B {escaped(head)}', escaped(text)]

    def verbatim(self, text: str) -> None:
        self.paragraph()
        self.lines += ['.RS 4', '.nf', escaped(text), '.fi', '.RE']

    def content(self) -> bytes:
        return ('\n'.join(self.lines) + '\n').encode()


def statuses_of(reference: str) -> List[Tuple[str, str, str]]:
    """The rows of the table of statuses in docs/REFERENCE.md: the status with the line, what it means, and what to do."""
    table = reference.partition('## The statuses\n')[2].partition('\n## ')[0]
    rows = [[cell.strip().replace('`', '') for cell in it.strip('|').split('|')] for it in table.split('\n') if it.startswith('| ')]
    if not rows or rows[0] != ['status', 'line', 'what it means', 'what to do']:
        raise ValueError('docs/REFERENCE.md has no table of statuses')
    # (the row of the script that builds is of no installed program)
    told = [it for it in rows[1:] if not it[1].startswith('of the script')]
    return [(f'{status}  {line}'.strip(), means, re.sub(r'\b([A-Z]+)\.md\b', r'\1.html', do)) for status, line, means, do in told]


def sentence(*parts: str) -> str:
    """These parts as sentences."""
    return ' '.join(it[0].upper() + it[1:] + '.' for it in parts if it)


def command_questions(command: Command, version: str, epoch: int) -> bytes:
    page = Page(f'sortition-{command.name}', command.about, version, epoch)
    page.section('Synopsis')
    page.text(command.usage)
    page.section('Description')
    page.text(command.about + '.')
    page.section('Options')
    for it in command.options:
        page.item(f'--{it.name} {it.value}'.strip(), re.sub(r' \[default: (.*)\]$', r'. Without it, \1', it.help) + '.')
    page.section('Example')
    page.verbatim(command.example)
    page.section('Exit status')
    page.text('sortition(1) has all statuses, with what to do.')
    page.section('See also')
    page.text(f'sortition(1), {DOCUMENTS}/REFERENCE.html')
    return page.content()


def program_page(program: Program, reference: str, version: str, epoch: int, others: List[str]) -> bytes:
    page = Page('sortition', program.about.rstrip('.'), version, epoch)
    page.section('Synopsis')
    page.text('sortition COMMAND [OPTIONS]')
    page.text('sortition help [COMMAND]')
    page.section('Commands')
    for title, rows in program.groups:
        page.group(title)
        for name, line in rows:
            page.item(name, f'{line}. See sortition-{name}(1).')
    page.section('Exit status')
    for head, means, do in statuses_of(reference):
        page.item(head, sentence(means, do))
    page.section('Files')
    page.item(f'{DOCUMENTS}/examples', 'Pools, a proof, and the files of a city, to try the commands with.')
    page.item(DOCUMENTS, 'The documents. README.html is the first one, and CLERK.html the guide for who runs a selection.')
    page.section('See also')
    page.text(', '.join(f'{it}(1)' for it in [*(f'sortition-{it}' for it in program.commands), *others]))
    return page.content()


def tool_page(name: str, says: str, version: str, epoch: int) -> bytes:
    """The page of a tool, from the text at the head of its file: paragraphs, and indented blocks that stay as they are."""
    first, _, rest = says.strip().partition('\n\n')
    page = Page(name, ' '.join(first.split()).rstrip('.'), version, epoch)
    page.section('Description')
    for part in re.split(r'\n\n+', rest):
        if part.startswith('    '):
            page.verbatim(re.sub('^    ', '', part, flags=re.M))
        elif part:
            page.text(' '.join(part.split()))
    page.section('See also')
    page.text(f'sortition(1), {DOCUMENTS}/CLERK.html, {DOCUMENTS}/AUDITOR.html')
    return page.content()


def pages_of(program: Program, tools: Dict[str, str], reference: str, version: str, epoch: int) -> Dict[str, bytes]:
    """All man pages, by the name of their command. `tools` has what the file of each tool says of it."""
    pages = {'sortition': program_page(program, reference, version, epoch, sorted(tools))}
    pages.update((f'sortition-{it.name}', command_questions(it, version, epoch)) for it in program.commands.values())
    pages.update((name, tool_page(name, says, version, epoch)) for name, says in tools.items())
    return pages
