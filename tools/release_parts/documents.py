"""The documents as HTML. Debian's `cmark-gfm` reads their Markdown; added here are links, the headings' names, and the calls as the package has them."""
import html
import os
import re
import subprocess
from typing import Dict, List

# Documents whose calls are made by whoever installed the package, and a part of such a kind. Everything else speaks of the repository.
OF_USERS = ('docs/CLERK.md', 'docs/REFERENCE.md', 'docs/AUDITOR.md', 'docs/FORMATS.md')
PART_OF_USERS = ('README.md', '## A first look\n')
NOTE = """> This goes with the installed package: the program is `sortition`, and the tools are `sortition-prepare`, `sortition-who` and so on.
> The commands run as they are printed in a folder of your own with a copy of the examples: `cp -r {examples} .`
> (in the unpacked archive the examples are in `share/doc/sortition`). Scripts in `tests/`, and what builds something, are in the repository alone.
"""
EXAMPLES = '/usr/share/doc/sortition/examples'
# Folders of the repository whose texts are among the examples of the package.
OF_EXAMPLES = ('crates/example_bundles/data/', 'tests/proofs/')

HEAD = """<!DOCTYPE html>
<html lang="en">
<head>
<meta charset="utf-8">
<meta name="viewport" content="width=device-width, initial-scale=1">
<title>{title}</title>
<style>
body {{ font: 1rem/1.5 sans-serif; color: #1a1a1a; background: #fff; max-width: 58rem; margin: 0 auto; padding: 1rem; }}
pre, code {{ font-family: monospace; font-size: 0.9rem; background: #f2f2f2; }}
pre {{ padding: 0.6rem; overflow-x: auto; }}
table {{ border-collapse: collapse; display: block; overflow-x: auto; }}
td code {{ white-space: nowrap; }}
th, td {{ border: 1px solid #999; padding: 0.2rem 0.5rem; text-align: left; vertical-align: top; }}
blockquote {{ margin: 1rem 0; padding: 0 1rem; border-left: 0.3rem solid #999; }}
img {{ max-width: 100%; }}
</style>
</head>
<body>
"""
TAIL = '</body>\n</html>\n'
HEADING = re.compile(r'<h([1-6])>(.*?)</h\1>', re.S)
LINK = re.compile(r'(<a href|<img src)="([^"]*)"')


class Broken(Exception):
    """A link leads nowhere."""


def page_name(file: str) -> str:
    """Where the page of a document is. All are in one folder."""
    base = os.path.basename(file)
    return base[:-3] + '.html' if base.endswith('.md') else base


def calls_installed(text: str) -> str:
    """The text with the installed program's name in the place of `./sortition`, but in what the program prints."""
    parts = re.split(r'(^```console$.*?^```$|^  ```console$.*?^  ```$)', text, flags=re.M | re.S)
    call = re.compile(r'(?<![\w./])(?<!script `)\./sortition\b')
    for place, part in enumerate(parts):
        if place % 2 == 0:
            parts[place] = call.sub('sortition', part)
        else:
            parts[place] = re.sub(r'^ *[$>] .*', lambda line: call.sub('sortition', line[0]), part, flags=re.M)
    return ''.join(parts)


def as_installed(text: str, tools: Dict[str, str]) -> str:
    """A text for users that begins with a heading, with the calls as they are where the package is installed."""
    text = calls_installed(text)
    for file, command in tools.items():
        text = text.replace(f'tools/{file}', command)
    for folder in OF_EXAMPLES:
        text = text.replace(folder, 'examples/')
    head, _, rest = text.partition('\n\n')
    return f'{head}\n\n{NOTE.format(examples=EXAMPLES)}\n{rest}'


def for_package(file: str, text: str, tools: Dict[str, str]) -> str:
    if file in OF_USERS:
        return as_installed(text, tools)
    if file == PART_OF_USERS[0]:
        before, heading, rest = text.partition(PART_OF_USERS[1])
        part, following, after = rest.partition('\n## ')
        return before + as_installed(heading + part, tools) + following + after
    return text


def anchor(title: str) -> str:
    """The name that a heading has in links."""
    text = html.unescape(re.sub(r'<[^>]*>', '', title)).lower()
    return re.sub(r'[^\w\- ]', '', text).replace(' ', '-')


def named(body: str) -> str:
    """Gives each heading its name."""
    seen: Dict[str, int] = {}

    def heading(found: 're.Match[str]') -> str:
        name = anchor(found[2])
        seen[name] = seen.get(name, -1) + 1
        number = f'-{seen[name]}' if seen[name] else ''
        return f'<h{found[1]} id="{name}{number}">{found[2]}</h{found[1]}>'

    return HEADING.sub(heading, body)


def linked(body: str, file: str, places: Dict[str, str]) -> str:
    """Lets the links lead to the pages of the package. `places` has the page of each file."""

    def link(found: 're.Match[str]') -> str:
        target, mark, part = html.unescape(found[2]).partition('#')
        if re.match(r'[a-z]+:', target):
            return found[0]
        if not target:
            return f'{found[1]}="{mark}{part}"'
        path = os.path.normpath(os.path.join(os.path.dirname(file), target))
        if path not in places:
            raise Broken(f'{file} has a link to {target}, which the package has not')
        return f'{found[1]}="{places[path]}{mark}{part}"'

    return LINK.sub(link, body)


def check_anchors(pages: Dict[str, str]) -> None:
    """Sees that each part of a page that is linked is there."""
    names = {page: set(re.findall(r' id="([^"]*)"', text)) for page, text in pages.items()}
    for page, text in pages.items():
        for _, target in LINK.findall(text):
            other, mark, part = target.partition('#')
            if mark and not re.match(r'[a-z]+:', target) and part not in names[other or page]:
                raise Broken(f'{page} has a link to {target}, which is no heading')


def converted(text: str) -> str:
    ran = subprocess.run(['cmark-gfm', '-e', 'table', '--to', 'html'], input=text, stdout=subprocess.PIPE, check=True, text=True, encoding='utf-8')
    return ran.stdout


def pages_of(documents: Dict[str, str], others: List[str], tools: Dict[str, str]) -> Dict[str, str]:
    """Returns the pages of these documents, by name. `others` are further files beside them to which links may lead."""
    places = {file: page_name(file) for file in [*documents, *others]}
    pages = {}
    for file, text in documents.items():
        body = converted(for_package(file, text, tools))
        title = html.unescape(re.sub('<[^>]*>', '', HEADING.search(body)[2]))
        pages[places[file]] = HEAD.format(title=html.escape(title)) + linked(named(body), file, places) + TAIL
    check_anchors(pages)
    return pages


def linked_files(documents: Dict[str, str]) -> List[str]:
    """The files that are no documents and to which documents have links."""
    found = set()
    for file, text in documents.items():
        for target in re.findall(r'\]\(([^)#\s]+)', text):
            if not re.match(r'[a-z]+:', target) and not target.endswith('.md'):
                found.add(os.path.normpath(os.path.join(os.path.dirname(file), target)))
    return sorted(found)
