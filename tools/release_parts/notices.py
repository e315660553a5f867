"""The licences and notices of the ported crates that the program stands on."""
import os
from typing import Dict, List, NamedTuple, Set, Tuple


class Part(NamedTuple):
    """A library of the toolchain: its name, and the files with its licences."""
    name: str
    files: List[Tuple[str, str]]


def libraries(crates: str) -> Dict[str, List[str]]:
    """Returns the libraries on which each crate stands, by the text of crates.txt."""
    lines = [it.split('#')[0] for it in crates.splitlines()]
    rows = [it.partition(':') for it in lines if it.strip()]
    return {name.split()[0]: below.split() for name, _, below in rows}


def below(name: str, uses: Dict[str, List[str]]) -> Set[str]:
    """Returns all libraries on which a crate stands, also by way of others."""
    found: Set[str] = set()
    rest = list(uses[name])
    while rest:
        it = rest.pop()
        if it not in found:
            found.add(it)
            rest += uses.get(it, [])
    return found


def of_toolchain(kit: str, names: Set[str]) -> List[str]:
    """These libraries of the toolchain, with those that they stand on."""
    found = set(names) | {'std'}
    for it in sorted(found):
        folder = f'{kit}/rlibs/{it}.rlib/below'
        if os.path.isdir(folder):
            found.update(os.listdir(folder))
    return sorted(found)


def licences_of(kit: str, name: str) -> List[Tuple[str, str]]:
    """The files with the licences of a library of the toolchain. One without has those of the library whose name its own begins with."""
    for folder in (f'{kit}/rattle/{name}', f'{kit}/rattle/{name.split("_")[0]}'):
        there = os.listdir(folder) if os.path.isdir(folder) else []
        names = sorted(it for it in there if it.startswith(('LICENSE', 'UNLICENSE', 'COPYING', 'COPYRIGHT', 'NOTICE')))
        if names:
            return [(it, open(f'{folder}/{it}', encoding='utf-8').read().strip('\n')) for it in names]
    return []


def parts_of(kit: str, crates: str) -> List[Part]:
    """The libraries of the toolchain in the program."""
    uses = libraries(crates)
    names = {it for it in below('sortition', uses) if it not in uses}
    return [Part(it, licences_of(kit, it)) for it in of_toolchain(kit, names)]


def notices(parts: List[Part], toolchain: str) -> str:
    """The text with all licences. One that several libraries have is there once."""
    texts: Dict[str, Tuple[str, List[str]]] = {}
    for part in parts:
        for file, text in part.files:
            texts.setdefault(' '.join(text.split()), (text, []))[1].append(f'{part.name} ({file})')
    lines = [f'The program has code of these libraries of the toolchain {toolchain}. Most are ports of Rust\'s crates of these names.',
             'Their licences follow. A library with several licences is under any one of them.', '']
    lines += [f'  {it.name}: {", ".join(file for file, _ in it.files)}' for it in parts if it.files]
    alone = [it.name for it in parts if not it.files]
    if alone:
        lines += ['', 'These are the toolchain\'s own, and have no file with a licence in it: ' + ', '.join(alone) + '.']
    for text, users in texts.values():
        lines += ['', '-' * 78, 'Of ' + ', '.join(users) + ':', '', text]
    return '\n'.join(lines) + '\n'
