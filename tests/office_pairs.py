#!/usr/bin/env python3
"""Makes pairs of files, people and quotas, and prints what tools/prepare.py makes of each, for tests/office-page.

usage: tests/office_pairs.py [SEED COUNT]

The pairs are those of tests/prepare: files of which nothing can be made, odd files, files with odd rows in each layout and encoding, cells that a
spreadsheet might run, the examples, registers of 400 and of 401 people, and lists with the letters of an earlier call. Then come COUNT pairs that are made of these by changed, lost and
doubled bytes and letters. Each pair has a number, and the random bytes that prepare.py takes are those of the number: SHA-256 digests of "NUMBER 0",
"NUMBER 1" and so on.

Prints a line of JSON for each pair: what it is, its files in base64, the letters or null, what is asked, whether the files are made, the lines that are
said, the lines that are told of the files, and the files in base64.
"""
import base64
import contextlib
import csv
import hashlib
import importlib.util
import io
import json
import os
import random
import re
import sys
import tempfile
import unicodedata
from importlib.machinery import SourceFileLoader

sys.dont_write_bytecode = True
TOP = os.path.dirname(os.path.dirname(os.path.realpath(__file__)))
sys.path.insert(0, os.path.join(TOP, 'tools'))
import prepare


def loaded(name, path):
    """The module of a script whose name has no ending."""
    spec = importlib.util.spec_from_loader(name, SourceFileLoader(name, path))
    module = importlib.util.module_from_spec(spec)
    spec.loader.exec_module(module)
    return module


tests = loaded('prepare_tests', os.path.join(TOP, 'tests', 'prepare'))


def random_bytes(number):
    """A function that returns as many random bytes as it is asked for: those of this number."""
    held, turn = b'', 0

    def give(count):
        nonlocal held, turn
        while len(held) < count:
            held += hashlib.sha256(f'{number} {turn}'.encode()).digest()
            turn += 1
        given, held = held[:count], held[count:]
        return given
    return give


def made_of(number, people, quotas, words, letters=None):
    """What prepare.py says and makes of a pair with these random bytes, and with the letters of an earlier call, if there are some."""
    with tempfile.TemporaryDirectory() as room:
        paths = [os.path.join(room, name) for name in ('people.csv', 'quotas.csv', 'letters.csv')]
        for path, content in zip(paths, (people, quotas, letters or b'')):
            with open(path, 'wb') as target:
                target.write(content)
        words = [*paths[:2], *words, *(['--letters', paths[2]] if letters is not None else [])]
        folder = os.path.join(room, 'office')
        out, errors = io.StringIO(), io.StringIO()
        kept, random._urandom = random._urandom, random_bytes(number)
        try:
            with contextlib.redirect_stdout(out), contextlib.redirect_stderr(errors):
                status = prepare.main([*words, '--out', folder])
        finally:
            random._urandom = kept
        texts = {name: tests.content(os.path.join(folder, name)) for name in sorted(os.listdir(folder))} if os.path.isdir(folder) else {}
        lines = [line[len(folder) + 1:] for line in out.getvalue().split('\n')[:-1]]
        return {'isMade': status == 0, 'said': errors.getvalue().split('\n')[:-1], 'lines': lines, 'texts': texts}


# ---- the pairs


def whole_pairs(seed):
    """The pairs that tests/prepare makes by chance, in each layout: what it is, the people, the quotas, and the words."""
    for family, heading in tests.HEADINGS.items():
        for number in range(10):
            chosen = random.Random(json.dumps([seed, family, number]))
            count, size = (60, 12) if number == 9 else (chosen.randint(5, 9), chosen.randint(2, 4))
            rows = tests.made_rows(chosen, count)
            quotas = tests.quotas_for(chosen, tests.panel_of(chosen, [row for row in rows if row and not row.is_out], size))
            names = [*tests.COLUMNS, *tests.VALUES]
            order = chosen.sample(range(len(names)), len(names))
            table = [[names[place] for place in order]] + [
                [row.cells[place] for place in order] + row.cells[len(names):] if row else [''] * len(names) for row in rows]
            layouts = [tests.LAYOUTS[place % len(tests.LAYOUTS)] for place in (number, number + 3)]
            yield (f'{family} {number}', tests.file_of(table, layouts[0]), tests.file_of(tests.quota_rows(chosen, heading, quotas), layouts[1]),
                   ['--household', 'Street, Postcode', '--title', 'Rat "Süd"', '--size', str(size)])


def cells_pair():
    """Cells that a spreadsheet might run as a formula."""
    people = [['=name', 'name', '-size'], *([cell, f'n{number}', '-1' if number % 2 else '=2'] for number, (cell, _) in enumerate(tests.CELLS))]
    return 'cells', tests.file_of(people, (';', 'utf-8', '\n', True)), 'category,name,min,max\n-size,-1,0,9\n-size,=2,0,9\n', []


def large_pair(count, size):
    """As many people as are counted, for a panel of this size."""
    people = 'name,gender\n' + ''.join(f'n{number},male\n' for number in range(count))
    return f'{count} people', people, tests.QUOTAS, ['--title', 'x', '--size', str(size)]


def list_of(rows, layout=(',', 'utf-8', '\n', False)):
    return tests.file_of([tests.LISTED, *rows], layout)


def kept_pair(what, before, now, *words, changed=lambda text: text):
    """A list with the letters of a list before it. In the words <0> is the id of the first row before, and so on; `changed` is what became of the letters."""
    text = made_of(what, list_of(before), tests.WIDE.encode(), ['--household', 'street'])['texts']['letters.csv'].decode()
    ids = [row[0] for row in csv.reader(io.StringIO(text, newline=''))][1:]
    words = [re.sub('<([0-9])>', lambda found: ids[int(found.group(1))], word) for word in words]
    return f'letters: {what}', list_of(now), tests.WIDE, ['--household', 'street', *words], changed(text).encode()


def kept_pairs(seed):
    """Lists with the letters of an earlier call: those of tests/prepare, and lists that change by chance."""
    for what, before, now, _, _ in tests.KEPT:
        yield kept_pair(what, before, now)
    pair = [tests.FATHER, tests.SON, tests.ANNA], [tests.but(tests.SON, note='1981'), tests.but(tests.FATHER, note='1951'), tests.ANNA]
    for same in ('2=<1>, 3=<0>', '9=<0>', '2=p77', '4=<0>', '4=<2>', '2=<2>', '2=<0>,3=<0>', '2=<0>,2=<1>'):
        yield kept_pair(f'--same {same}', *pair, '--same', same)
    some = [tests.BELA, tests.LATE, tests.CORA, tests.ANNA]
    for what, changed in (('no row', lambda text: text.split('\n')[0] + '\n'), ('a row twice', lambda text: text + text.split('\n')[1] + '\n'),
                          ('no id', lambda text: text.replace('id,', 'ID,', 1)), ('no key', lambda text: re.sub('-[^,]*', ' ', text)),
                          ('no name in common', lambda text: text.replace('name', 'nom').replace('e-mail', 'post')), ('semicolons', lambda text: text.replace(',', ';')),
                          ('a code less', lambda text: re.sub(',h1,', ',,', text, 1)), ('long ids', lambda text: re.sub('(?m)^p', 'p00000000000000000000', text))):
        yield kept_pair(what, some, [*some[::-1], tests.but(tests.LATE, name='Zora', email='')], changed=changed)
    people = 'household,name,gender\nx,a,male\nx,b,female\ny,c,male\n'
    letters = made_of('households', people.encode(), tests.WIDE.encode(), [])['texts']['letters.csv']
    yield 'letters: a column household', people.replace('y,c', 'z,d'), tests.WIDE, ['--household', 'household'], letters
    for number in range(20):
        chosen = random.Random(json.dumps([seed, 'changed', number]))
        before = [[chosen.choice(tests.NAMES[:4]), chosen.choice(['', f'm{person}@x']), f'Road {chosen.randint(1, 3)}', chosen.choice(['male', 'female']),
                   str(chosen.randint(1950, 1959))] for person in range(30)]
        yield kept_pair(f'a list that changed {number}', before, [row for row, _ in tests.changed_list(chosen, before)])


def known_pairs(seed):
    """All pairs of tests/prepare: what it is, the people, the quotas, the words, and the letters of an earlier call or None."""
    for kind, cases in (('nothing is made', tests.HOPELESS), ('odd', tests.ODD), ('quiet', tests.QUIET)):
        for people, quotas, words, sentence in cases:
            if '--letters' not in words:
                yield f'{kind}: {sentence}', people, quotas, words, None
    for pair in (*whole_pairs(seed), cells_pair(), large_pair(400, 200), large_pair(401, 1000)):
        yield *pair, None
    example = [tests.content(os.path.join(TOP, 'examples', name)) for name in ('people.csv', 'quotas.csv', 'letters.csv')]
    words = ['--household', 'Street,Postcode', '--title', 'Town assembly', '--size', '4']
    yield 'the examples', *example[:2], words, None
    yield 'the examples, with letters', *example[:2], words, example[2]
    yield from kept_pairs(seed)


LETTERS = ['\u0430', '\u200b', '\xa0', '\u00df', '\u1e9e', 'I', '\u0131', '\u0130', '\u2019', '\ufb01', 'e\u0301', '\u00e9', '\uff4d', '\u3000', '\x1c', '\x85', '\u2028',
           '\ufeff', '"', '""', '\n', '\r', '\r\n', ',', ';', '\t', ' ', '=', '+420 221 714 444', '\'', '\\', '\U0001f600', '\u03c2', '\x7f', '\x01', '0']


def spoiled(chosen, content):
    """A file with one to three changes: of bytes, of letters, of lines, or of the encoding."""
    for _ in range(chosen.randint(1, 3)):
        place, way = chosen.randrange(len(content) + 1), chosen.randrange(8)
        if way == 0:
            content = content[:place] + bytes([chosen.randrange(256)]) + content[place + 1:]
        elif way == 1:
            content = content[:place] + content[place + 1:]
        elif way in (2, 3, 4):
            content = content[:place] + chosen.choice(LETTERS).encode() + content[place:]
        elif way == 5:
            lines = content.split(b'\n')
            content = b'\n'.join(lines + [chosen.choice(lines)])
        elif way == 6:
            content = content.swapcase() if chosen.randrange(4) == 0 else content.replace(b',', chosen.choice([b';', b'\t', b', ', b' ,']))
        else:
            text = content.decode('utf-8', 'replace')
            content = text.encode(chosen.choice(['utf-16', 'utf-8-sig', 'utf-8']))[:chosen.choice([None, None, -1])]
    return content


def spoiled_pairs(seed, known, count):
    """Pairs that are made of known ones by chance."""
    chosen = random.Random(f'{seed} spoiled')
    small = [pair for pair in known if len(pair[1]) < 4000]
    for number in range(count):
        what, people, quotas, words, letters = chosen.choice(small)
        if letters is not None and chosen.randrange(2):
            letters = spoiled(chosen, letters)
        elif chosen.randrange(3):
            people = spoiled(chosen, people)
        else:
            quotas = spoiled(chosen, quotas)
        yield f'spoiled {number}, of {what}', people, quotas, words, letters


def plain_texts(texts):
    return {name: base64.b64encode(content).decode() for name, content in texts.items()}


def main(words):
    seed, count = (int(words[0]), int(words[1])) if words else (1, 400)
    known = [(what, *(its.encode() if isinstance(its, str) else its for its in files), words, letters) for what, *files, words, letters in known_pairs(seed)]
    for number, (what, people, quotas, its_words, letters) in enumerate([*known, *spoiled_pairs(seed, known, count)]):
        asked = prepare.words_of(['people.csv', 'quotas.csv', *its_words, *(['--letters', 'letters.csv'] if letters is not None else [])])
        made = made_of(number, people, quotas, its_words, letters)
        print(json.dumps({'number': number, 'what': what, 'isKnown': number < len(known), **plain_texts({'people': people, 'quotas': quotas}),
                          'letters': None if letters is None else base64.b64encode(letters).decode(),
                          'asked': {key: getattr(asked, key) for key in ('household', 'name', 'email', 'same', 'title', 'size')},
                          **made, 'texts': plain_texts(made['texts'])}))
    # The names of letters, to be compared with those of the page.
    print(json.dumps({'names': {number: unicodedata.name(chr(number)).capitalize() for number in range(0x10000) if unicodedata.name(chr(number), '')}}))


if __name__ == '__main__':
    main(sys.argv[1:])
