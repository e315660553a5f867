"""Reads the tables that a city's spreadsheets save, and writes tables for people. Stands on Python alone; `prepare.py`, `letters.py` and `who`
use it. Nothing of this is proved.

A table may have commas, semicolons or TABs, and may be in UTF-8, in UTF-16 with a mark, or in Windows-1252 (Latin-1).
"""
import csv
import difflib
import io
import os
import re
import sys
import unicodedata
from typing import Callable, Dict, Iterable, Iterator, List, NamedTuple, Optional, Tuple, TypeVar

DELIMITERS = ',;\t'
MARK = '\ufeff'                              # the byte order mark, by which Excel knows UTF-8
AGAIN = 'save it again as CSV in UTF-8'
LINE_BREAK = re.compile('\r\n|\r|\n')
SPOILED = re.compile('[\udc80-\udcff\ufffd]')   # what stands for bytes that are no text
FORMULA_SIGNS = '=+-@\uff1d\uff0b\uff0d\uff20'  # those of full width too
TELEPHONE = re.compile(r'\+[0-9 \xa0()/-]*')
FEWEST_DIGITS = 6                            # of a telephone number
MOST_BYTES = 200                             # of a name, an id or a title
MOST_SHOWN = 10                              # of a list of rows or places

# letters of other alphabets, dashes and quotes, and below them those of ASCII that they look like
LOOKALIKES = str.maketrans(
    'АВЕЅІЈКМНОРСТУХ' 'аеіјорсухѕһԁԛԝ' 'ΑΒΕΖΗΙΚΜΝΟΡΤΥΧ' 'ονρακιυ' 'ı‐‑‒–—−’‘ʼ´`',
    'ABESIJKMHOPCTYX' 'aeijopcyxshdqw' 'ABEZHIKMNOPTYX' 'ovpakiu' "i------'''''")

Item = TypeVar('Item')
Said = TypeVar('Said')


class Hopeless(Exception):
    """Nothing can be made, for these reasons, a line each."""


class Remarks:
    """What is to be told of files: what may want a look, and what is harmless."""

    def __init__(self) -> None:
        self.said: List[str] = []
        self.harmless: List[str] = []

    def say(self, text: str) -> None:
        self.said.append(text)

    def note(self, text: str) -> None:
        """Tells something that is harmless."""
        self.harmless.append(text)

    def lines(self) -> List[str]:
        """All of it; what is harmless comes last, in a block of its own."""
        return self.said + ['harmless:'] * bool(self.harmless) + [f'  {text}' for text in self.harmless]


class Table(NamedTuple):
    """A file that was read. `rows` are pairs of a row's number in the spreadsheet, from 1, and its cells, as many as there are columns or more;
    rows without content are left out. `first` is the number of the row that is the heading."""
    name: str
    mark: str          # empty if the file has none
    delimiter: str
    heading: List[str]
    rows: List[Tuple[int, List[str]]]
    first: int


# ---- words


def folded(text: str) -> str:
    """The text without what people don't see as a difference: case, and how many blanks there are."""
    return ' '.join(unicodedata.normalize('NFKC', text).casefold().split())


def look_of(text: str) -> str:
    """The same for all texts that look alike: a Cyrillic letter is the Latin one that it looks like, and what can't be seen is left out."""
    seen = folded(text.translate(LOOKALIKES))
    return ' '.join(''.join(letter for letter in seen if unicodedata.category(letter) != 'Cf').split())


def code_points(text: str) -> str:
    """The code points of a text, with their names if they are few."""
    if not text:
        return 'nothing'
    named = [f'U+{ord(letter):04X}' for letter in text[:6]]
    if len(text) <= 2:
        named = [f'{code} ({unicodedata.name(letter).capitalize()})' if unicodedata.name(letter, '') else code for code, letter in zip(named, text)]
    return ' '.join(named) + ' ..' * (len(text) > 6)


def unlike(text: str, other: str) -> str:
    """Where two spellings differ, in code points."""
    steps = difflib.SequenceMatcher(None, text, other, autojunk=False).get_opcodes()
    parts = [f'{code_points(text[a:b])} in place of {code_points(other[c:d])}' for step, a, b, c, d in steps if step != 'equal']
    return ', '.join(parts[:3]) + ' ..' * (len(parts) > 3)


def near(name: str, names: Iterable[str]) -> str:
    """A hint at the one of `names` that looks like `name`, or differs from it in signs or a few letters; empty if there is none."""
    def letters_of(text: str) -> str:
        return ''.join(filter(str.isalnum, folded(text)))
    names = [other for other in names if other]
    twins = [other for other in names if look_of(other) == look_of(name)]
    if twins:
        return f' (near: {twins[0]!r}): {unlike(name, twins[0])}'
    alike = [other for other in names if letters_of(other) and letters_of(other) == letters_of(name)]
    alike = alike or difflib.get_close_matches(name, names, 1, 0.85)
    return f' (near: {alike[0]!r})' if alike else ''


def listed(words: Iterable[str]) -> str:
    """Words as a list in a sentence; of many the first ten."""
    words = list(words)
    if len(words) > MOST_SHOWN:
        return f'{", ".join(words[:MOST_SHOWN])} and {len(words) - MOST_SHOWN} more'
    return words[0] if len(words) == 1 else f'{", ".join(words[:-1])} and {words[-1]}'


def rows_named(numbers: Iterable[int]) -> str:
    """The numbers of rows in words."""
    numbers = sorted(numbers)
    return f'row{"s" * (len(numbers) > 1)} {listed(map(str, numbers))}'


def why_not_a_name(text: str) -> Optional[str]:
    """Why the office takes no such name, or None if it does."""
    try:
        size = len(text.encode())
    except UnicodeEncodeError:
        return 'it is not UTF-8'
    if size == 0:
        return 'it is empty'
    if size > MOST_BYTES:
        return f'it has {size} bytes, and {MOST_BYTES} is the most'
    if any(ord(letter) < 32 or ord(letter) == 127 for letter in text):
        return 'it has a line break, a TAB or another control character'
    return None


def grouped(items: Iterable[Item], said_by: Callable[[Item], Said]) -> Dict[Said, List[Item]]:
    """The items by what is said by each; without those by which nothing is said."""
    groups: Dict[Said, List[Item]] = {}
    for item in items:
        said = said_by(item)
        if said:
            groups.setdefault(said, []).append(item)
    return groups


# ---- reading


def decoded(name: str, content: bytes, remarks: Remarks) -> Tuple[str, str, str]:
    """The mark of a file, its text, and the encoding if it has bytes that are no text in it, for which signs of SPOILED stand; else ''."""
    if content.startswith((b'PK\x03\x04', b'\xd0\xcf\x11\xe0')):
        raise Hopeless(f'{name}: it is a workbook and no CSV: {AGAIN}')
    if content.startswith((b'\xff\xfe', b'\xfe\xff')):
        try:
            return MARK, content.decode('utf-16'), ''
        except UnicodeDecodeError:
            return MARK, content.decode('utf-16', 'replace'), 'UTF-16'
    mark = MARK * content.startswith(MARK.encode())
    text = content.decode('utf-8', 'surrogateescape')[len(mark):]
    if '\0' in text:
        raise Hopeless(f'{name}: it has zero bytes, so it is UTF-16 without a mark, or no text: {AGAIN}')
    faults = sum('\udc80' <= letter <= '\udcff' for letter in text)
    if not faults:
        return mark, text, ''
    # (text in Windows-1252 is hardly ever also right in UTF-8)
    if mark or sum(letter > '\x7f' for letter in text) >= 2 * faults:
        return mark, text, 'UTF-8'
    text = content.decode('cp1252', 'surrogateescape')
    if SPOILED.search(text):
        return MARK, text, 'Windows-1252'
    sample = re.search(r'\w*[^\x00-\x7f]\w*', text).group()
    remarks.say(f'{name}: it is no UTF-8 and is read as Windows-1252: see whether {sample!r} is right')
    return MARK, text, ''


def delimiter_of(text: str) -> str:
    """The delimiter that is most often in the heading, outside quotes."""
    heading = next((line for line in text.splitlines() if line.strip()), '')
    return max(DELIMITERS, key=re.sub('"[^"]*"', '', heading).count)


def records_of(name: str, text: str, delimiter: str) -> List[Tuple[int, List[str]]]:
    """The rows of a text that have content, with their numbers."""
    records = csv.reader(io.StringIO(text, newline=''), delimiter=delimiter, skipinitialspace=True, strict=True)
    rows: List[Tuple[int, List[str]]] = []
    try:
        for number, cells in enumerate(records, 1):
            if any(cell.strip() for cell in cells):
                rows.append((number, cells))
    except csv.Error as error:
        raise Hopeless(f'{name}: behind row {rows[-1][0] if rows else 0} a quote isn\'t closed, or stands inside a cell ({error})')
    return rows


def spoiled_places(rows: List[Tuple[int, List[str]]]) -> Iterator[str]:
    """Each cell with bytes that are no text: its row, its column, and the first of these bytes."""
    heading = rows[0][1] if rows else []
    for number, cells in rows:
        for place, cell in enumerate(cells):
            found = SPOILED.search(cell)
            if found:
                is_named = cells is not heading and place < len(heading) and not SPOILED.search(heading[place])
                column = repr(heading[place].strip()) if is_named else place + 1
                byte = '' if found.group() == '\ufffd' else f' has the byte 0x{ord(found.group()) - 0xdc00:02X}'
                yield f'row {number}, column {column}{byte}'


def refuse_spoiled(name: str, encoding: str, rows: List[Tuple[int, List[str]]]) -> None:
    """Names the places of bytes that are no text in the encoding of the file."""
    why = {'UTF-16': 'it begins as UTF-16 and is none', 'UTF-8': 'it is UTF-8, but for bytes that are no text in it',
           'Windows-1252': 'it is neither UTF-8 nor Windows-1252'}[encoding]
    places = list(spoiled_places(rows))
    where = f'; {"; ".join(places[:MOST_SHOWN])}' + f'; and {len(places) - MOST_SHOWN} more' * (len(places) > MOST_SHOWN) if places else ''
    raise Hopeless(f'{name}: {why}{where}: {AGAIN}')


def read_table(path: str, remarks: Remarks) -> Table:
    """The file as a table."""
    name = os.path.basename(path)
    try:
        with open(path, 'rb') as source:
            content = source.read()
    except OSError as error:
        raise Hopeless(f'{path}: {error.strerror}')
    mark, text, encoding = decoded(name, content, remarks)
    delimiter = delimiter_of(text)
    rows = records_of(name, text, delimiter)
    if encoding:
        refuse_spoiled(name, encoding, rows)
    if not rows:
        raise Hopeless(f'{name}: it is empty')
    first, cells = rows.pop(0)
    heading = [cell.strip() for cell in cells]
    short = [number for number, cells in rows if len(cells) < len(heading)]
    if short:
        remarks.note(f'{name} {rows_named(short)}: fewer cells than the heading; those that are missing are taken as empty')
    return Table(name, mark, delimiter, heading, [(number, cells + [''] * (len(heading) - len(cells))) for number, cells in rows], first)


def look_for_lines(table: Table, remarks: Remarks) -> None:
    """Names each cell that has several lines, since a quote that is opened by mistake makes one cell of the rows up to the next quote. Cells with a
    delimiter in them come first, as such rows have, and of these the ones with the most lines. Cells of one column with as many lines are named
    together."""
    cells = [(table.delimiter not in cell, -len(LINE_BREAK.findall(cell)) - 1, place, number)
             for number, row in [(table.first, table.heading), *table.rows] for place, cell in enumerate(row) if LINE_BREAK.search(cell)]
    for (_, lines, place), group in sorted(grouped(cells, lambda cell: cell[:3]).items()):
        column = repr(table.heading[place]) if place < len(table.heading) else place + 1
        remarks.say(f'{table.name} {rows_named(cell[3] for cell in group)}: the cell of column {column} has {-lines} lines. If a quote opens it by '
                    'mistake, the rows up to the next quote are inside it and nowhere else')


def has_too_many(table: Table, cells: List[str]) -> bool:
    """True if a row has something behind the columns of the heading."""
    return any(cell.strip() for cell in cells[len(table.heading):])


def column_of(table: Table, name: str, needed_for: str) -> int:
    """The place of the one column with this name."""
    count = table.heading.count(name)
    if count != 1:
        there = f'{count} columns are' if count else 'no column is'
        raise Hopeless(f'{table.name}: {there} called {name!r}, {needed_for}{near(name, table.heading) if not count else ""}')
    return table.heading.index(name)


# ---- writing


def csv_text(rows: Iterable[Iterable], delimiter: str = ',') -> str:
    """The rows as CSV, each ended by LF, with quotes only where they are needed."""
    text = io.StringIO()
    csv.writer(text, delimiter=delimiter, lineterminator='\n').writerows(rows)
    return text.getvalue()


def is_telephone(text: str) -> bool:
    """True for a number as +420 221 714 444, in digits, blanks, dashes, slashes and brackets."""
    return bool(TELEPHONE.fullmatch(text)) and sum(letter.isdigit() for letter in text) >= FEWEST_DIGITS


def guarded(cell: str) -> str:
    """The cell as it is, or behind an apostrophe if a spreadsheet might run it as a formula."""
    runs = cell[:1] in ('\t', '\r', '\n') or cell.lstrip()[:1] in tuple(FORMULA_SIGNS)
    return f"'{cell}" if runs and not is_telephone(cell.strip()) else cell


def list_text(rows: Iterable[List[str]], mark: str, delimiter: str) -> str:
    """The rows as CSV for people, who open it in a spreadsheet: no cell of it runs as a formula, and none ends a row."""
    def quoted(cell: str) -> str:
        is_plain = not any(sign in cell for sign in (delimiter, '"', '\r', '\n'))
        return cell if is_plain else '"' + cell.replace('"', '""') + '"'
    return mark + ''.join(delimiter.join(quoted(guarded(cell)) for cell in row) + '\n' for row in rows)


def write_all(folder: str, texts: Dict[str, str], may_replace: bool = False, hint: str = 'and is never overwritten') -> None:
    """Writes the files of a folder, readable by their owner alone: all of them, or none. Files that are there are replaced only if they may be;
    else `hint` says what to do."""
    aims = {os.path.join(folder, name): text for name, text in texts.items()}
    there = [aim for aim in aims if os.path.lexists(aim)]
    if there and not may_replace:
        raise Hopeless(*(f'{aim}: it is there already, {hint}' for aim in there))
    made: List[str] = []
    try:
        os.makedirs(folder, mode=0o700, exist_ok=True)
        for aim, text in aims.items():
            path = aim + '.new' if may_replace else aim
            with open(os.open(path, os.O_WRONLY | os.O_CREAT | os.O_EXCL, 0o600), 'wb') as target:
                made.append(path)
                target.write(text.encode())
        while may_replace and made:
            os.replace(made[-1], made[-1][:-len('.new')])
            made.pop()
    except OSError as error:
        for path in made:
            os.remove(path)
        raise Hopeless(f'{error.filename or folder}: {error.strerror}')


# ---- the call


def answered(call: Callable[[Remarks], List[str]], end: str) -> int:
    """Makes a call, and tells what it has to say: remarks on standard error, the lines that it returns on standard output. The status is 0; or
    1 if nothing was made, and then the reasons and `end` come last."""
    remarks = Remarks()
    try:
        lines, reasons = call(remarks), []
    except Hopeless as fault:
        lines, reasons = [], [*fault.args, end]
    for line in remarks.lines() + reasons:
        print(line, file=sys.stderr)
    sys.stderr.flush()
    for line in lines:
        print(line)
    return 1 if reasons else 0
