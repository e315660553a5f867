"""Letters that are kept: who has which id and key. Reads a file of letters that `prepare.py` wrote, and finds the people of a later list in it.
Stands on `sheets.py`; `prepare.py` and `who` use it. Nothing of this is proved.

A row of the list has the id and key of a row of the letters

1. if both are the same in all columns of the list that both files have, but for capital letters and blanks, and no other row of either file is
   so; there has to be a name or an e-mail;
2. else if the office says so, by --same;
3. else if both have the same name, address, e-mail and answers, none of them empty, and among the rows that are left no other of either file has
   these. So what may have been corrected is a telephone number, or a note.

Every other row is new, and is named if it may be somebody of the letters: whoever has the same name, the same e-mail, or all columns but one.
So nobody has the key of somebody else of the same name at the same address, but by the word of the office, or where the files tell no
difference.
"""
import re
from typing import Callable, Dict, Iterable, List, NamedTuple, Optional, Sequence, Tuple

from sheets import Hopeless, Remarks, Table, column_of, folded, grouped, guarded, listed, look_of, read_table, why_not_a_name


class Letter(NamedTuple):
    """A row of the letters."""
    row: int
    id: str
    key: str
    cells: List[str]


class Letters(NamedTuple):
    """A file of letters."""
    table: Table
    rows: List[Letter]


class Entry(NamedTuple):
    """A row of the list, or of the letters, as the two are compared: its number, and what it says in the columns that both have, without
    differences that people don't see, and as it is spelled."""
    row: int
    cells: Tuple[str, ...]
    spelled: Tuple[str, ...]


class Shared(NamedTuple):
    """The columns that a list and the letters both have: their names, and their places in either file; and which of these columns are those of a
    name, of an address, of an e-mail and of answers. Each of these is empty if one of its columns isn't in both files."""
    columns: List[str]
    in_list: List[int]
    in_letters: List[int]
    name: List[int]
    address: List[int]
    mail: List[int]
    answers: List[int]


class Uses(NamedTuple):
    """The places of those columns of a list that have a use: of a name, of an address, of an e-mail and of the answers."""
    name: List[int]
    address: List[int]
    mail: List[int]
    answers: List[int]


Same = Tuple[int, str]     # the office says that this row of the list is the person with this id


# ---- reading


def letter_faults(table: Table, letters: List[Letter]) -> Iterable[str]:
    """Why a file can't be the letters of an office."""
    for letter in letters:
        if why_not_a_name(letter.id) or not re.fullmatch('[!-~]{1,200}', letter.key):
            yield f'{table.name} row {letter.row}: it has no id, or no key'
    for what, place in (('id', 1), ('key', 2)):
        for said, rows in grouped(letters, lambda letter: letter[place]).items():
            if len(rows) > 1:
                yield f'{table.name} rows {listed(str(letter.row) for letter in rows)}: the same {what} {said!r}'


def read_letters(path: str, remarks: Remarks) -> Letters:
    """The letters of a file: each row has an id and a key of its own."""
    table = read_table(path, remarks)
    places = [column_of(table, name, 'which the letters of prepare.py have') for name in ('id', 'key')]
    rows = [Letter(number, *(cells[place].strip() for place in places), cells) for number, cells in table.rows]
    faults = list(letter_faults(table, rows)) if rows else [f'{table.name}: it has a heading and no row']
    if faults:
        raise Hopeless(*faults)
    return Letters(table, rows)


def household_place(letters: Table, columns: Sequence[str]) -> Optional[int]:
    """The place of the column of the letters with the codes of households, or None. `columns` are those of the list: one of these may be called
    `household` too, and is called `household (people)` in letters that have codes."""
    is_of_list = 'household' in columns and 'household (people)' not in letters.heading
    return None if is_of_list or letters.heading.count('household') != 1 else letters.heading.index('household')


# ---- which columns both have


def name_in_letters(name: str, own: Sequence[str]) -> str:
    """What a column of the list is called in letters with these columns of their own."""
    return f'{name} (people)' if name in own else name


def shared_columns(table: Table, letters: Letters, uses: Uses) -> Shared:
    """The columns that a list and the letters both have, once each."""
    own = ['id', 'key'] + ['household'] * (household_place(letters.table, table.heading) is not None)
    there = letters.table.heading
    pairs = [(place, there.index(name_in_letters(column, own))) for place, column in enumerate(table.heading)
             if table.heading.count(column) == 1 and there.count(name_in_letters(column, own)) == 1]
    in_list = [place for place, _ in pairs]

    def among(places: List[int]) -> List[int]:
        return [in_list.index(place) for place in places] if set(places) <= set(in_list) else []
    shared = Shared([table.heading[place] for place in in_list], in_list, [place for _, place in pairs], *map(among, uses))
    if not shared.name and not shared.mail:
        raise Hopeless(f'{letters.table.name}: {table.name} and it have no column of names or e-mails in common, so nobody can be found in it; '
                       'see --name and --email')
    return shared


def entry(row: int, cells: Sequence[str], places: Sequence[int]) -> Entry:
    """A row as it is compared. Letters have an apostrophe before what might run as a formula."""
    spelled = tuple(guarded(cells[place]) for place in places)
    return Entry(row, tuple(map(folded, spelled)), spelled)


def old_entries(letters: Letters, shared: Shared) -> List[Entry]:
    """The rows of the letters, as they are compared."""
    return [entry(letter.row, letter.cells, shared.in_letters) for letter in letters.rows]


def said(row: Entry, columns: Sequence[int]) -> str:
    """What the row says in these columns; empty if there is none, or all are empty."""
    return '\t'.join(row.cells[column] for column in columns).strip()


# ---- who is who


def only_pairs(new: Iterable[Entry], old: Iterable[Entry], key: Callable[[Entry], object]) -> Dict[int, int]:
    """The rows of the letters by those of the list that have the same key, if no other row of either file has it."""
    there = grouped(old, key)
    return {rows[0].row: there[one][0].row for one, rows in grouped(new, key).items() if len(rows) == 1 == len(there.get(one, []))}


def of_person(shared: Shared) -> Callable[[Entry], object]:
    """The name, address, e-mail and answers of a row, or None if one of them is empty."""
    def key(row: Entry) -> object:
        parts = tuple(said(row, columns) for columns in (shared.name, shared.address, shared.mail, shared.answers))
        return parts if all(parts) else None
    return key


def told_pairs(same: Sequence[Same], new: Dict[int, Entry], letters: Letters, found: Dict[int, int]) -> Dict[int, int]:
    """The pairs that the office says, which have to be of rows that aren't found yet."""
    rows = {letter.id: letter.row for letter in letters.rows}
    faults = []
    for row, ident in same:
        word = f'--same {row}={ident}'
        if row not in new:
            faults.append(f'{word}: row {row} isn\'t one of the people who go into the register')
        elif ident not in rows:
            faults.append(f'{word}: {letters.table.name} has no id {ident!r}')
        elif found.get(row) == rows[ident]:
            continue
        elif row in found or rows[ident] in found.values():
            faults.append(f'{word}: one of them is the same as another row in all columns')
        elif sum(row == other or ident == one for other, one in same) > 1:
            faults.append(f'{word}: row {row} or {ident!r} is given twice')
    if faults:
        raise Hopeless(*faults)
    return {row: rows[ident] for row, ident in same}


def kept_letters(new: List[Entry], letters: Letters, shared: Shared, same: Sequence[Same]) -> Dict[int, Letter]:
    """The letters of those rows of the list that are in the letters."""
    old = old_entries(letters, shared)
    pairs = only_pairs(new, old, lambda row: row.cells if said(row, shared.name) or said(row, shared.mail) else None)
    pairs.update(told_pairs(same, {row.row: row for row in new}, letters, pairs))
    left, left_old = [row for row in new if row.row not in pairs], [row for row in old if row.row not in pairs.values()]
    pairs.update(only_pairs(left, left_old, of_person(shared)))
    by_row = {letter.row: letter for letter in letters.rows}
    return {row: by_row[other] for row, other in pairs.items()}


# ---- who may be who


def likeness(row: Entry, shared: Shared) -> Iterable[object]:
    """What two rows of one person may have in common: the name, the e-mail, or all columns but one."""
    yield 'name', look_of(said(row, shared.name)) or None
    yield 'e-mail', said(row, shared.mail) or None
    for place in range(len(row.cells) if len(row.cells) > 2 else 0):
        yield place, row.cells[:place] + row.cells[place + 1:]


def look_for_corrected(list_name: str, new: List[Entry], letters: Letters, shared: Shared, kept: Dict[int, Letter], remarks: Remarks) -> None:
    """Names each row that is taken as new, and may be a row of the letters that was corrected."""
    taken = {letter.row for letter in kept.values()}
    ids = {letter.row: letter.id for letter in letters.rows}
    left_old = [row for row in old_entries(letters, shared) if row.row not in taken]
    there: Dict[object, List[Entry]] = {}
    for row in left_old:
        for one in likeness(row, shared):
            there.setdefault(one, []).append(row)
    for row in new:
        likely = {other.row: other for one in likeness(row, shared) if one[1] is not None for other in there.get(one, [])}
        if row.row not in kept and likely:
            names = [ids[other] for other in sorted(likely)]
            words = ' or '.join(f'--same {row.row}={name}' for name in names[:3])
            apart = apart_in(row, likely[min(likely)], shared) if len(likely) == 1 else ''
            remarks.say(f'{list_name} row {row.row}: new, though it may be {listed(names)} of {letters.table.name}{apart}. If so, give {words}')


def apart_in(row: Entry, other: Entry, shared: Shared) -> str:
    """Words about the columns in which two rows differ."""
    differ = [f'{shared.columns[place]} was {other.spelled[place]!r} and is {row.spelled[place]!r}'
              for place in range(len(row.cells)) if row.cells[place] != other.cells[place]]
    return f': {"; ".join(differ)}' if differ else ': more than one row is as this one'
