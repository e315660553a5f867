#!/usr/bin/env python3
"""Makes the files of the office from the two that a city has: a table of the people, and the quotas.

    tools/prepare.py people.csv quotas.csv --household street,postcode --title "Town assembly" --size 4

PEOPLE has a heading in its first row and a row for each person. It needs a column for each category of the quotas, with that name. Further
columns, as names and addresses, are kept for the office and go nowhere else.

QUOTAS has a row for each value of each category, under one of the headings that other programs write, in capital or small letters:

    feature,value,min,max     category,name,min,max     category,value,min,max     category,feature,min,max

Further columns, as min_flex and max_flex, are passed over. Blanks at the ends of a cell are removed; then an answer has to be spelled as the
quotas have it. Both files may have commas, semicolons or TABs, and may be in UTF-8, in UTF-16 with a mark, or in Windows-1252 (Latin-1).

Into the folder of --out go new files; a file that is there is never overwritten:

    rules.csv        the quotas, for `sortition import-rules`
    register.csv     for `sortition import-register`: for each person an id that doesn't say who it is, a random key, an answer for each
                     category, and a code for the household. The order is mixed
    letters.csv      who has which id and key, with every column of PEOPLE, for the office's own drawer. It is written as PEOPLE is, but for an
                     apostrophe before what a spreadsheet might run as a formula
    letters-new.csv  with --letters: the rows of letters.csv who have a new id and key
    charter.toml     for `sortition import-charter`, if --title and --size are given. With more than 400 people it says that the register takes
                     up to 4,000

With --letters, the letters.csv of an earlier call, who is in it keeps id, key and the household's code: `letters.py` says how people are found.
A row of it whose person isn't among the people any more stays at the end of letters.csv, so that its id is never given to another one.

What was left out or found odd is said on standard error: first cells with several lines, last who has the same name or e-mail, and behind all
of it what is harmless. Status 0: the files were made; 1: nothing was made, and the reason is said; 2: wrong words. Nothing of this is proved.
What it makes is read by `sortition`, which refuses what is no right file. It stands on `letters.py` and `sheets.py` beside it.
"""
import argparse
import json
import os
import re
import secrets
import sys
from collections import Counter
from typing import Callable, Dict, Iterable, Iterator, List, NamedTuple, Optional, Sequence, Tuple

sys.dont_write_bytecode = True      # (no compiled files beside the tools)
from letters import (Letter, Same, Uses, entry, household_place, kept_letters, look_for_corrected, name_in_letters, read_letters,
                     shared_columns)
from sheets import (MOST_SHOWN, Hopeless, Remarks, Table, answered, column_of, csv_text, folded, grouped, guarded, has_too_many, list_text,
                    listed, look_for_lines, look_of, near, read_table, rows_named, unlike, why_not_a_name, write_all)

KEY_LETTERS = '3479acdefhjkmnprtwxy'   # no two of these look alike
MOST_PEOPLE, MOST_CATEGORIES, MOST_VALUES, MOST_MEMBERS = 4000, 20, 50, 1000  # the office's limits
USUAL_PEOPLE, USUAL_MEMBERS = 400, 200  # the same, if the charter has no `volunteers`
CROWD = 6                              # so many people at one address are rather a house than a household
CHARTER = '# What the assembly is called, and how many members its panel has.\ntitle = {}\nsize = {}\n'
LARGE = f'# How many rows the register takes.\nvolunteers = {MOST_PEOPLE}\n'

# How headings of an address are spelled, without blanks and signs: those of a home, those of a place, and a number right behind a street.
HOME_HEADING = re.compile('(home|postal|full)?(street|address|strasse|adresse|anschrift|ulice|adresa|rue|calle|via|indirizzo)(name|line)?[0-9]*'
                          '|(flat|apartment|apt|door|stairs|appartement|wohnung|stiege|tür|byt)(no|number|nr|nummer)?'
                          '|(house|building)(no|number|nr)|haus(nr|nummer)')
PLACE_HEADING = re.compile('(post(al)?code|zip(code)?|postleitzahl|plz|psč|codepostal'
                           '|town|city|village|ort|wohnort|stadt|gemeinde|obec|město|ville)')
NUMBER_HEADING = re.compile('(number|no|nr|nummer|numéro|číslo(popisné|domu)?|čp)')

Categories = Dict[str, Dict[str, Tuple[int, int]]]     # by name: its values by name, each with its bounds


class Person(NamedTuple):
    """A person of PEOPLE: the number of the row, its cells, and the answers in the order of the categories."""
    row: int
    cells: List[str]
    answers: List[str]


class Before(NamedTuple):
    """What the old letters hold: the name of the file; its rows; those of people who are in the list, by the row of the list, and the others; the
    codes of households by id; and the places of the list's columns in it."""
    name: str
    letters: List[Letter]
    kept: Dict[int, Letter]
    gone: List[Letter]
    codes: Dict[str, str]
    columns: Dict[int, int]


class Own(NamedTuple):
    """What the office gives to a person. The household is empty for whoever is alone at an address or has none."""
    id: str
    key: str
    household: str


NOBODY = Before('', [], {}, [], {}, {})     # where there are no old letters


# ---- quotas


def quota_columns(table: Table) -> List[int]:
    """The places of category, value, min and max in the table of quotas."""
    heading = [folded(cell) for cell in table.heading]
    category = 'category' if 'category' in heading else 'feature'
    values = [name for name in ('name', 'value', 'feature') if name != category and name in heading]
    names = [category, *(values or ['value']), 'min', 'max']
    if len(names) != 4 or any(heading.count(name) != 1 for name in names):
        raise Hopeless(f'{table.name}: the heading is {", ".join(map(repr, table.heading))}; it has to name category (or feature), '
                       'value (or name), min and max, once each')
    return [heading.index(name) for name in names]


def bound_of(cell: str) -> Optional[int]:
    """The number of a cell, or None if it is none that the office takes."""
    return int(cell) if re.fullmatch('[0-9]{1,9}', cell) and int(cell) <= 999 else None


def rule_faults(categories: Categories, category: str, value: str, least: str, most: str) -> Iterator[str]:
    """Why the office refuses a row of the quotas, given those before it."""
    for what, name in (('category', category), ('value', value)):
        if why_not_a_name(name):
            yield f'the {what} {name!r} can\'t be taken: {why_not_a_name(name)}'
    if category in ('id', 'key'):
        yield f'no category may be called {category!r}: the register has a column of this name'
    for what, cell in (('min', least), ('max', most)):
        if bound_of(cell) is None:
            yield f'{what} is {cell!r}, which is no whole number from 0 to 999'
    if None not in (bound_of(least), bound_of(most)) and bound_of(least) > bound_of(most):
        yield f'min {least} is above max {most}'
    if value in categories.get(category, {}):
        yield f'{category!r} has the value {value!r} already'
    if category not in categories and len(categories) == MOST_CATEGORIES:
        yield f'there are more than {MOST_CATEGORIES} categories'
    if len(categories.get(category, {})) == MOST_VALUES:
        yield f'{category!r} has more than {MOST_VALUES} values'


def look_for_twins(name: str, what: str, spellings: Iterable[str], remarks: Remarks) -> None:
    """Names spellings that look alike."""
    for group in grouped(spellings, look_of).values():
        for other in group[1:]:
            remarks.say(f'{name}: {what} {other!r} and {group[0]!r} look alike: {unlike(other, group[0])}')


def quotas_of(table: Table, remarks: Remarks) -> Categories:
    """The categories in order, each with its values in order and their least and greatest numbers."""
    places = quota_columns(table)
    categories: Categories = {}
    faults = [] if table.rows else [f'{table.name}: it has a heading and no row']
    for number, cells in table.rows:
        category, value, least, most = (cells[place].strip() for place in places)
        wrong = list(rule_faults(categories, category, value, least, most))
        if has_too_many(table, cells):
            wrong.append('it has more cells than the heading')
        faults += [f'{table.name} row {number}: {fault}' for fault in wrong]
        if not wrong:
            categories.setdefault(category, {})[value] = (bound_of(least), bound_of(most))
    look_for_twins(table.name, 'the categories', categories, remarks)
    for category, values in categories.items():
        look_for_twins(table.name, f'the values of {category!r},', values, remarks)
    if faults:
        raise Hopeless(*faults)
    return categories


def look_at_quotas(name: str, categories: Categories, people: List[Person], size: Optional[int], remarks: Remarks) -> None:
    """Says which quotas can't be met, as far as a look at each category shows it."""
    wrong = []
    for place, (category, values) in enumerate(categories.items()):
        there = Counter(person.answers[place] for person in people)
        wrong += [f'{category} {value!r} has the minimum {least}, and the register has {there[value]} of them'
                  for value, (least, most) in values.items() if there[value] < least]
        low, high = (sum(bounds[end] for bounds in values.values()) for end in (0, 1))
        if size is not None and low > size:
            wrong.append(f'the minimums of {category} sum to {low}, above the size {size}')
        if size is not None and high < size:
            wrong.append(f'the maximums of {category} sum to {high}, below the size {size}')
    if size is not None and len(people) < size:
        wrong.append(f'the size is {size}, and the register has {len(people)} people')
    for sentence in wrong:
        remarks.say(f'{name}: {sentence}: so there is no panel')


# ---- people


def people_of(table: Table, categories: Categories, places: List[int], remarks: Remarks) -> List[Person]:
    """The people whose answers, at these places, the quotas name. Says of each other row why it was left out."""
    people = []
    for number, cells in table.rows:
        answers = [cells[place].strip() for place in places]
        wrong = ['it has more cells than the heading'] if has_too_many(table, cells) else []
        for (category, values), answer in zip(categories.items(), answers):
            if not answer:
                wrong.append(f'{category} is empty')
            elif answer not in values:
                wrong.append(f'{category} is {answer!r}, which no quota names{near(answer, values)}')
        if wrong:
            remarks.say(f'{table.name} row {number}: left out: {"; ".join(wrong)}')
        else:
            people.append(Person(number, cells, answers))
    return people


def plain(heading: str) -> str:
    """A heading in small letters, without blanks and signs."""
    return re.sub(r'[\W_]', '', folded(heading))


def columns_like(table: Table, asked: List[str], option: str, is_like: Callable[[str], bool], used: List[str]) -> List[int]:
    """The places of the columns that an option asks for, or else of those whose heading looks so and that have no other use."""
    if asked:
        return [column_of(table, name, f'which {option} names') for name in asked]
    return [place for place, name in enumerate(table.heading) if name not in used and is_like(plain(name))]


def address_columns(table: Table, categories: Categories, home: List[int]) -> List[int]:
    """The places of columns that look like parts of an address and that --household doesn't name. A place counts beside a home, and a second place
    not; a number counts right behind a home."""
    headings = ['' if name in categories else plain(name) for name in table.heading]
    homes = [place for place, name in enumerate(headings) if HOME_HEADING.fullmatch(name)]
    homes += [place + 1 for place in homes if NUMBER_HEADING.fullmatch(''.join(headings[place + 1:place + 2]))]
    towns = [place for place, name in enumerate(headings) if PLACE_HEADING.fullmatch(name)]
    if not homes and not home or set(towns) & set(home):
        towns = []
    return sorted({*homes, *towns} - set(home))


def look_for_addresses(table: Table, categories: Categories, home: List[int], remarks: Remarks) -> None:
    """Names the columns that look like parts of an address and that --household doesn't name."""
    if 'household' in table.heading and table.heading.index('household') not in home and 'household' not in categories:
        remarks.say(f'{table.name}: the column \'household\' isn\'t looked at; if it says who lives together, give --household household')
    missed = [table.heading[place] for place in address_columns(table, categories, home)]
    if not missed:
        return
    looks = f'{listed(map(repr, missed))} look{"s" * (len(missed) == 1)} like an address'
    if home:
        remarks.say(f'{table.name}: {looks}, and --household doesn\'t name {"it" if len(missed) == 1 else "them"}: so people of several homes may be '
                    'taken for one household')
    else:
        remarks.say(f'{table.name}: {looks}, and no --household is given: so nobody shares a household, and two of one home may be on a panel. '
                    f'To mend this, give --household "{",".join(missed)}"')


def said_by(person: Person, places: List[int]) -> str:
    """What a person's cells in these columns say, or an empty text if all of them are empty."""
    return ' '.join(folded(person.cells[place]) for place in places).strip()


def shown_by(person: Person, places: List[int]) -> str:
    """A person's cells in these columns, as they are spelled."""
    return ' '.join(person.cells[place].strip() for place in places)


def look_for_pairs(table: Table, people: List[Person], what: str, places: List[int], remarks: Remarks) -> None:
    """Says who has the same name, or the same e-mail, as somebody else: of many cases the first ten, and of the others the rows alone."""
    groups = [group for group in grouped(people, lambda person: said_by(person, places)).values() if len(group) > 1]
    for group in groups[:MOST_SHOWN]:
        remarks.say(f'{table.name} {rows_named(person.row for person in group)}: the same {what} {shown_by(group[0], places)!r}; all are in the '
                    'register. If they are one person, leave one row')
    others = groups[MOST_SHOWN:]
    if others:
        rows = '; '.join(listed(str(person.row) for person in group) for group in others)
        remarks.say(f'{table.name}: the same {what} in {len(others)} more case{"s" * (len(others) > 1)}, of rows {rows}; all are in the register')


def look_for_lookalikes(table: Table, people: List[Person], what: str, places: List[int], remarks: Remarks) -> None:
    """Names rows whose names, e-mails or addresses look the same and aren't."""
    for alike in grouped(people, lambda person: look_of(said_by(person, places))).values():
        first, *others = [group[0] for group in grouped(alike, lambda person: said_by(person, places)).values()]
        for other in others:
            one, two = shown_by(other, places), shown_by(first, places)
            remarks.say(f'{table.name} row {other.row}: the {what} {one!r} looks like that of row {first.row}, {two!r}, and has {unlike(one, two)}')


def without_repeats(table: Table, people: List[Person], uses: Uses, remarks: Remarks) -> List[Person]:
    """The people without rows that are as an earlier one in all columns. Says which these are, and who looks like somebody else."""
    if not uses.name and not uses.mail:
        remarks.say(f'{table.name}: no column looks like a name or an e-mail, so who is there twice isn\'t found; see --name and --email')
        return people
    first: Dict[Tuple[str, ...], Person] = {}
    kept = []
    for person in people:
        earlier = first.setdefault(tuple(map(folded, person.cells)), person)
        if earlier is not person and (said_by(person, uses.name) or said_by(person, uses.mail)):
            remarks.note(f'{table.name} row {person.row}: left out: the same as row {earlier.row} in all columns')
        else:
            kept.append(person)
    for what, places in (('name', uses.name), ('e-mail', uses.mail), ('address', uses.address)):
        look_for_lookalikes(table, kept, what, places, remarks)
    return kept


def kept_people(table: Table, categories: Categories, uses: Uses, remarks: Remarks) -> List[Person]:
    """The people who go into the register: at least one, and as many as the office takes."""
    people = without_repeats(table, people_of(table, categories, uses.answers, remarks), uses, remarks)
    if not 1 <= len(people) <= MOST_PEOPLE:
        raise Hopeless(f'{table.name}: {len(people)} people are left, and the register takes 1 to {MOST_PEOPLE}')
    return people


# ---- ids, keys and households


def codes_of(letter: str, count: int, taken: Iterable[str] = ()) -> List[str]:
    """As many codes as are counted, as p01, p02 and so on, behind those that are taken."""
    numbers = [code[1:] for code in taken if re.fullmatch(f'{letter}[0-9]+', code)]
    last = max(map(int, numbers), default=0)
    width = max([len(str(last + count)), *map(len, numbers)])
    return [f'{letter}{number:0{width}}' for number in range(last + 1, last + count + 1)]


def keys_of(count: int, taken: Iterable[str] = ()) -> List[str]:
    """As many different random keys as are counted, each of four groups of four letters: 20^16 cases. None is taken already."""
    keys: Dict[str, None] = dict.fromkeys(taken)
    before = len(keys)
    while len(keys) < before + count:
        keys['-'.join(''.join(secrets.choice(KEY_LETTERS) for _ in range(4)) for _ in range(4))] = None
    return list(keys)[before:]


def homes_of(table: Table, people: List[Person], places: List[int], remarks: Remarks) -> List[List[Person]]:
    """The people by address; whoever has none is alone."""
    groups = list(grouped(people, lambda person: said_by(person, places) and tuple(folded(person.cells[place]) for place in places)).values())
    without = [person for person in people if not said_by(person, places)]
    if places and without:
        remarks.say(f'{table.name} {rows_named(person.row for person in without)}: no address, so no household')
    for group in groups:
        if len(group) >= CROWD:
            remarks.say(f'{table.name} {rows_named(person.row for person in group)}: {len(group)} people at one address, of whom at most one will be '
                        'on a panel. If it is a house of several flats, name the column for the flat too')
    return groups + [[person] for person in without]


def households_of(homes: List[List[Person]], before: Dict[int, str], taken: Iterable[str]) -> Dict[int, str]:
    """The code of each person's household by row. `before` are the codes in the old letters by row, and `taken` all of them: who lives together keeps
    the code that one of them had, if nobody else has it now; other homes of several people get new ones."""
    had = [{before[person.row] for person in home if before.get(person.row)} for home in homes]
    count = Counter(code for codes in had for code in codes)
    kept = [''.join(codes) if len(codes) == 1 and count[''.join(codes)] == 1 else '' for codes in had]
    new = iter(codes_of('h', sum(len(home) > 1 and not code for home, code in zip(homes, kept)), taken))
    return {person.row: code for home, one in zip(homes, kept) for code in [one or (next(new) if len(home) > 1 else '')] for person in home}


def owns_of(table: Table, people: List[Person], home: List[int], before: Before, remarks: Remarks) -> Dict[int, Own]:
    """What the office gives to each person, by row, in the order of the register: first those who keep their ids, then the new ones, mixed."""
    kept = before.kept
    new = [person for person in people if person.row not in kept]
    ordered = sorted((person for person in people if person.row in kept), key=lambda person: (len(kept[person.row].id), kept[person.row].id))
    ordered += secrets.SystemRandom().sample(new, len(new))
    ids = iter(codes_of('p', len(new), [letter.id for letter in before.letters]))
    keys = iter(keys_of(len(new), [letter.key for letter in before.letters]))
    homes = homes_of(table, ordered, home, remarks)
    households = households_of(homes, {row: before.codes[letter.id] for row, letter in kept.items()}, before.codes.values())
    owns = {}
    for person in ordered:
        letter = kept.get(person.row)
        ident, key = (letter.id, letter.key) if letter else (next(ids), next(keys))
        owns[person.row] = Own(ident, key, households[person.row] if home else '')
    return owns


# ---- the old letters


def before_of(table: Table, people: List[Person], categories: Categories, uses: Uses, asked: argparse.Namespace, remarks: Remarks) -> Before:
    """What the old letters hold. Names who may be in them, and who isn't in the list any more. Without --household the columns that look like an
    address are the address."""
    if asked.letters is None:
        return NOBODY
    old = read_letters(asked.letters, remarks)
    look_for_lines(old.table, remarks)
    shared = shared_columns(table, old, uses._replace(address=uses.address or address_columns(table, categories, [])))
    rows = [entry(person.row, person.cells, shared.in_list) for person in people]
    kept = kept_letters(rows, old, shared, asked.same)
    look_for_corrected(table.name, rows, old, shared, kept, remarks)
    ids = {letter.id for letter in kept.values()}
    gone = [letter for letter in old.rows if letter.id not in ids]
    for letter in gone:
        remarks.say(f'{old.table.name} row {letter.row}: {letter.id} isn\'t among the people of {table.name} any more. The row stays at the end '
                    f'of letters.csv, and a store that was filled before still has {letter.id}')
    place = household_place(old.table, table.heading)
    codes = {letter.id: '' if place is None else letter.cells[place].strip() for letter in old.rows}
    return Before(old.table.name, old.rows, kept, gone, codes, dict(zip(shared.in_list, shared.in_letters)))


def look_for_changes(people: List[Person], uses: Uses, before: Before, owns: Dict[int, Own], remarks: Remarks) -> None:
    """Names the ids whose row of the register isn't what it was, as far as the old letters show it."""
    def is_changed(person: Person, letter: Letter) -> bool:
        there = [(before.columns[place], answer) for place, answer in zip(uses.answers, person.answers) if place in before.columns]
        has_others = any(guarded(letter.cells[place].strip()) != guarded(answer) for place, answer in there)
        return has_others or before.codes[letter.id] != owns[person.row].household
    changed = [before.kept[person.row].id for person in people if person.row in before.kept and is_changed(person, before.kept[person.row])]
    if changed:
        remarks.say(f'{before.name}: {listed(sorted(changed))} had another answer or household, so a store that was filled before refuses the new '
                    'register: fill a new one. Ids and keys stay')


# ---- writing


def register_text(people: List[Person], categories: Categories, owns: Dict[int, Own], has_households: bool) -> str:
    """The text of register.csv, in the order of what the office gives."""
    by_row = {person.row: person for person in people}
    rows = [[own.id, own.key, *by_row[row].answers, *[own.household] * has_households] for row, own in owns.items()]
    return csv_text([['id', 'key', *categories, *['household'] * has_households], *rows])


def letters_texts(table: Table, people: List[Person], owns: Dict[int, Own], has_households: bool, before: Before) -> Dict[str, str]:
    """The texts of letters.csv, in the order of PEOPLE and with those behind who aren't in the list any more; and of letters-new.csv, which is made
    where there are old letters."""
    own = ['id', 'key'] + ['household'] * has_households
    heading = own + [name_in_letters(name, own) for name in table.heading]
    places = range(len(table.heading))
    rows = {person.row: [*owns[person.row][:len(own)], *(person.cells[place] for place in places)] for person in people}
    gone = [[letter.id, letter.key, *[before.codes[letter.id]] * has_households,
             *(letter.cells[before.columns[place]] if place in before.columns else '' for place in places)] for letter in before.gone]

    def text(some: Iterable[List[str]]) -> str:
        return list_text([heading, *some], table.mark, table.delimiter)
    texts = {'letters.csv': text([*rows.values(), *gone])}
    if before.letters:
        texts['letters-new.csv'] = text(row for number, row in rows.items() if number not in before.kept)
    return texts


def lines_about_letters(people: List[Person], before: Before) -> Iterator[str]:
    """What the letters hold, a line each."""
    yield 'letters.csv: who has which id and key; keep it in the drawer'
    if before.letters:
        new = len(people) - len(before.kept)
        yield f'letters.csv: kept {len(before.kept)}, new {new}, not in the list any more {len(before.gone)}'
        yield f'letters-new.csv: people {new}; write letters to these alone'


# ---- the call


def columns_asked(text: str) -> List[str]:
    """The names of columns in a word, parted by commas."""
    return [name.strip() for name in text.split(',') if name.strip()]


def size_asked(text: str) -> int:
    """The number of a panel's members."""
    if not re.fullmatch('[0-9]{1,4}', text) or not 1 <= int(text) <= MOST_MEMBERS:
        raise argparse.ArgumentTypeError(f'{text!r} is no number from 1 to {MOST_MEMBERS}')
    return int(text)


def same_asked(text: str) -> List[Same]:
    """Rows of the list with the ids of the letters that they have."""
    pairs = [re.fullmatch(r' *([0-9]{1,9}) *= *(.*\S) *', part) for part in text.split(',')]
    if None in pairs:
        raise argparse.ArgumentTypeError(f'{text!r} isn\'t of the form ROW=ID,ROW=ID')
    return [(int(pair.group(1)), pair.group(2)) for pair in pairs]


def words_of(words: Sequence[str]) -> argparse.Namespace:
    """What the words of the call ask for."""
    parser = argparse.ArgumentParser(description=__doc__, formatter_class=argparse.RawDescriptionHelpFormatter, allow_abbrev=False)
    parser.add_argument('people', metavar='PEOPLE', help='the table of the people')
    parser.add_argument('quotas', metavar='QUOTAS', help='the quotas')
    columns = {'metavar': 'COLUMN,..', 'type': columns_asked, 'default': []}
    parser.add_argument('--household', help='the columns of an address: people with the same address live together', **columns)
    parser.add_argument('--name', help='the columns of a name (else those whose heading ends in "name")', **columns)
    parser.add_argument('--email', help='the columns of an e-mail (else those with "mail" in the heading)', **columns)
    parser.add_argument('--title', help='what the assembly is called, for charter.toml')
    parser.add_argument('--size', type=size_asked, help=f'how many members a panel has, 1 to {USUAL_MEMBERS}, or to {MOST_MEMBERS} with more than {USUAL_PEOPLE} people')
    parser.add_argument('--letters', metavar='OLD', help='the letters.csv of an earlier call: who is in it keeps id and key')
    parser.add_argument('--same', metavar='ROW=ID,..', type=same_asked, default=[], help='rows of PEOPLE who have these ids in OLD')
    parser.add_argument('--out', metavar='FOLDER', default='office', help='where the files go (default: office)')
    asked = parser.parse_args(words)
    if asked.same and asked.letters is None:
        parser.error('--same takes --letters')
    return asked


def uses_of(table: Table, categories: Categories, asked: argparse.Namespace) -> Uses:
    """The columns of PEOPLE that have a use."""
    home = [column_of(table, name, 'which --household names') for name in asked.household]
    used = [*categories, *asked.household]
    names = columns_like(table, asked.name, '--name', lambda heading: heading.endswith('name') and not HOME_HEADING.fullmatch(heading), used)
    mails = columns_like(table, asked.email, '--email', lambda heading: 'mail' in heading, used)
    return Uses(names, home, mails, [column_of(table, category, 'which is a category of the quotas') for category in categories])


def charter_text(asked: argparse.Namespace, people: int, remarks: Remarks) -> Optional[str]:
    """The text of charter.toml for so many people, or None if not all of it is given."""
    if asked.title is None or asked.size is None:
        tell = remarks.note if asked.title is asked.size is None else remarks.say
        tell('charter.toml isn\'t made: that takes --title and --size')
        return None
    if people <= USUAL_PEOPLE and asked.size > USUAL_MEMBERS:
        raise Hopeless(f'the size is {asked.size}, and with {people} people a panel has at most {USUAL_MEMBERS} members')
    return CHARTER.format(json.dumps(asked.title, ensure_ascii=False), asked.size) + LARGE * (people > USUAL_PEOPLE)


def prepare(asked: argparse.Namespace, remarks: Remarks) -> List[str]:
    """Makes the files, and returns a line for each that says what it has."""
    if asked.title is not None and why_not_a_name(asked.title):
        raise Hopeless(f'the title can\'t be taken: {why_not_a_name(asked.title)}')
    quotas, table = read_table(asked.quotas, remarks), read_table(asked.people, remarks)
    look_for_lines(quotas, remarks)
    look_for_lines(table, remarks)
    categories = quotas_of(quotas, remarks)
    if asked.household and 'household' in categories:
        raise Hopeless(f'{quotas.name}: a category is called \'household\', so the register has no column for households: rename it in both files')
    uses = uses_of(table, categories, asked)
    look_for_addresses(table, categories, uses.address, remarks)
    people = kept_people(table, categories, uses, remarks)
    look_at_quotas(quotas.name, categories, people, asked.size, remarks)
    before = before_of(table, people, categories, uses, asked, remarks)
    owns = owns_of(table, people, uses.address, before, remarks)
    look_for_changes(people, uses, before, owns, remarks)
    rules = [[category, value, *bounds] for category, values in categories.items() for value, bounds in values.items()]
    has_households = bool(uses.address)
    texts = {'rules.csv': csv_text([['category', 'name', 'min', 'max'], *rules]),
             'register.csv': register_text(people, categories, owns, has_households),
             **letters_texts(table, people, owns, has_households, before)}
    lines = [f'rules.csv: categories {len(categories)}, values {len(rules)}',
             f'register.csv: people {len(people)} of {len(table.rows)}, households {len({own.household for own in owns.values()} - {""})}',
             *lines_about_letters(people, before)]
    charter = charter_text(asked, len(people), remarks)
    if charter is not None:
        texts['charter.toml'] = charter
        lines.append(f'charter.toml: title {asked.title!r}, size {asked.size}' + f', volunteers {MOST_PEOPLE}' * (len(people) > USUAL_PEOPLE))
    look_for_pairs(table, people, 'name', uses.name, remarks)
    look_for_pairs(table, people, 'e-mail', uses.mail, remarks)
    write_all(asked.out, texts)
    return [os.path.join(asked.out, line) for line in lines]


def main(words: Sequence[str]) -> int:
    asked = words_of(words)
    return answered(lambda remarks: prepare(asked, remarks), 'nothing was made')


if __name__ == '__main__':
    sys.exit(main(sys.argv[1:]))
