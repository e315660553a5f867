#!/usr/bin/env python3
"""Checks proofs that a lottery is leximin greatest, or that a pool has no quota panel, by sums of whole numbers.

    check_proof.py [FILE ..]     without a file it reads standard input

It prints, as fields parted by TABs,

    valid                             status 0: the lottery is leximin greatest
    valid, none                       status 0: the pool has no quota panel
    refused, stage, reason, ..        status 11: the proof doesn't hold, and who or which line shows it
    input, line, kind                 status 3, on standard error: the text is no proof, and its first faulty line
    read fault, why                   status 7, on standard error: the file can't be read

Of several files each line begins with the file's name, and the status is the greatest of theirs. Wrong words have status 2, and a fault of
writing has 8. docs/FORMATS.md says what a proof is, how it is checked, why that suffices, and what each reason and kind means. This program
follows that page, uses nothing of `sortition`, and isn't proved.
"""
import os
import sys
from functools import partial

MOST_BYTES = 16_777_216        # of a text
VERSIONS = (b'1', b'2', b'3')  # of a pool and a bundle
MOST_WEIGHT = 10 ** 38         # of a panel, and the greatest total
FAR = 2 ** 127 - 1             # how far the numbers of a stage may reach in a text
LIMIT = 2 ** 56                # the greatest scale and multiplier, and how far a stage may reach that is shown
USUAL_SIZE, LARGE_SIZE = 200, 1000             # the greatest size of a panel in versions 1 and 2, and in version 3
USUAL_VOLUNTEERS, LARGE_VOLUNTEERS = 400, 4000  # the most volunteers in these


class Fault(Exception):
    """The text is no proof: the number of its first faulty line, and the lowest kind of fault in it."""


class Refusal(Exception):
    """The proof is refused: the stage, the reason, and the numbers that show it."""


# ---- the text


class Lines:
    """The lines of a text, which are taken one after another. `number` is that of the line that was taken last."""

    def __init__(self, text):
        self.lines = text.split(b'\n')
        self.behind = self.lines.pop()
        self.number = 0

    def take(self, missing):
        """The next line; `missing` is the kind of fault if there is none."""
        if self.number == len(self.lines):
            raise Fault(self.number + 1, missing)
        self.number += 1
        return self.lines[self.number - 1]

    def refuse(self, kind, applies):
        """Ends the reading if a kind of fault applies to the line that was taken last. Of one line, lower kinds are tried first."""
        if applies:
            raise Fault(self.number, kind)

    def end(self, missing):
        """Nothing follows the line that was taken last."""
        if self.number < len(self.lines) or self.behind:
            raise Fault(self.number + 1, missing)


def number_of(field, least, most):
    """The number from `least` to `most` that a field spells, or None."""
    digits = field[1:] if field.startswith(b'-') else field
    if not digits.isdigit() or len(digits) > 39 or str(int(field)).encode() != field:
        return None
    return int(field) if least <= int(field) <= most else None


def numbers_of(fields, least, most):
    """The numbers that fields spell, or None if one doesn't."""
    numbers = [number_of(field, least, most) for field in fields]
    return None if None in numbers else numbers


def most_trees(volunteers):
    """The most trees of a proof over so many volunteers."""
    return USUAL_VOLUNTEERS if volunteers <= USUAL_VOLUNTEERS else LARGE_VOLUNTEERS


def last_constraint(volunteers):
    """The greatest number of a constraint in a proof over so many volunteers."""
    return 1000 + 2 * most_trees(volunteers)


def rise(numbers):
    return all(first < second for first, second in zip(numbers, numbers[1:]))


def is_name(name):
    return 1 <= len(name) <= 200 and all(byte >= 32 and byte != 127 for byte in name)


def is_utf8(line):
    try:
        line.decode('utf-8')
        return True
    except UnicodeDecodeError:
        return False


class Pool:
    """A pool, to which its lines are added, each by a function. `refuse` is that of the lines."""

    def __init__(self, size, version, refuse):
        self.size, self.version, self.refuse = size, version, refuse
        self.categories = {}       # by name: its values by name, each as (numbers of those who have it, least, most)
        self.numbers = {}          # by id: the volunteer's number
        self.standings = []        # of each volunteer: 'open', 'seated' or 'gone'
        self.homes = {}            # by name: the numbers of a household's members
        self.home_from = 0         # the least number that the next household line may have
        self.standing_from = 0     # and the next line `seated` or `gone`

    def is_small(self):
        """Is it of version 3, but within the limits of the versions before?"""
        return self.version == b'3' and self.size <= USUAL_SIZE and len(self.numbers) <= USUAL_VOLUNTEERS

    def lacks_homes(self):
        """Is it of version 2 without a household?"""
        return self.version == b'2' and not self.homes

    def category(self, name):
        self.refuse(1, self.numbers)
        self.refuse(3, name in self.categories)
        self.refuse(10, not is_name(name) or len(self.categories) == 20)
        self.categories[name] = {}

    def value(self, name, least, most):
        self.refuse(1, not self.categories or self.numbers)
        values = list(self.categories.values())[-1]
        self.refuse(4, name in values)
        least, most = number_of(least, 0, 999), number_of(most, 0, 999)
        self.refuse(5, least is None or most is None or most < least)
        self.refuse(10, not is_name(name) or len(values) == 50)
        values[name] = (set(), least, most)

    def volunteer(self, name, *values):
        self.refuse(1, self.homes or self.standing_from > 0)
        given = list(zip(values, self.categories.values()))
        self.refuse(6, any(value not in category for value, category in given))
        self.refuse(7, len(values) != len(self.categories))
        self.refuse(8, name in self.numbers)
        self.refuse(10, not is_name(name) or len(self.numbers) == (LARGE_VOLUNTEERS if self.version == b'3' else USUAL_VOLUNTEERS))
        for value, category in given:
            category[value][0].add(len(self.numbers))
        self.numbers[name] = len(self.numbers)
        self.standings.append('open')

    def household(self, name, home):
        self.refuse(1, self.version == b'1' or self.standing_from > 0 or self.is_small())
        number = self.numbers.get(name, -1)
        self.refuse(9, number < self.home_from)
        self.refuse(10, not is_name(home))
        self.homes.setdefault(home, set()).add(number)
        self.home_from = number + 1

    def standing(self, word, name):
        self.refuse(1, self.lacks_homes() or self.is_small())
        number = self.numbers.get(name, -1)
        self.refuse(9, number < self.standing_from)
        self.standings[number] = word
        self.standing_from = number + 1

    def end(self):
        self.refuse(1, self.lacks_homes() or self.is_small())

    def all_values(self):
        return [value for values in self.categories.values() for value in values.values()]

    def shared_homes(self):
        """The households of two members or more, as (members, least, most)."""
        return [(home, 0, 1) for home in sorted(self.homes.values(), key=min) if len(home) > 1]


def read_pool(lines, version):
    """A pool, from its second line up to `end`."""
    word, *fields = lines.take(12).split(b'\t')
    size = number_of(fields[0], 1, LARGE_SIZE if version == b'3' else USUAL_SIZE) if word == b'size' and len(fields) == 1 else None
    lines.refuse(2, size is None)
    pool = Pool(size, version, lines.refuse)
    forms = {(b'category', 1): pool.category, (b'value', 3): pool.value, (b'household', 2): pool.household,
             (b'seated', 1): partial(pool.standing, 'seated'), (b'gone', 1): partial(pool.standing, 'gone'), (b'end', 0): pool.end}
    while True:
        line = lines.take(12)
        word, *fields = line.split(b'\t')
        add = pool.volunteer if word == b'volunteer' and fields else forms.get((word, len(fields)))
        lines.refuse(1, add is None)
        add(*fields)
        lines.refuse(11, not is_utf8(line))
        if word == b'end':
            return pool


def panel_of(fields, volunteers):
    """A panel's members and weight, or None."""
    weight = number_of(fields[0], 1, MOST_WEIGHT) if fields else None
    members = numbers_of(fields[1:], 0, volunteers - 1)
    return (members, weight) if weight and members and rise(members) else None


def stage_of(fields, volunteers):
    """A stage's cap and weights, or None."""
    numbers = numbers_of(fields, -FAR, FAR)
    if numbers is None or len(numbers) != 1 + volunteers or sum(map(abs, numbers)) > FAR:
        return None
    return numbers[0], numbers[1:]


def read_lottery(lines, volunteers):
    """The total, the panels and the stages of a bundle, up to `done`."""
    word, *fields = lines.take(17).split(b'\t')
    total = number_of(fields[0], 1, MOST_WEIGHT) if word == b'total' and len(fields) == 1 else None
    lines.refuse(14, total is None)
    panels, stages = [], []
    while True:
        word, *fields = lines.take(17).split(b'\t')
        if word == b'panel' and not stages:
            panels.append(panel_of(fields, volunteers))
            lines.refuse(15, panels[-1] is None)
        elif word == b'stage' and panels:
            stages.append(stage_of(fields, volunteers))
            lines.refuse(16, stages[-1] is None)
        else:
            lines.refuse(16 if stages else 15, word != b'done' or fields or not stages)
            return total, panels, stages


def node_of(line, volunteers):
    """What a line of a tree says: ('split', volunteer) or ('bound', scale, constraints with their multipliers), or None."""
    word, *fields = line.split(b'\t')
    if word == b'split' and len(fields) == 1:
        volunteer = number_of(fields[0], 0, volunteers - 1)
        return None if volunteer is None else ('split', volunteer)
    if word == b'bound' and len(fields) % 2 == 1:
        scale = number_of(fields[0], 0, LIMIT)
        constraints, multipliers = numbers_of(fields[1::2], 0, last_constraint(volunteers)), numbers_of(fields[2::2], -LIMIT, LIMIT)
        if None not in (scale, constraints, multipliers) and rise(constraints) and 0 not in multipliers:
            return 'bound', scale, list(zip(constraints, multipliers))
    return None


def read_tree(lines, behind, volunteers):
    """The nodes of a tree with the numbers of their lines, up to the line that has to follow; last the number of that line, and None."""
    tree = []
    while True:
        line = lines.take(23)
        node = None if line == behind else node_of(line, volunteers)
        lines.refuse(22, line != behind and node is None)
        tree.append((lines.number, node))
        if line == behind:
            return tree


def read_trees(lines, first, last, volunteers):
    """The trees from the number `first` to `last`, and the end of the text."""
    lines.refuse(22, lines.take(23) != b'tree\t%d' % first)
    trees = []
    for number in range(first, last + 1):
        behind = b'close' if number == last else b'tree\t%d' % (number + 1) if number < most_trees(volunteers) else None
        trees.append(read_tree(lines, behind, volunteers))
    lines.end(23)
    return trees


# ---- the check


def leaf_shows(constraints, cap, weights, standings, scale, multipliers):
    """Is it shown by the multiplied constraints and the rests that no panel weighs more than the cap?"""
    rests, charges = [scale * weight for weight in weights], 0
    for constraint, multiplier in multipliers:
        if constraint >= len(constraints):
            return False
        coefficients, least, most = constraints[constraint]
        charges += multiplier * (most if multiplier > 0 else least)
        for volunteer, coefficient in coefficients:
            rests[volunteer] -= multiplier * coefficient
    for standing, rest in zip(standings, rests):
        if standing == 'seated' or (standing == 'open' and rest > 0):
            charges += rest
    return charges < scale * (cap + 1)


def check_tree(stage, constraints, cap, weights, standings, tree):
    """Refuses the first line that isn't the next one of a tree, or that doesn't show the cap."""
    standings, path, complete = list(standings), [], False
    for line, node in tree:
        if node is None:
            if not complete:
                raise Refusal(stage, 11, [line])
        elif complete or (node[0] == 'split' and standings[node[1]] != 'open'):
            raise Refusal(stage, 11, [line])
        elif node[0] == 'split':
            standings[node[1]] = 'gone'
            path.append(node[1])
        else:
            if not leaf_shows(constraints, cap, weights, standings, *node[1:]):
                raise Refusal(stage, 12, [line])
            while path and standings[path[-1]] == 'seated':
                standings[path.pop()] = 'open'
            complete = not path
            if path:
                standings[path[-1]] = 'seated'


def constraints_of(pool):
    """The constraints before those of the earlier stages, and those behind, as (pairs of volunteer and coefficient, least, most)."""
    before = [(range(len(pool.numbers)), pool.size, pool.size), *pool.all_values()]
    return [[([(i, 1) for i in members], least, most) for members, least, most in part] for part in (before, pool.shared_homes())]


def check_panels(pool, total, panels):
    """Refuses what is no lottery over the pool's quota panels."""
    bounded = pool.all_values() + pool.shared_homes()
    for members, _ in panels:
        panel = set(members)
        if (len(panel) != pool.size
                or any(standing != 'open' and (standing == 'seated') != (i in panel) for i, standing in enumerate(pool.standings))
                or not all(least <= len(having & panel) <= most for having, least, most in bounded)):
            raise Refusal(0, 1, members)
    seen = set()
    for members, _ in panels:
        if tuple(members) in seen:
            raise Refusal(0, 2, members)
        seen.add(tuple(members))
    if sum(weight for _, weight in panels) != total:
        raise Refusal(0, 3, [])


def check_settled(stage, weights, counts, unsettled):
    """Refuses a stage by its weights and by the counts of the unsettled."""
    for i in unsettled:
        if weights[i] < 0:
            raise Refusal(stage, 4, [i])
    settling = [i for i in unsettled if weights[i] > 0]
    if not settling:
        raise Refusal(stage, 5, [])
    common = counts[settling[0]]
    for i in settling:
        if counts[i] != common:
            raise Refusal(stage, 6, [i])
    for i in unsettled:
        if counts[i] < common:
            raise Refusal(stage, 7, [i])


def check_lottery(pool, total, panels, stages, trees):
    check_panels(pool, total, panels)
    counts = [0] * len(pool.numbers)
    for members, weight in panels:
        for i in members:
            counts[i] += weight
    unsettled = range(len(pool.numbers))
    before, homes = constraints_of(pool)
    for stage, ((cap, weights), tree) in enumerate(zip(stages, trees), 1):
        check_settled(stage, weights, counts, unsettled)
        if abs(cap) + sum(map(abs, weights)) > LIMIT:
            raise Refusal(stage, 13, [])
        check_tree(stage, before + homes, cap, weights, pool.standings, tree)
        for members, _ in panels:
            if sum(weights[i] for i in members) != cap:
                raise Refusal(stage, 9, members)
        unsettled = [i for i in unsettled if weights[i] <= 0]
        before.append(([(i, weight) for i, weight in enumerate(weights) if weight], cap, cap))
    for i in unsettled:
        raise Refusal(len(stages), 10, [i])


def check(text):
    """The words for a valid proof. Raises a Fault if the text is no proof, and a Refusal if the proof doesn't hold."""
    lines = Lines(text)
    lines.refuse(21, lines.take(23) != b'proof\t1')
    line = lines.take(23)
    word, version = line[:-1], line[-1:]
    lines.refuse(22, word not in (b'bundle\t', b'pool\t') or version not in VERSIONS)
    if word == b'bundle\t':
        lines.refuse(1, lines.take(12) != b'pool\t' + version)
        pool = read_pool(lines, version)
        total, panels, stages = read_lottery(lines, len(pool.numbers))
        check_lottery(pool, total, panels, stages, read_trees(lines, 1, len(stages), len(pool.numbers)))
        return ['valid']
    pool = read_pool(lines, version)
    lines.refuse(22, lines.take(23) != b'none')
    tree, = read_trees(lines, 0, 0, len(pool.numbers))
    before, homes = constraints_of(pool)
    check_tree(0, before + homes, -1, [0] * len(pool.numbers), pool.standings, tree)
    return ['valid', 'none']


# ---- the answer


def answer(text, check):
    """The status and the line for a text of bytes that `check` judges."""
    status = 3
    try:
        if len(text) > MOST_BYTES:
            raise Fault(0, 10)
        status, fields = 0, check(text)
    except Fault as fault:
        fields = ['input', *fault.args]
    except Refusal as refusal:
        stage, reason, shown = refusal.args
        status, fields = 11, ['refused', stage, reason, *shown]
    return status, '\t'.join(map(str, fields)).encode()


def answer_of(file, check):
    """The status and the line for a file, or for standard input if it is None."""
    try:
        with open(0 if file is None else file, 'rb', closefd=file is not None) as source:
            text = source.read(MOST_BYTES + 1)
    except OSError as fault:
        return 7, b'read fault' if file is None else b'read fault\t' + os.strerror(fault.errno or 0).encode()
    return answer(text, check)


def tell(stream, text):
    """Writes to standard output, which is stream 1, or to standard error, 2. True if it was written."""
    try:
        with open(stream, 'wb', closefd=False) as sink:
            sink.write(text)
        return True
    except OSError:
        return False


def main(words, check, usage):
    """Answers the files that the words name. `check` judges a text, `usage` says what the program is."""
    usage = usage.encode()
    if any(word in ('-h', '--help') for word in words):
        return 0 if tell(1, usage) else 8
    if any(word.startswith('-') for word in words):
        tell(2, usage)
        return 2
    statuses = []
    for file in words or [None]:
        status, line = answer_of(file, check)
        name = os.fsencode(file) + b'\t' if len(words) > 1 else b''
        if not tell(1 if status in (0, 11) else 2, name + line + b'\n'):
            if status in (0, 11):
                tell(2, b'write fault\n')
                return 8
        statuses.append(status)
    return max(statuses)


if __name__ == '__main__':
    try:
        sys.exit(main(sys.argv[1:], check, __doc__))
    except KeyboardInterrupt:
        sys.exit(130)
