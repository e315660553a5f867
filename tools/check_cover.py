#!/usr/bin/env python3
"""Checks covers: that a lottery is leximin greatest, by a list of fronts at which a search for a better panel has to stop.

    check_cover.py [FILE ..]     without a file it reads standard input

It prints, as fields parted by TABs,

    valid                             status 0: the lottery is leximin greatest
    refused, stage, reason, ..        status 11: the cover doesn't hold, and who or which line shows it
    input, line, kind                 status 3, on standard error: the text is no cover, and its first faulty line
    read fault, why                   status 7, on standard error: the file can't be read

Of several files each line begins with the file's name, and the status is the greatest of theirs. Wrong words have status 2, and a fault of
writing has 8. docs/FORMATS.md says what a cover is, how it is checked, why that suffices, and what each reason and kind means. This program
follows that page, uses nothing of `sortition`, and isn't proved. It stands on `check_proof.py` beside it, for pools and bundles.
"""
import sys

sys.dont_write_bytecode = True      # (no compiled files beside the tools)
from check_proof import VERSIONS, Lines, Refusal, check_panels, check_settled, main, most_trees, number_of, numbers_of, read_lottery, read_pool


# ---- the text


def cause_of(word, argument, values, stage):
    """Why a front is listed: a word, and the number of a value or of an earlier stage, else 0; or None."""
    most = {b'size': 0, b'value': values, b'house': 0, b'closed': stage - 1, b'cap': 0}.get(word)
    number = None if most is None else number_of(argument, 1 if word in (b'value', b'closed') else 0, most)
    return None if number is None else (word, number)


def front_of(line, pool, stage):
    """A front's cause and counts, or None."""
    word, *fields = line.split(b'\t')
    if word != b'front' or len(fields) < 2:
        return None
    cause = cause_of(fields[0], fields[1], len(pool.all_values()), stage)
    counts = numbers_of(fields[2:], 0, most_trees(len(pool.numbers)))
    return None if cause is None or counts is None or len(counts) > len(pool.numbers) else (cause, counts)


def read_fronts(lines, pool, stages):
    """The fronts of each stage with the numbers of their lines, each list ended by that of the line behind it and None; then the end."""
    lines.refuse(19, lines.take(20) != b'tree\t1')
    trees = []
    for stage in range(1, stages + 1):
        behind = b'close' if stage == stages else b'tree\t%d' % (stage + 1)
        tree = []
        while not tree or tree[-1][1] is not None:
            line = lines.take(20)
            front = None if line == behind else front_of(line, pool, stage)
            lines.refuse(19, line != behind and front is None)
            tree.append((lines.number, front))
        trees.append(tree)
    lines.end(20)
    return trees


# ---- the check


class Class:
    """Volunteers who are alike: who they are, the places of their values, and the least and the greatest number that a panel takes."""

    def __init__(self, members, values, home, standing):
        self.members, self.values, self.home = members, values, home
        self.least = len(members) if standing == 'seated' else 0
        self.most = 0 if standing == 'gone' else len(members)


def values_of(pool):
    """For each volunteer the places of the values."""
    values = [[] for _ in pool.standings]
    for place, (having, _, _) in enumerate(pool.all_values()):
        for i in having:
            values[i].append(place)
    return values


def marks_of(pool, values):
    """For each volunteer a mark that those share who are of equal values and standing. Who shares a household has an own one."""
    alone = {i for members, _, _ in pool.shared_homes() for i in members}
    return [('alone', i) if i in alone else (standing, *values[i]) for i, standing in enumerate(pool.standings)]


def parted(marks, weights):
    """The marks where of those who share one also the weights are equal."""
    numbers = {}
    return [numbers.setdefault(both, len(numbers)) for both in zip(marks, weights)]


def classes_of(pool, values, marks):
    """The classes of those who share a mark, in the order of their first members."""
    homes = {i: home for home, (members, _, _) in enumerate(pool.shared_homes()) for i in members}
    alike = {}
    for i, mark in enumerate(marks):
        alike.setdefault(mark, []).append(i)
    return [Class(members, values[members[0]], homes.get(members[0]), pool.standings[members[0]]) for members in alike.values()]


def applies(pool, classes, stages, cause, counts):
    """Does a front's cause apply? The last of the stages is the one whose cap is to be passed."""
    word, number = cause
    later = classes[len(counts):]
    lack = pool.size - sum(counts)
    reachable = 0 <= lack <= sum(it.most for it in later)
    if word == b'size':
        return not reachable
    if word == b'house':
        taken = [it.home for it, count in zip(classes, counts) if it.home is not None and count]
        return len(taken) != len(set(taken))
    if word == b'value':
        _, least, most = pool.all_values()[number - 1]
        have = sum(count for it, count in zip(classes, counts) if number - 1 in it.values)
        return have > most or have + sum(it.most for it in later if number - 1 in it.values) < least
    cap, weights = stages[-1] if word == b'cap' else stages[number - 1]
    units = sorted((weights[it.members[0]] for it in later for _ in range(it.most)), reverse=True)
    reached = sum(count * weights[it.members[0]] for it, count in zip(classes, counts)) + sum(units[:max(lack, 0)])
    return reachable and (reached <= cap if word == b'cap' else reached < cap)


def next_beginning(classes, counts):
    """How the front after this one begins, or None if this is the last."""
    for i in range(len(counts) - 1, -1, -1):
        if counts[i] > classes[i].least:
            return counts[:i] + [counts[i] - 1]
    return None


def check_fronts(pool, classes, stages, tree):
    """Refuses the first line that isn't the next front in order, or whose cause doesn't apply."""
    beginning = []
    for line, front in tree:
        if front is None:
            if beginning is not None:
                raise Refusal(len(stages), 11, [line])
            return
        cause, counts = front
        filled = None if beginning is None else beginning + [it.most for it in classes[len(beginning):]]
        if filled is None or len(counts) < len(beginning) or counts != filled[:len(counts)]:
            raise Refusal(len(stages), 11, [line])
        if not applies(pool, classes, stages, cause, counts):
            raise Refusal(len(stages), 12, [line])
        beginning = next_beginning(classes, counts)


def check_lottery(pool, total, panels, stages, trees):
    check_panels(pool, total, panels)
    counts = [0] * len(pool.numbers)
    for members, weight in panels:
        for i in members:
            counts[i] += weight
    unsettled = range(len(pool.numbers))
    values = values_of(pool)
    marks = marks_of(pool, values)
    for number, ((cap, weights), tree) in enumerate(zip(stages, trees), 1):
        check_settled(number, weights, counts, unsettled)
        marks = parted(marks, weights)
        check_fronts(pool, classes_of(pool, values, marks), stages[:number], tree)
        for members, _ in panels:
            if sum(weights[i] for i in members) != cap:
                raise Refusal(number, 9, members)
        unsettled = [i for i in unsettled if weights[i] <= 0]
    for i in unsettled:
        raise Refusal(len(stages), 10, [i])


def check(text):
    """The words for a valid cover. Raises a Fault if the text is no cover, and a Refusal if the cover doesn't hold."""
    lines = Lines(text)
    lines.refuse(18, lines.take(20) != b'cover\t1')
    line = lines.take(17)
    version = line[-1:]
    lines.refuse(13, line[:-1] != b'bundle\t' or version not in VERSIONS)
    lines.refuse(1, lines.take(12) != b'pool\t' + version)
    pool = read_pool(lines, version)
    total, panels, stages = read_lottery(lines, len(pool.numbers))
    check_lottery(pool, total, panels, stages, read_fronts(lines, pool, len(stages)))
    return ['valid']


if __name__ == '__main__':
    try:
        sys.exit(main(sys.argv[1:], check, __doc__))
    except KeyboardInterrupt:
        sys.exit(130)
