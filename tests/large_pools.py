#!/usr/bin/env python3
"""Realistic pools of any size, for figures of `prove`.

large_pools.py SEED VOLUNTEERS SIZE CATEGORIES SLACK [HOUSED]   prints a pool
large_pools.py dropouts PERCENT SEED < PROOF                    prints the pool after dropouts of a panel that the proof's lottery draws
large_pools.py set FOLDER                                       writes the pools of the figures into FOLDER

The population has fixed shares per value. A hidden panel of SIZE members has the population's counts in each category, with correlated
answers, and is put at random places of the pool. All others chose to come: they are drawn from the population and kept with a chance that
rises with education, age and interest in the theme. Each value's bounds are the hidden panel's count less and plus SLACK. HOUSED percent of
the volunteers (10 if left out) are in households of two or three.
"""
import math
import os
import random
import sys

# name, values, shares of the population, loadings on three hidden factors (schooling, years, place), pull on who comes
CATEGORIES = [
    ('gender', ['female', 'male'], [0.51, 0.49], (0.0, 0.1, 0.0), 0.1),
    ('age', ['16-29', '30-44', '45-59', '60-74', '75+'], [0.22, 0.25, 0.24, 0.19, 0.10], (-0.2, 0.95, 0.1), 1.2),
    ('area', ['centre', 'suburb', 'north', 'south', 'east', 'west', 'coast', 'hills'],
     [0.22, 0.19, 0.14, 0.12, 0.11, 0.09, 0.07, 0.06], (-0.25, 0.15, 0.8), -0.5),
    ('education', ['none', 'school', 'degree'], [0.20, 0.46, 0.34], (0.9, -0.25, -0.1), 1.6),
    ('ethnicity', ['black', 'asian', 'mixed', 'majority'], [0.04, 0.09, 0.05, 0.82], (0.0, 0.3, 0.5), 0.7),
    ('attitude', ['against', 'unsure', 'for'], [0.26, 0.42, 0.32], (0.5, -0.2, -0.2), 1.1),
    ('tenure', ['rent', 'own'], [0.37, 0.63], (0.2, 0.6, 0.3), 0.4),
]


def normal(rng):
    """By Box and Muller from rng.random alone, so that the pools stay the same under later Pythons."""
    return math.sqrt(-2 * math.log(1 - rng.random())) * math.cos(2 * math.pi * rng.random())


def rounded(shares, size):
    """Counts by largest remainders."""
    exact = [share * size / sum(shares) for share in shares]
    counts = [int(number) for number in exact]
    for i in sorted(range(len(shares)), key=lambda i: (counts[i] - exact[i], i))[:size - sum(counts)]:
        counts[i] += 1
    return counts


def scores(rng, kinds):
    hidden = [normal(rng) for _ in range(3)]
    found = []
    for _, _, _, load, _ in kinds:
        own = math.sqrt(max(0.05, 1 - sum(a * a for a in load)))
        found.append(sum(a * b for a, b in zip(load, hidden)) + own * normal(rng))
    return found


def person(rng, kinds):
    """A value per category, by the quantile of its score."""
    values = []
    for (_, _, shares, _, _), score in zip(kinds, scores(rng, kinds)):
        quantile, value, reached = 0.5 * (1 + math.erf(score / math.sqrt(2))), 0, shares[0]
        while value + 1 < len(shares) and quantile > reached:
            value += 1
            reached += shares[value]
        values.append(value)
    return values


def coming(kinds, values):
    """The logarithm of the odds that a person comes."""
    odds = 0.0
    for (_, names, _, _, pull), value in zip(kinds, values):
        part = value / (len(names) - 1)
        odds += pull * (part - 1) if pull > 0 else pull * part
    return odds


def realistic(seed, volunteers, size, categories, slack, housed=10):
    rng = random.Random(seed)
    kinds = CATEGORIES[:categories]
    hidden = [[0] * len(kinds) for _ in range(size)]
    points = [scores(rng, kinds) for _ in range(size)]
    counts = []
    for c, (_, _, shares, _, _) in enumerate(kinds):
        left, value = rounded(shares, size), 0
        counts.append(list(left))
        for i in sorted(range(size), key=lambda i: points[i][c]):
            while left[value] == 0:
                value += 1
            hidden[i][c] = value
            left[value] -= 1
    people = list(hidden)
    while len(people) < volunteers:
        values = person(rng, kinds)
        if rng.random() < math.exp(coming(kinds, values)):
            people.append(values)
    for i in range(volunteers - 1, 0, -1):
        j = int(rng.random() * (i + 1))
        people[i], people[j] = people[j], people[i]
    homes = households(rng, volunteers, housed)
    version = 3 if volunteers > 400 or size > 200 else 2 if homes else 1
    lines = ['pool\t%d' % version, 'size\t%d' % size]
    for (name, names, _, _, _), own in zip(kinds, counts):
        lines.append('category\t' + name)
        lines += ['value\t%s\t%d\t%d' % (value, max(0, count - slack), count + slack) for value, count in zip(names, own)]
    for i, values in enumerate(people):
        lines.append('\t'.join(['volunteer', 'v%d' % (i + 1)] + [kinds[c][1][value] for c, value in enumerate(values)]))
    lines += ['household\tv%d\th%d' % (i + 1, homes[i]) for i in sorted(homes)]
    return '\n'.join(lines + ['end', ''])


def households(rng, volunteers, housed):
    left = list(range(volunteers))
    for i in range(volunteers - 1, 0, -1):
        j = int(rng.random() * (i + 1))
        left[i], left[j] = left[j], left[i]
    left = left[:volunteers * housed // 100]
    homes, home = {}, 0
    while len(left) > 1:
        home += 1
        for _ in range(3 if rng.random() < 0.25 and len(left) > 2 else 2):
            homes[left.pop()] = home
    return homes


def dropouts(proof, percent, seed):
    """The pool of a proof after a draw, of whose panel `percent` percent are gone and the others are seated."""
    lines = proof.split('\n')
    pool = lines[2:lines.index('end')]
    ids = [line.split('\t')[1] for line in pool if line.startswith('volunteer\t')]
    panels = [line.split('\t')[1:] for line in lines if line.startswith('panel\t')]
    rng = random.Random(seed)
    ticket = rng.random() * sum(int(panel[0]) for panel in panels)
    for panel in panels:
        ticket -= int(panel[0])
        if ticket <= 0:
            break
    members = [int(number) for number in panel[1:]]
    gone = set(rng.sample(members, max(1, len(members) * percent // 100)))
    pool += ['%s\t%s' % ('gone' if i in gone else 'seated', ids[i]) for i in sorted(members)]
    return '\n'.join(pool + ['end', ''])


def pools():
    """Name and arguments of the pools of the figures: ten of each number of volunteers."""
    for volunteers in (500, 1000, 2000, 4000):
        for number in range(10):
            size = (50, 75, 100, 150, 200)[number % 5]
            categories, slack = 6 + number % 2, 1 + number // 5
            name = 'n%04d-k%03d-c%d-w%d' % (volunteers, size, categories, slack)
            yield name, (volunteers * 10 + number, volunteers, size, categories, slack)


def main():
    words = sys.argv[1:]
    if words[:1] == ['set'] and len(words) == 2:
        for name, arguments in pools():
            with open(os.path.join(words[1], name + '.pool'), 'w', encoding='utf-8', newline='') as file:
                file.write(realistic(*arguments))
    elif words[:1] == ['dropouts'] and len(words) == 3:
        sys.stdout.write(dropouts(sys.stdin.read(), int(words[1]), int(words[2])))
    elif len(words) in (5, 6) and all(word.isdigit() for word in words):
        sys.stdout.write(realistic(*map(int, words)))
    else:
        sys.exit(__doc__)


if __name__ == '__main__':
    main()
