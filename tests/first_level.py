#!/usr/bin/env python3
"""The level of the first stage of a pool, by `glpsol` of Debian's glpk-utils: with no chance below it, how high can the least chance be?

first_level.py POOL [CHANCES]   prints the level as a decimal; with the output of `chances`, also the least chance there, and whether they agree

The program for `glpsol` has a chance for each class of alike volunteers. It keeps the quotas and the households on the average alone, so its
level is never below that of a lottery over panels. It shares no code and no method with the program.
"""
import os
import subprocess
import sys
import tempfile
from fractions import Fraction


def read(path):
    """The pool's size, its bounds by category and value, and its volunteers: values, household, standing."""
    size, bounds, people, places = 0, [], [], {}
    for line in open(path, encoding='utf-8'):
        words = line.rstrip('\n').split('\t')
        if words[0] == 'size':
            size = int(words[1])
        elif words[0] == 'category':
            bounds.append({})
        elif words[0] == 'value':
            bounds[-1][words[1]] = (int(words[2]), int(words[3]))
        elif words[0] == 'volunteer':
            places[words[1]] = len(people)
            people.append({'values': tuple(words[2:]), 'home': None, 'standing': 'open'})
        elif words[0] == 'household':
            people[places[words[1]]]['home'] = words[2]
        elif words[0] in ('seated', 'gone'):
            people[places[words[1]]]['standing'] = words[0]
        elif words[0] == 'end':
            break
    return size, bounds, people


def classes(people):
    """The classes of open volunteers, each with its number of members. Who shares a household is a class alone."""
    homes = {}
    for person in people:
        homes[person['home']] = homes.get(person['home'], 0) + 1
    found = {}
    for i, person in enumerate(people):
        if person['standing'] == 'open':
            home = person['home'] if person['home'] is not None and homes[person['home']] > 1 else None
            key = (person['values'], home, i if home is not None else None)
            found[key] = found.get(key, 0) + 1
    return list(found.items())


def program_of(path):
    """The program: the greatest `level` that no chance `c0`, `c1` .. is below."""
    size, bounds, people = read(path)
    kinds = classes(people)
    seated = [person for person in people if person['standing'] == 'seated']
    lines = ['Maximize', ' aim: level', 'Subject To']

    def add(belongs, low, top):
        terms = [f'+ {count} c{i}' for i, (key, count) in enumerate(kinds) if belongs(key)]
        if terms:
            lines.extend([' ' + '\n  '.join(terms) + f' >= {low}', ' ' + '\n  '.join(terms) + f' <= {top}'])

    add(lambda key: True, size - len(seated), size - len(seated))
    for place, values in enumerate(bounds):
        for name, (low, top) in values.items():
            fixed = sum(person['values'][place] == name for person in seated)
            add(lambda key: key[0][place] == name, low - fixed, top - fixed)
    taken = {person['home'] for person in seated}
    for home in {key[1] for key, _ in kinds if key[1] is not None}:
        add(lambda key: key[1] == home, 0, 0 if home in taken else 1)
    lines += [f' c{i} - level >= 0' for i in range(len(kinds))]
    lines += ['Bounds'] + [f' 0 <= c{i} <= 1' for i in range(len(kinds))] + ['End', '']
    return '\n'.join(lines)


def level_of(path):
    """The level, or None if the quotas can't even be kept on the average."""
    with tempfile.TemporaryDirectory() as folder:
        program, answer = os.path.join(folder, 'program'), os.path.join(folder, 'answer')
        with open(program, 'w', encoding='utf-8') as file:
            file.write(program_of(path))
        subprocess.run(['glpsol', '--lp', program, '--write', answer], check=True, stdout=subprocess.DEVNULL)
        for line in open(answer, encoding='utf-8'):
            words = line.split()
            # (a basic solution: rows, columns, how it stands by the program and by its dual, and the aim)
            if words[:2] == ['s', 'bas']:
                return float(words[6]) if words[4] == 'f' and words[5] == 'f' else None
    return None


def main():
    level = level_of(sys.argv[1])
    if level is None:
        print('no level')
        return
    print(f'level {level:.9f}')
    if len(sys.argv) > 2:
        chances = [Fraction(line.split('\t')[2]) for line in open(sys.argv[2], encoding='utf-8') if line.startswith('chance\t')]
        _, _, people = read(sys.argv[1])
        least = min(c for c, p in zip(chances, people) if p['standing'] == 'open')
        print(f'least chance {least} {float(least):.9f}', 'as the level' if abs(float(least) - level) < 1e-6 else 'BELOW THE LEVEL')


if __name__ == '__main__':
    main()
