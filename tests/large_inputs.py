#!/usr/bin/env python3
"""Texts at the limits of version 3, for tests/hostile: 4,000 volunteers of whom no two are alike, so that a search goes through 4,000 classes.

large_inputs.py     prints the name and the length of each text
"""
import random

MOST = 16777216
VOLUNTEERS = 4000


def name(number, mark, width=0):
    return f'{mark}{number:04}'.ljust(width, 'n')


def pool(categories=20, values=50, size=1000, least=0, most=999, width=0, more=()):
    """A pool of 4,000 volunteers. With 20 categories of 50 values that are drawn by chance no two have equal ones."""
    chosen, lines = random.Random(1), ['pool\t3', f'size\t{size}']
    for category in range(categories):
        lines.append('category\t' + name(category, 'c', width))
        lines += [f'value\t{name(value, "v", width)}\t{least}\t{most}' for value in range(values)]
    for volunteer in range(VOLUNTEERS):
        own = (name(chosen.randrange(values), 'v', width) for _ in range(categories))
        lines.append('\t'.join(['volunteer', name(volunteer, 'p', width), *own]))
    return '\n'.join([*lines, *more, 'end', '']).encode()


def women(size=2):
    """A pool whose volunteers are women but for the second one, and whose panels have at most one woman. No two are alike."""
    lines = ['pool\t3', f'size\t{size}', 'category\tgender', 'value\tfemale\t0\t1', 'value\tmale\t0\t999']
    for category in 'ab':
        lines += [f'category\t{category}', *(f'value\t{category}{value}\t0\t999' for value in range(50))]
    lines += ['category\tc', 'value\tc0\t0\t999', 'value\tc1\t0\t999']
    for i in range(VOLUNTEERS):
        gender = 'male' if i == 1 else 'female'
        lines.append('\t'.join(['volunteer', f'p{i}', gender, f'a{i % 50}', f'b{i // 50 % 50}', f'c{i // 2500}']))
    return '\n'.join([*lines, 'end', '']).encode()


def homes():
    """Everybody in a household of two."""
    return [f'household\t{name(i, "p")}\th{i // 2}' for i in range(VOLUNTEERS)]


def standings():
    return [f'{"gone" if i % 3 else "seated"}\t{name(i, "p")}' for i in range(0, VOLUNTEERS, 2)]


def line(*fields):
    return '\t'.join(map(str, fields)).encode() + b'\n'


def bundle(its_pool, panels, stages):
    """A bundle of a pool, of panels of weight 1, and of stages, each a cap with the weights."""
    rows = [line('panel', 1, *panel) for panel in panels]
    return b'bundle\t3\n' + its_pool + line('total', len(rows)) + b''.join(rows) + b''.join(line('stage', *stage) for stage in stages) + b'done\n'


def bundles():
    """Bundles of 4,000 classes: a right one; two whose first cap is too low, so that a search goes down to the last class; and one over which a
    search takes a woman, and then goes through all others."""
    for size in (1, 1000):
        its_pool = pool(size=size)
        panels = [range(first, first + size) for first in range(0, VOLUNTEERS, size)]
        if size == 1000:
            yield 'a right bundle', bundle(its_pool, panels, [[size] + [1] * VOLUNTEERS])
        yield f'a cap that is too low, panels of {size}', bundle(its_pool, panels, [[size - 1] + [1] * VOLUNTEERS])
    weights = [int(i != 1) for i in range(VOLUNTEERS)]
    panels = [(min(i, 1), max(i, 1)) for i in range(VOLUNTEERS) if i != 1]
    yield 'one woman of 3,999', bundle(women(), panels, [[1] + weights, [0, *(1 - weight for weight in weights)]])
    yield 'a household in each', bundle(pool(more=homes()), [range(0, 2000, 2)], [[999] + [1] * VOLUNTEERS])


def long_cover():
    """A cover with many fronts of up to 4,000 counts: the first woman alone, and then none of the others up to somebody."""
    text = b'cover\t1\n' + next(text for what, text in bundles() if what.startswith('one woman')) + b'tree\t1\n'
    lines, length = [], len(text)
    for count in range(2, VOLUNTEERS):
        cause = ('cap', 0) if count == 2 else ('value', 1)
        lines.append(line('front', *cause, 1, *[0] * (count - 2), 1))
        length += len(lines[-1])
        if length > MOST - 3 * VOLUNTEERS:
            break
    return text + b''.join(lines) + b'tree\t2\nclose\n'


def no_panel(its_pool, *lines):
    return b'proof\t1\n' + its_pool + b'none\ntree\t0\n' + b''.join(lines) + b'close\n'


def proofs():
    """Proofs at the limits: a path of all volunteers; a stage for as many as an input has room for; and leaves of 9,001 pairs."""
    split, bound = [line('split', i) for i in range(VOLUNTEERS)], [line('bound', 1)] * (VOLUNTEERS + 1)
    yield 'a path of 4,000', no_panel(pool(0, 0), *split, *bound)
    stages, trees = [], []
    everybody = [f'{"seated" if i % 4 == 0 else "gone"}\t{name(i, "p")}' for i in range(VOLUNTEERS)]
    its_pool = pool(0, 0, more=everybody)
    for number in range(1, 2000):
        seated = number <= 1000
        volunteer = 4 * (number - 1) if seated else number - 1000 + (number - 1001) // 3
        stages.append([int(seated)] + [int(i == volunteer) for i in range(VOLUNTEERS)])
        trees.append(line('tree', number) + line('bound', 1))
    # (those who are gone have the least count, so the first stages would have to be theirs: the proof is refused at once or late, but is read whole)
    whole = bundle(its_pool, [range(0, VOLUNTEERS, 4)], stages[1000:] + stages[:1000])
    yield '1,999 stages', b'proof\t1\n' + whole + b''.join(trees) + b'close\n'
    pairs = [field for number in range(9001) for field in (number, 2 ** 56)]
    leaf = line('bound', 1, *pairs)
    head = no_panel(pool(0, 0))
    yield 'leaves of 9,001 pairs', no_panel(pool(0, 0), *[leaf] * ((MOST - len(head)) // len(leaf)))


def pools():
    """Pools for the commands that read them, each with its name."""
    yield '4,000 classes', pool()
    yield '4,000 classes, panels of one', pool(size=1)
    yield '4,000 classes, tight', pool(most=23)
    yield '4,000 classes that no panel meets', pool(most=7)
    yield '4,000 classes in households', pool(more=homes())
    yield '4,000 classes with standings', pool(more=standings())
    yield 'one woman of 3,999', women()
    yield 'a pool of the greatest length', pool(width=188)


def texts():
    for texts_of in (pools, bundles, proofs):
        for what, text in texts_of():
            yield what, text
    yield 'a cover', long_cover()


if __name__ == '__main__':
    for what, text in texts():
        print(f'{what}: {len(text):,} bytes' + (', beyond the limit' if len(text) > MOST else ''))
