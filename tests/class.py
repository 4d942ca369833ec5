"""Prints what examples/class.c has to print, by the plain scans of reference.py: the same sky, the same shots, each asked alone."""
from reference import Catalogue, column

FIELDS, STARS, GROUPS, MIXED_UP = 60, 14, 30, 13
state = 30


def chance():
    global state
    state = (state * 6364136223846793005 + 1442695040888963407) % 2**64
    return (state >> 11) / 2**53


def star():
    across = 8 * chance() - 4
    return across, 8 * chance() - 4


def code_of(field):
    code = 0
    for across, up in field:
        code |= 1 << (8 * column(up, False) + column(across, False))
    return code


def shot(group):
    field = fields[int(FIELDS * chance())]
    seen = field[: STARS - group % 5] + [star() for _ in range(group % 3)]
    return [(up, across) for across, up in seen] if group == MIXED_UP else seen


fields = [[star() for _ in range(STARS)] for _ in range(FIELDS)]
catalogue = Catalogue(1, 8)
catalogue.stars = [1000 + f for f in range(FIELDS)]
catalogue.codes = [code_of(field) for field in fields]
print("group field distance buckets")
for group in range(1, GROUPS + 1):
    [(d, i)], buckets, _ = catalogue.nearest(code_of(shot(group)), 1)
    print(f"{group:5} {catalogue.stars[i]:5} {d:8} {buckets:7}")
