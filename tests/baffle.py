"""Prints what examples/baffle.c has to print, by the plain scans of reference.py: the same sky, the same shot, with and without the mask."""
from reference import Catalogue, column

FIELDS, STARS, SHOWN, REACH, GAP = 60, 14, 40, 4, 3
BAFFLE = ["..####..", ".######.", *["########"] * 4, ".######.", "..####.."]
state = 8


def chance():
    global state
    state = (state * 6364136223846793005 + 1442695040888963407) % 2**64
    return (state >> 11) / 2**53


def star():
    across = 8 * chance() - 4
    return across, 8 * chance() - 4


def cell(across, up):
    return column(up, False), column(across, False)


def code_of(cells):
    return sum(1 << (8 * row + column) for row, column in set(cells))


def ask(query, mask=None):
    [(d, i)], buckets, tested = catalogue.nearest(query, 1, mask)
    print(f"    nearest: field {catalogue.stars[i]} at distance {d} ({buckets} buckets, {tested} tested)")
    [(d, i), (e, j)], buckets, tested = catalogue.rivals(query, mask)
    answer = f"field {catalogue.stars[i]} at distance {d}"
    if d > REACH:
        answer = "none"
    elif e - d < GAP:
        answer = f"unsure, {answer} or field {catalogue.stars[j]} at {e}"
    print(f"    verdict: {answer} ({buckets} buckets, {tested} tested)")


fields = [[cell(*star()) for _ in range(STARS)] for _ in range(FIELDS)]
left = [(row, column) for row in range(8) for column in range(8) if BAFFLE[7 - row][column] == "#"]
shot = [at for at in fields[SHOWN][:-1] if at in left]
catalogue = Catalogue(1, 8)
catalogue.stars = [1000 + f for f in range(FIELDS)]
catalogue.codes = [code_of(field) for field in fields]
print(f"field {1000 + SHOWN}, every cell counts")
ask(code_of(shot))
print(f"field {1000 + SHOWN}, only the cells that the baffle leaves count")
ask(code_of(shot), code_of(left))
