"""Prints what examples/simulator.c has to print, by the plain scans of reference.py: the same sky, the same questions."""
from reference import Catalogue, column

FIELDS, TWICE, SHORT, LONG, REACH, GAP = 60, 40, 14, 16, 6, 3
state = 2014


def chance():
    global state
    state = (state * 6364136223846793005 + 1442695040888963407) % 2**64
    return (state >> 11) / 2**53


def code_of(field):
    code = 0
    for across, up in field:
        code |= 1 << (8 * column(up, False) + column(across, False))
    return code


def nearest_two(catalogue, what, field):
    found, buckets, tested = catalogue.nearest(code_of(field), 2)
    answers = ", ".join(f"entry {i} of field {catalogue.stars[i]} at distance {d}" for d, i in found)
    print(f"{what}: {answers} ({buckets} buckets, {tested} tested)")


def ask(catalogue, what, field):
    query = code_of(field)
    found, buckets, tested = catalogue.rivals(query)
    (d, i), (e, j) = found
    if d > REACH:
        found, buckets, tested = catalogue.nearest(query, 1)
        answer = f"none, the nearest field is at distance {found[0][0]}"
    elif e - d < GAP:
        answer = f"unsure, field {catalogue.stars[i]} at distance {d} or field {catalogue.stars[j]} at {e}"
    else:
        answer = f"field {catalogue.stars[i]} at distance {d}"
    print(f"{what}: {answer} ({buckets} buckets, {tested} tested)")


fields = [[(8 * chance() - 4, 8 * chance() - 4) for _ in range(LONG)] for _ in range(FIELDS)]
catalogue = Catalogue(1, 8)
catalogue.stars = [1000 + f for f in [*range(FIELDS), *range(TWICE)]]
catalogue.codes = [code_of(field[:SHORT]) for field in fields] + [code_of(field) for field in fields[:TWICE]]
shot = fields[7][: SHORT + 1]
nearest_two(catalogue, "field 1007, nearest two", shot)
ask(catalogue, "field 1007, verdict", shot)
ask(catalogue, "field 1007, two stars lost", shot[: SHORT - 2])
ask(catalogue, "field 1007, across and up exchanged", [(up, across) for across, up in shot[:SHORT]])
print(f"a star outside the field: refused {-column(9.0, False)} at star 0")
