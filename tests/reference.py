"""The session of document 01, with the requests of 02, written from the documents alone: plain scans, nothing shared with the proved program.

transcript(data) gives the whole output for an input of any bytes.
"""
import math
import struct

PER_RADIAN = 57.29577951308232


class Bad(Exception):
    """A record that breaks the rules, or that the input cuts short."""


# the number of ones of each number that a substring can be
ONES = [bin(v).count("1") for v in range(65536)]


def bits_that_differ(a, b):
    return bin(a ^ b).count("1")


class Catalogue:
    def __init__(self, w, m):
        self.w = w
        self.q = 64 * w
        self.m = m
        # 02, L6: a query may bring a mask of the bits that count; without one all do
        self.every = (1 << self.q) - 1
        longer = self.q % m
        self.bits = [self.q // m + (1 if z < longer else 0) for z in range(m)]
        self.first = [sum(self.bits[:z]) for z in range(m)]
        self.stars = []
        self.codes = []

    def substring(self, code, z):
        return (code >> self.first[z]) % (1 << self.bits[z])

    def walk(self, query, mask, enough, last):
        """Steps 0, 1, .. up to `last`, until enough(tested, R) holds after step R: buckets opened, entries tested."""
        buckets, tested = 0, set()
        for R in range(last + 1):
            radius, a = divmod(R, self.m)
            key, under = self.substring(query, a), self.substring(mask, a)
            buckets += sum(1 for v in range(1 << self.bits[a]) if ONES[(v ^ key) & under] == radius)
            tested |= {i for i, code in enumerate(self.codes) if ONES[(self.substring(code, a) ^ key) & under] == radius}
            if enough(tested, R):
                break
        return buckets, tested

    def distance(self, i, query, mask):
        return bits_that_differ(self.codes[i] & mask, query & mask)

    def in_order(self, query, mask, entries):
        return sorted((self.distance(i, query, mask), i) for i in entries)

    def nearest(self, query, k, mask=None):
        mask = self.every if mask is None else mask
        n = len(self.codes)
        K = min(k, n)
        if K == 0:
            return [], 0, 0

        def enough(tested, R):
            return sum(1 for i in tested if self.distance(i, query, mask) <= R) >= K

        buckets, tested = self.walk(query, mask, enough, self.q)
        return self.in_order(query, mask, tested)[:K], buckets, len(tested)

    def within(self, query, r, mask=None):
        mask = self.every if mask is None else mask
        if not self.codes:
            return [], 0, 0
        buckets, tested = self.walk(query, mask, lambda tested, R: False, r)
        return [(d, i) for d, i in self.in_order(query, mask, tested) if d <= r], buckets, len(tested)

    def rivals(self, query, mask=None):
        """02, L1: the nearest entry and the nearest with another star number than it, where there are such."""
        mask = self.every if mask is None else mask
        if not self.codes:
            return [], 0, 0

        def two_stars(tested, R):
            return len({self.stars[i] for i in tested if self.distance(i, query, mask) <= R}) >= 2

        buckets, tested = self.walk(query, mask, two_stars, self.q)
        found = self.in_order(query, mask, tested)
        others = [(d, i) for d, i in found if self.stars[i] != self.stars[found[0][1]]]
        return found[:1] + others[:1], buckets, len(tested)


def number(data):
    return int.from_bytes(data, "little")


def listing(catalogue, word, answers, buckets, tested):
    lines = [f"{word} {len(answers)} {buckets} {tested}"]
    return lines + [f"{i} {catalogue.stars[i]} {d}" for d, i in answers]


def nearest(catalogue, body):
    if len(body) != 2 + 8 * catalogue.w:
        raise Bad
    return listing(catalogue, "near", *catalogue.nearest(number(body[2:]), number(body[:2])))


def within(catalogue, body):
    if len(body) != 2 + 8 * catalogue.w:
        raise Bad
    r = number(body[:2])
    if r > catalogue.q:
        return ["refused 4"]
    return listing(catalogue, "within", *catalogue.within(number(body[2:]), r))


def verdict(catalogue, body):
    if len(body) != 4 + 8 * catalogue.w:
        raise Bad
    t, g = number(body[:2]), number(body[2:4])
    if t > catalogue.q or g > catalogue.q:
        return ["refused 4"]
    found, _, _ = catalogue.rivals(number(body[4:]))
    if not found or found[0][0] > t:
        return ["none"]
    d, i = found[0]
    if len(found) == 2 and found[1][0] - d < g:
        e, j = found[1]
        return [f"unsure {catalogue.stars[i]} {catalogue.stars[j]} {d} {e}"]
    return [f"match {catalogue.stars[i]} {d}"]


def column(angle, radians):
    """The column of an angle, or the number of its refusal as a negative number."""
    if math.isnan(angle) or math.isinf(angle):
        return -9
    degrees = angle * PER_RADIAN if radians else angle
    if not -4 <= degrees < 4:
        return -10
    return math.floor(degrees) + 4


def sky(catalogue, body):
    if len(body) % 16 != 1 or body[0] not in (1, 2):
        raise Bad
    code = 0
    for across, up in struct.iter_unpack("<dd", body[1:]):
        place = []
        for angle in (across, up):
            c = column(angle, body[0] == 2)
            if c < 0:
                return [f"refused {-c}"]
            place.append(c)
        code |= 1 << (8 * place[1] + place[0])
    return [f"code {code:016x}"]


QUESTIONS = {3: nearest, 4: within, 5: verdict, 6: sky}


def run(data, lines):
    """Appends the lines for the input, and raises Bad with the record's number where a record is bad."""
    catalogue, asked, at, count = None, False, 0, 0
    while at < len(data):
        count += 1
        try:
            if count > 65535 or len(data) - at < 4:
                raise Bad
            length, kind = struct.unpack_from("<HH", data, at)
            body = data[at + 4 : at + 4 + length]
            if length > 8193 or len(body) < length:
                raise Bad
            at += 4 + length
            if catalogue is None:
                if kind not in (1, 7) or length != 2 or body[0] not in (1, 2):
                    raise Bad
                w, m = body[0], 8 * body[0] if kind == 1 else body[1]
                if kind == 1 and body[1] != 8 or not 8 * w <= m <= 16 * w:
                    raise Bad
                catalogue = Catalogue(w, m)
            elif kind == 2:
                if asked or length != 4 + 8 * catalogue.w or len(catalogue.codes) == 512:
                    raise Bad
                catalogue.stars.append(number(body[:4]))
                catalogue.codes.append(number(body[4:]))
            elif kind in QUESTIONS:
                answer = QUESTIONS[kind](catalogue, body)
                if not asked:
                    asked = True
                    lines.append(f"stars {len(catalogue.stars)}")
                lines.append(f"{count} {answer[0]}")
                lines.extend(answer[1:])
            else:
                raise Bad
        except Bad:
            raise Bad(count) from None
    if catalogue is not None and not asked:
        lines.append(f"stars {len(catalogue.stars)}")


def transcript(data):
    lines = []
    try:
        run(data, lines)
    except Bad as bad:
        lines.append(f"bad {bad.args[0]}")
    return "".join(line + "\n" for line in lines).encode()
