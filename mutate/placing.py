"""Placing a macroblock, by the words of docs/SCOPE.md, since the Rust has no such call. The definitions are held against this account (cases.py);
the code is held against the list of replay_placing, whose account is another."""

BYTES = {0: 384, 1: 512, 2: 768}  # of a macroblock, by its format: 4:2:0, 4:2:2, 4:4:4
GREY = 7  # what a plane holds beforehand
LARGEST = 16384


def columns(format, n):
    return n if format == 2 else n // 2


def lines(format, n):
    return n // 2 if format == 0 else n


def plane_sides(format, w, h):
    return [w, h] + [columns(format, w), lines(format, h)] * 2


class Case:
    """a picture with the sides and the lengths of its planes, a cell, and how many bytes there are to place; and the number that is answered"""

    def __init__(self, number, format, w, h, col, row, sides=None, counts=None, bytes=None):
        self.number, self.format, self.w, self.h, self.col, self.row = number, format, w, h, col, row
        self.sides = sides or plane_sides(format, w, h)
        s = self.sides
        self.counts = counts or [s[0] * s[1], s[2] * s[3], s[4] * s[5]]
        self.bytes = BYTES[format] if bytes is None else bytes

    def planes(self, byte):
        """the three planes afterwards; byte(k) is what is placed first, second and so on"""
        planes, k = [[GREY] * n for n in self.counts], 0
        if self.number:
            return planes
        for c, plane in enumerate(planes):
            w = self.sides[2 * c]
            bw, bh = (columns(self.format, 16), lines(self.format, 16)) if c else (16, 16)
            for y in range(bh):
                for x in range(bw):
                    plane[(self.row * bh + y) * w + self.col * bw + x] = byte(k)
                    k += 1
        return planes


def accepted():
    """small pictures, of every format, and a cell that is not the first"""
    cells = ((0, 32, 16, 1, 0), (0, 16, 32, 0, 1), (1, 16, 32, 0, 1), (1, 48, 16, 2, 0), (2, 16, 32, 0, 0), (2, 32, 32, 1, 1))
    return [Case(0, *cell) for cell in cells]


def refusals():
    """14, 20 and 18, and beside each what is just accepted"""
    found = []
    for format in (0, 1, 2):
        found.append(Case(0, format, 32, 16, 1, 0))
        found += [Case(0, format, LARGEST, 16, 1023, 0), Case(0, format, 16, LARGEST, 0, 1023)]
        for w, h in ((16400, 16), (16, 16400), (16385, 16), (16, 16385)):
            found.append(Case(14, format, w, h, 0, 0))
        # declared sides over the largest, beside planes that are not
        found += [Case(14, format, 16400, 16, 0, 0, sides=plane_sides(format, 16, 16)), Case(14, format, 16, 16400, 0, 0, sides=plane_sides(format, 16, 16))]
        for w, h in ((0, 16), (16, 0), (24, 16), (16, 24), (17, 16), (16, 31), (8, 16), (16, 8)):
            found.append(Case(20, format, w, h, 0, 0))
        for col, row in ((2, 0), (0, 1), (3, 3), (2**63, 0), (0, 2**63)):
            found.append(Case(20, format, 32, 16, col, row))
        # 240 has one more fifteenth than sixteenths
        found += [Case(20, format, 240, 16, 15, 0), Case(20, format, 16, 240, 0, 15), Case(0, format, 240, 16, 14, 0)]
        for n in (0, BYTES[format] - 1, BYTES[format] + 1, BYTES[(format + 1) % 3]):
            found.append(Case(18, format, 32, 16, 0, 0, bytes=n))
        right = plane_sides(format, 32, 48)
        for k in range(6):
            for number, v in ((20, right[k] + 2), (20, right[k] - 2), (14, LARGEST + 2)):
                sides = list(right)
                sides[k] = v
                found.append(Case(number, format, 32, 48, 0, 0, sides=sides))
        for k in range(3):
            for d in (1, -1):
                counts = [right[0] * right[1], right[2] * right[3], right[4] * right[5]]
                counts[k] += d
                found.append(Case(14, format, 32, 48, 0, 0, counts=counts))
    # the order: 14, 20, 18
    found.append(Case(14, 0, 16400, 24, 0, 0, bytes=1))
    found.append(Case(14, 0, 32, 48, 9, 9, counts=[1, 1, 1], bytes=1))
    found.append(Case(20, 0, 32, 48, 2, 0, bytes=1))
    found.append(Case(20, 0, 24, 16, 0, 0, bytes=1))
    return found
