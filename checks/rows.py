#!/usr/bin/env python3
"""Works out what program `compare` prints, by exact fractions and sorting, without any of its code.

usage: checks/rows.py | diff - crates/compare/stdout"""
from fractions import Fraction


def split(length, parts):
    """The row, or (number, part)."""
    fixed = sum(n for kind, n in parts if kind == 'fix')
    rest = length - fixed
    if rest < 0:
        return (31, 0)
    weights = [n for kind, n in parts if kind == 'float']
    if rest > 0 and not weights:
        return (32, 0)
    exact = [Fraction(rest * w, sum(weights)) for w in weights]
    shares = [int(x) for x in exact]
    left = rest - sum(shares)
    order = sorted(range(len(weights)), key=lambda i: (shares[i] - exact[i], i))
    if left > len(weights):
        return (36, 0)
    for i in order[:left]:
        shares[i] += 1
    row, following = [], iter(shares)
    for place, (kind, n) in enumerate(parts, 1):
        n = n if kind == 'fix' else next(following)
        if n < 1:
            return (33, place)
        row.append(n)
    return row


def repeat(length, tile):
    count = max(1, int(Fraction(length, tile) + Fraction(1, 2)))
    if count > 64:
        return (34, 0)
    return split(length, [('float', 1)] * count)


def table():
    fix, flo = (lambda n: ('fix', n)), (lambda n: ('float', n))
    yield [fix(200), flo(1), flo(1), flo(1)]
    yield [flo(1), flo(2), flo(4)]
    yield [flo(1), flo(9)]
    yield [flo(1), flo(1)]
    yield [fix(200), flo(1)]
    yield [fix(200)]
    yield [flo(1)]
    yield [flo(1000)]
    yield [flo(1), fix(100), flo(1), fix(100), flo(1)]
    yield [flo(1000), flo(1)]
    yield [flo(1), flo(1000)]
    yield [fix(1), fix(2), fix(3)]
    yield [fix(1000), fix(999), flo(7)]
    yield [flo(3), flo(3), flo(3), flo(2), flo(2), flo(1)]
    yield [flo(999), flo(998), flo(997)]
    yield [fix(16384), flo(1)]
    yield [flo(2), fix(500), flo(2), flo(1)]
    yield [fix(10), flo(1)] * 4 + [fix(10)]
    for step in (0, 1, 2, 60):
        yield [flo(1 + i * step) for i in range(16)]
    for k in range(22, 30):
        yield [fix(1 + i * k) if i % 3 == 0 else flo(1 + i * 7 % 5) for i in range(k - 20)]


class Random:
    def __init__(self):
        self.state = 20061115

    def up_to(self, n):
        self.state = (self.state * 6364136223846793005 + 1442695040888963407) % 2**64
        return (self.state >> 32) % n + 1

    def size(self, longest):
        if self.up_to(3) == 1:
            return ('fix', self.up_to(longest))
        return ('float', self.up_to(1000))

    def body(self):
        longest = self.up_to(4000)
        return [self.size(longest) for _ in range(self.up_to(16))]


def main():
    tally = {}

    def count(answer):
        number = 0 if isinstance(answer, list) else answer[0]
        tally[number] = tally.get(number, 0) + 1

    for body in table():
        for length in range(1, 2001):
            count(split(length, body))
    for tile in (1, 2, 3, 7, 15, 16, 31, 64, 100, 900, 1999, 16384):
        for length in range(1, 2001):
            count(repeat(length, tile))
    random = Random()
    for _ in range(60000):
        body = random.body()
        count(split(random.up_to(16384), body))
        tile = random.up_to(16384)
        count(repeat(random.up_to(16384), tile))
    print('rows compared:', tally.get(0, 0))
    for number in (31, 32, 33, 34, 36):
        print(f'refused with {number}: {tally.get(number, 0)}')
    print('refused with other: 0')
    print('all agree')


main()
