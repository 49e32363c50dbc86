#!/usr/bin/env python3
"""The algorithm of `markov` in plain integers, written apart from the program: where the rows of overflows come from.

It completes along the list of each column and then the standard list, reduces tails, and chooses essential moves weight by weight,
as docs/DEFINITIONS.md says. Where several steps are free it takes what the program takes: the positive part first, and the first
place whose lead divides. Without BOUND nothing leaves the range.

Usage: bench/plain.py [--skips] [--free] [--journal] PROJECT [BOUND]
With --skips a pair of disjoint leads isn't reduced, nor one that a third move settles. With --free no list is completed for a
column that a row shows to be saturated once the columns of its negative part are. With --journal it prints how each pair of
each phase was settled, and how many there are, in place of the moves. Else it prints the essential moves as PROJECT.mar has them; or where an entry leaves the range: the place, the pair or index, by which move,
and the line that the program says. The grading is that of PROJECT.grade, or all ones.
"""

import sys


class Overflow(Exception):
    pass


def positive(v):
    return tuple(max(a, 0) for a in v)


def negative(v):
    return tuple(max(-a, 0) for a in v)


def divides(lead, part):
    return all(a <= b for a, b in zip(lead, part))


def weight(grading, v):
    return sum(a * b for a, b in zip(grading, v))


def oriented(priority, v):
    for column in priority:
        if v[column]:
            return v if v[column] < 0 else tuple(-a for a in v)


def lists(columns, left=None):
    """For each column that is left its list, and then the standard list."""
    standard = list(range(columns - 1, -1, -1))
    return [[c] + [d for d in standard if d != c] for c in (range(columns) if left is None else left)] + [standard]


def left_columns(rows, columns):
    """The columns that no row frees: each row is tried as the standard list orients it, and then its negative."""
    left = set(range(columns))
    for row in rows:
        turned = oriented(lists(columns)[-1], row)
        for v in (turned, tuple(-a for a in turned)):
            if all(c in left for c in range(columns) if v[c] < 0):
                left -= {c for c in range(columns) if v[c] > 0}
    return sorted(left)


def disjoint(a, b):
    return not any(map(min, a, b))


def chain(leads, settled, i, j):
    """The least third move by which the pair is settled, or none."""
    lcm = tuple(map(max, leads[i], leads[j]))
    for k in range(len(leads)):
        if k not in (i, j) and divides(leads[k], lcm) and {tuple(sorted((i, k))), tuple(sorted((j, k)))} <= settled:
            return k


class Run:
    def __init__(self, bound, skips=False, free=False):
        self.bound, self.skips, self.free, self.place, self.journals = bound, skips, free, None, []

    def less(self, u, times, v, pair, by):
        for column, (a, b) in enumerate(zip(u, v)):
            if self.bound is not None and abs(a - times * b) > self.bound:
                line = f"markov: overflow in column {column + 1}: {a} - ({times}) * ({b})"
                raise Overflow(f"{self.place}, pair {pair}, by {by}: {line}")
        return tuple(a - times * b for a, b in zip(u, v))

    def step(self, moves, r, part, sign, pair):
        """One step on a part of `r`, or none."""
        for place, m in enumerate(moves):
            lead = positive(m)
            if divides(lead, part):
                times = min(b // a for a, b in zip(lead, part) if a)
                return self.less(r, sign * times, m, pair, place)

    def remainder(self, moves, i, j):
        r = self.less(moves[j], 1, moves[i], (i, j), None)
        while any(r):
            after = self.step(moves, r, positive(r), 1, (i, j))
            if after is None:
                after = self.step(moves, r, negative(r), -1, (i, j))
            if after is None:
                return r
            r = after

    def settle(self, priority, moves, settled, i, j):
        """How the pair is settled: by its leads, through a third move, by zero or by the move of a place."""
        leads = [positive(m) for m in moves]
        if self.skips and disjoint(leads[i], leads[j]):
            return "Coprime"
        third = chain(leads, settled, i, j) if self.skips else None
        if third is not None:
            return f"Chain {third}"
        r = self.remainder(moves, i, j)
        if r is None:
            return "Zero"
        moves.append(oriented(priority, r))
        return f"Place {len(moves) - 1}"

    def complete(self, priority, moves):
        settled, j = set(), 1
        self.journals.append([])
        while j < len(moves):
            for i in range(j):
                self.journals[-1].append(((i, j), self.settle(priority, moves, settled, i, j)))
                settled.add((i, j))
            j += 1
        leads = [positive(m) for m in moves]
        return [m for i, m in enumerate(moves) if not any(
            k != i and divides(leads[k], leads[i]) and (k < i or leads[k] != leads[i]) for k in range(len(moves)))]

    def reduced(self, moves):
        for index, m in enumerate(moves):
            self.place = f"tail {index}"
            after = m
            while after is not None:
                m = after
                after = self.step(moves, m, negative(m), -1, (index, index))
            yield m

    def links(self, lower, grading, heavy):
        """What links two vectors of a fibre of this weight."""
        found = []
        for j in range(len(lower)):
            for i in range(j):
                a, b = positive(lower[i]), positive(lower[j])
                if disjoint(a, b) or weight(grading, map(max, a, b)) != heavy:
                    continue
                r = self.remainder(lower, i, j)
                while r is not None and any(r):
                    ends = [(s, m) for m in found for s, part in ((1, positive(r)), (-1, negative(r))) if positive(m) == part]
                    if not ends:
                        found.append(oriented(lists(len(r))[-1], r))
                        break
                    sign, m = ends[0]
                    r = tuple(x - sign * y for x, y in zip(r, m))
        return {positive(m) for m in found}

    def solve(self, rows, grading):
        moves = [r for r in rows if any(r)]
        left = left_columns(moves, len(grading)) if self.free else None
        for phase, priority in enumerate(lists(len(grading), left)):
            self.place = f"phase {phase}"
            moves = self.complete(priority, [oriented(priority, m) for m in moves])
        order = lambda m: (weight(grading, positive(m)), *([-a for a in reversed(p)] for p in (positive(m), negative(m))))
        moves = sorted(self.reduced(moves), key=order)
        self.place = "weight"
        weights = [weight(grading, positive(m)) for m in moves]
        chosen = []
        for heavy in sorted(set(weights)):
            linked = self.links([m for m, w in zip(moves, weights) if w < heavy], grading, heavy)
            chosen += [m for m, w in zip(moves, weights) if w == heavy and positive(m) not in linked]
        return chosen


def table(name):
    numbers = [int(word) for word in open(name).read().split()]
    rows, columns = numbers[:2]
    return columns, [tuple(numbers[2 + columns * r:2 + columns * (r + 1)]) for r in range(rows)]


def main():
    options = [word for word in sys.argv[1:] if word in ("--skips", "--free", "--journal")]
    project, *bound = [word for word in sys.argv[1:] if word not in options]
    columns, rows = table(project + ".lat")
    try:
        grading = table(project + ".grade")[1][0]
    except FileNotFoundError:
        grading = (1,) * columns
    run = Run(int(bound[0]) if bound else None, "--skips" in options, "--free" in options)
    try:
        moves = run.solve(rows, grading)
    except Overflow as overflow:
        print(overflow)
        return
    if "--journal" in options:
        for phase, journal in enumerate(run.journals):
            print(f"phase {phase}, {len(journal)} pairs:", *(f"{pair} {how};" for pair, how in journal))
        print("pairs in all:", sum(map(len, run.journals)))
        return
    print(len(moves), columns)
    for m in moves:
        print(*m)


if __name__ == "__main__":
    main()
