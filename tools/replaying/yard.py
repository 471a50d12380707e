"""A yard at any clock kind: pens by berth, and copies of (clock, payload)."""
from replaying.refusals import Refusal

WORDS = ["equal", "stale", "ahead", "conflict"]


class Yard:
    def __init__(self, kind, berths, payloads):
        if not (1 <= berths <= 16 and 1 <= len(payloads) <= 32):
            raise Refusal(1)
        self.kind, self.b, self.f = kind, berths, len(payloads)
        self.pens = {0: kind.seed}
        self.copies = {b: [(kind.blank, p) for p in payloads] for b in range(berths)}
        self.sealed = False

    def berths(self, *berths):
        for b in berths:
            if b >= self.b:
                raise Refusal(2, b)

    def file(self, f):
        if f >= self.f:
            raise Refusal(3, None, f)

    def two(self, a, b):
        if a == b:
            raise Refusal(4, a)

    def in_use(self, *berths):
        for b in berths:
            if b not in self.pens:
                raise Refusal(5, b)

    def two_in_use(self, a, b):
        self.berths(a, b)
        self.two(a, b)
        self.in_use(a, b)

    def verdicts(self, a, b):
        return [self.verdict(a, b, f) for f in range(self.f)]

    def verdict(self, a, b, f):
        x, y = self.copies[a][f][0], self.copies[b][f][0]
        c, d = self.kind.covers(x, y), self.kind.covers(y, x)
        return 0 if c and d else 2 if c else 1 if d else 3

    def placed(self, b, f, call):
        try:
            return call()
        except Refusal as refusal:
            raise Refusal(refusal.cause, b, f)

    def fork(self, a, b):
        self.berths(a, b)
        self.two(a, b)
        self.in_use(a)
        if b in self.pens:
            raise Refusal(5, b)
        self.pens[a], self.pens[b] = self.placed(a, None, lambda: self.kind.fork(self.pens[a]))
        self.copies[b] = list(self.copies[a])
        return "ok"

    def edit(self, a, f, payload):
        self.berths(a)
        self.file(f)
        self.in_use(a)
        clock = self.placed(a, f, lambda: self.kind.event(self.pens[a], self.copies[a][f][0]))
        self.copies[a][f] = (clock, payload)
        return "ok"

    def judge(self, a, b, f):
        self.berths(a, b)
        self.file(f)
        self.in_use(a, b)
        return WORDS[self.verdict(a, b, f)]

    def report(self, a, b):
        self.berths(a, b)
        self.in_use(a, b)
        seen = self.verdicts(a, b)
        twins = sum(v == 3 and self.copies[a][f][1] == self.copies[b][f][1] for f, v in enumerate(seen))
        counts = " ".join(f"{word} {seen.count(v)}" for v, word in enumerate(WORDS))
        return " ".join(map(str, seen)) + f" | {counts} twins {twins}"

    def pull(self, a, b):
        self.two_in_use(a, b)
        seen = self.verdicts(b, a)
        self.take(a, b, seen)
        return " ".join(map(str, seen)) + f" | taken {seen.count(1)} conflict {seen.count(3)}"

    def take(self, a, b, seen):
        for f, v in enumerate(seen):
            if v == 1:
                self.copies[b][f] = self.copies[a][f]

    def settle(self, a, b, f, payload):
        self.berths(a, b)
        self.file(f)
        self.two(a, b)
        self.in_use(a, b)
        if self.verdict(b, a, f) != 3:
            raise Refusal(7, b, f)
        both = self.placed(b, f, lambda: self.kind.join(self.copies[b][f][0], self.copies[a][f][0]))
        clock = self.placed(b, f, lambda: self.kind.event(self.pens[b], both))
        self.copies[b][f] = (clock, payload)
        return "ok"

    def retire(self, a, b):
        self.two_in_use(a, b)
        seen = self.verdicts(b, a)
        if 3 in seen:
            raise Refusal(8, b, seen.index(3))
        pen = self.placed(b, None, lambda: self.kind.unite(self.pens[a], self.pens[b]))
        self.take(a, b, seen)
        self.pens[b] = pen
        del self.pens[a]
        return "ok"

    def drop(self, a):
        self.berths(a)
        self.in_use(a)
        del self.pens[a]
        return "ok"

    def seal(self):
        self.sealed = True
        return "ok"

    def show(self, a, f):
        self.judge(a, a, f)
        return self.kind.show_pen(self.pens[a]) + " " + self.kind.show_clock(self.copies[a][f][0])
