"""The vector kind: a pen is a set of names, a clock a tuple of 16 counts."""
from replaying.refusals import LIMIT, Refusal


class Vectors:
    seed, no_pen, blank = frozenset(range(16)), frozenset(), (0,) * 16

    @staticmethod
    def fork(pen):
        if len(pen) < 2:
            raise Refusal(11)
        names = sorted(pen)
        half = (len(names) + 1) // 2
        return frozenset(names[:half]), frozenset(names[half:])

    @staticmethod
    def unite(pen, other):
        if pen & other:
            raise Refusal(12)
        return pen | other

    @staticmethod
    def event(pen, clock):
        if not pen:
            raise Refusal(14)
        for name in sorted(pen):
            if clock[name] < LIMIT:
                return clock[:name] + (clock[name] + 1,) + clock[name + 1:]
        raise Refusal(16)

    @staticmethod
    def join(clock, other):
        return tuple(map(max, clock, other))

    @staticmethod
    def covers(clock, other):
        return all(a >= b for a, b in zip(clock, other))

    @staticmethod
    def show_pen(pen):
        return "{" + ",".join(map(str, sorted(pen))) + "}"

    @staticmethod
    def show_clock(clock):
        return "[" + ",".join(map(str, clock)) + "]"
