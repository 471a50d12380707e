"""The tree kind: an id is 0, 1 or (l, r); an event tree a number or (n, l, r)."""
from replaying.refusals import LIMIT, Refusal

NODES = 63
DEPTH = 12


def leaf(t):
    return isinstance(t, int)


def nodes(t):
    return 1 if leaf(t) else 1 + nodes(t[-2]) + nodes(t[-1])


def depth(t):
    return 0 if leaf(t) else 1 + max(depth(t[-2]), depth(t[-1]))


def text(t):
    return str(t) if leaf(t) else "(" + ",".join(text(part) for part in t) + ")"


def norm_id(l, r):
    return l if l == r and leaf(l) else (l, r)


def split(i):
    if i == 1:
        return (1, 0), (0, 1)
    l, r = i
    if l == 0:
        a, b = split(r)
        return (0, a), (0, b)
    if r == 0:
        a, b = split(l)
        return (a, 0), (b, 0)
    return (l, 0), (0, r)


def total(i, j):
    if i == 0:
        return j
    if j == 0:
        return i
    if i == 1 or j == 1:
        raise Refusal(12)
    return norm_id(total(i[0], j[0]), total(i[1], j[1]))


def base(e):
    return e if leaf(e) else e[0]


def plus(e, n):
    return e + n if leaf(e) else (e[0] + n, e[1], e[2])


def norm(n, l, r):
    if leaf(l) and l == r:
        return n + l
    m = min(low(l), low(r))
    return (n + m, plus(l, -m), plus(r, -m))


def low(e):
    return e if leaf(e) else e[0] + min(low(e[1]), low(e[2]))


def top(e):
    return e if leaf(e) else e[0] + max(top(e[1]), top(e[2]))


def value(e, place, size=4096):
    if leaf(e):
        return e
    half = size // 2
    return e[0] + (value(e[1], place, half) if place < half else value(e[2], place - half, half))


def tree_covers(e, f, up_e=0, up_f=0):
    # the values at every place, half by half
    if leaf(e) and leaf(f):
        return e + up_e >= f + up_f
    e_parts = (0, e, e) if leaf(e) else e
    f_parts = (0, f, f) if leaf(f) else f
    return all(tree_covers(e_parts[k], f_parts[k], up_e + e_parts[0], up_f + f_parts[0]) for k in (1, 2))


def join(e, f):
    if leaf(e) and leaf(f):
        return max(e, f)
    if leaf(e):
        e = (e, 0, 0)
    if leaf(f):
        f = (f, 0, 0)
    if e[0] > f[0]:
        e, f = f, e
    d = f[0] - e[0]
    return norm(e[0], join(e[1], plus(f[1], d)), join(e[2], plus(f[2], d)))


def fill(i, e):
    if i == 0:
        return e
    if i == 1:
        return top(e)
    if leaf(e):
        return e
    n, l, r = e
    if i[0] == 1:
        r = fill(i[1], r)
        return norm(n, max(top(l), low(r)), r)
    if i[1] == 1:
        l = fill(i[0], l)
        return norm(n, l, max(top(r), low(l)))
    return norm(n, fill(i[0], l), fill(i[1], r))


def grow(i, e):
    if i == 1:
        return e + 1, 0
    if leaf(e):
        t, c = grow(i, (e, 0, 0))
        return t, c + 1000
    n, l, r = e
    if i[0] == 0:
        t, c = grow(i[1], r)
        return (n, l, t), c + 1
    if i[1] == 0:
        t, c = grow(i[0], l)
        return (n, t, r), c + 1
    (lt, lc), (rt, rc) = grow(i[0], l), grow(i[1], r)
    return ((n, lt, r), lc + 1) if lc < rc else ((n, l, rt), rc + 1)


class Trees:
    seed, no_pen, blank = 1, 0, 0

    @staticmethod
    def fork(pen):
        if pen == 0:
            raise Refusal(11)
        a, b = split(pen)
        if max(depth(a), depth(b)) > DEPTH:
            raise Refusal(11)
        return a, b

    @staticmethod
    def unite(pen, other):
        united = total(pen, other)
        if nodes(united) > NODES:
            raise Refusal(13)
        return united

    @staticmethod
    def event(pen, clock):
        if pen == 0:
            raise Refusal(14)
        new = fill(pen, clock)
        if new == clock:
            new, _ = grow(pen, clock)
        if nodes(new) > NODES:
            raise Refusal(15)
        if top(new) > LIMIT:
            raise Refusal(16)
        return new

    @staticmethod
    def join(clock, other):
        new = join(clock, other)
        if nodes(new) > NODES:
            raise Refusal(15)
        return new

    covers = staticmethod(tree_covers)
    show_pen = show_clock = staticmethod(text)
