#!/usr/bin/env python3
"""Cases for the program `key_cases` and the answers it must give, from an implementation of its own.

    python3 tests/key_cases.py crates/key_cases/stdin crates/key_cases/stdout
"""
import random
import sys

WORD = 2**32
random.seed(19950901)


def signed(w):
    return w - WORD if w >= WORD // 2 else w


def word(z):
    return z % WORD


class Interval:
    """Python ranges of whole numbers, as (low, high)."""

    name, questions = "interval", ("meets", "inside")

    @staticmethod
    def read(w):
        if w[0] > w[1]:
            return "refused 21 0"
        for place in (2, 3):
            if w[place]:
                return f"refused 22 {place}"
        return (w[0], w[1])

    words = staticmethod(lambda k: [k[0], k[1], 0, 0])
    covers = staticmethod(lambda a, b: a[0] <= b[0] and b[1] <= a[1])
    union = staticmethod(lambda a, b: (min(a[0], b[0]), max(a[1], b[1])))

    @classmethod
    def growth(cls, a, b):
        u = cls.union(a, b)
        return (u[1] - u[0]) - (a[1] - a[0])

    @classmethod
    def ask(cls, question, a, w):
        q = cls.read(w)
        if isinstance(q, str):
            return q
        touch = max(a[0], q[0]) <= min(a[1], q[1])
        return (touch, touch) if question == "meets" else (cls.covers(q, a), touch)

    @classmethod
    def split(cls, ks):
        ranked = sorted(range(len(ks)), key=lambda i: (ks[i][0], i))
        stay = set(ranked[: len(ks) // 2])
        return "".join("s" if i in stay else "g" for i in range(len(ks)))


class Rectangle:
    """Corners as (left, bottom, right, top)."""

    name, questions = "rectangle", ("meets", "inside", "point")

    @staticmethod
    def read(w):
        left, bottom, right, top = map(signed, w)
        if left > right:
            return "refused 21 0"
        if bottom > top:
            return "refused 21 1"
        return (left, bottom, right, top)

    words = staticmethod(lambda k: [word(z) for z in k])
    covers = staticmethod(lambda a, b: a[0] <= b[0] and a[1] <= b[1] and b[2] <= a[2] and b[3] <= a[3])
    union = staticmethod(lambda a, b: (min(a[0], b[0]), min(a[1], b[1]), max(a[2], b[2]), max(a[3], b[3])))
    area = staticmethod(lambda a: (a[2] - a[0]) * (a[3] - a[1]))

    @classmethod
    def growth(cls, a, b):
        return cls.area(cls.union(a, b)) - cls.area(a)

    @classmethod
    def ask(cls, question, a, w):
        if question == "point":
            for place in (2, 3):
                if w[place]:
                    return f"refused 22 {place}"
            x, y = signed(w[0]), signed(w[1])
            holds = a[0] <= x <= a[2] and a[1] <= y <= a[3]
            return (holds, holds)
        q = cls.read(w)
        if isinstance(q, str):
            return q
        touch = max(a[0], q[0]) <= min(a[2], q[2]) and max(a[1], q[1]) <= min(a[3], q[3])
        return (touch, touch) if question == "meets" else (cls.covers(q, a), touch)


class Set:
    """Python sets of members."""

    name, questions = "set", ("all", "shares", "within")

    @staticmethod
    def members(w):
        return frozenset(k for k in range(128) if w[k // 32] >> (k % 32) & 1)

    @classmethod
    def read(cls, w):
        return cls.members(w) or "refused 23"

    @staticmethod
    def words(k):
        return [sum(1 << (m % 32) for m in k if m // 32 == i) for i in range(4)]

    covers = staticmethod(lambda a, b: b <= a)
    union = staticmethod(lambda a, b: a | b)
    growth = staticmethod(lambda a, b: len(b - a))

    @classmethod
    def ask(cls, question, a, w):
        q = cls.members(w)
        shares = bool(a & q)
        return {"all": (q <= a, q <= a), "shares": (shares, shares), "within": (a <= q, shares)}[question]


def quadratic(cls, ks):
    """The pair that wastes most begins two groups; the others follow one by one."""
    n = len(ks)
    worst = [(max(cls.growth(ks[i], ks[j]), cls.growth(ks[j], ks[i])), i, j) for i in range(n) for j in range(i + 1, n)]
    most = max(w for w, _, _ in worst)
    _, i, j = next(p for p in worst if p[0] == most)
    groups = {"s": [i], "g": [j]}
    unions = {"s": ks[i], "g": ks[j]}
    rest = [p for p in range(n) if p not in (i, j)]
    while rest:
        short = [g for g in "sg" if len(groups[g]) + len(rest) == 4]
        if short:
            groups[short[0]] += rest
            break
        p = rest.pop(0)
        cost = {g: cls.growth(unions[g], ks[p]) for g in "sg"}
        group = min("sg", key=lambda g: (cost[g], len(groups[g]), g != "s"))
        groups[group].append(p)
        unions[group] = cls.union(unions[group], ks[p])
    return "".join("s" if p in groups["s"] else "g" for p in range(n))


Rectangle.split = classmethod(quadratic)
Set.split = classmethod(quadratic)


# ---- random words, with the extremes well to the fore
def a_number(small):
    if small:
        return random.randrange(40)
    return random.choice([0, 1, WORD - 1, WORD // 2, WORD // 2 - 1, random.randrange(WORD), random.randrange(1000)])


def some_words(cls, small):
    if cls is Set:
        kind = random.randrange(6)
        if kind == 0:
            return [WORD - 1] * 4
        if kind == 1:
            return [0, 0, 0, 1 << 31]
        if kind == 2 or small:
            return Set.words(frozenset(random.randrange(6) for _ in range(random.randrange(1, 5))))
        if kind == 3:
            return Set.words(frozenset([random.choice([0, 31, 32, 63, 64, 95, 96, 127])]))
        return [random.choice([0, 1 << 31, WORD - 1, random.randrange(WORD)]) for _ in range(4)]
    if cls is Interval:
        return [a_number(small), a_number(small), 0, 0]
    return [word(a_number(small) - random.choice([0, 20])) for _ in range(4)]


def a_key(cls, small):
    while True:
        w = some_words(cls, small)
        if cls is Interval and w[0] > w[1]:
            w[0], w[1] = w[1], w[0]
        if cls is Rectangle:
            for low, high in ((0, 2), (1, 3)):
                if signed(w[low]) > signed(w[high]):
                    w[low], w[high] = w[high], w[low]
        if not isinstance(cls.read(w), str):
            return w


def any_words(cls):
    w = some_words(cls, random.random() < 0.5)
    if random.random() < 0.4:
        w[random.randrange(4)] = random.choice([0, 1, WORD - 1, random.randrange(WORD)])
    if cls is Set and random.random() < 0.2:
        w = [0, 0, 0, 0]
    return w


cases, answers = [], []


def case(cls, asked, keys, answer):
    cases.append(" ".join([cls.name, asked] + [str(x) for w in keys for x in w]))
    answers.append(answer)


def truth(b):
    return "true" if b else "false"


def shown(words):
    return " ".join(map(str, words))


for cls in (Interval, Rectangle, Set):
    for _ in range(1000):
        w = any_words(cls)
        k = cls.read(w)
        case(cls, "key", [w], k if isinstance(k, str) else "key " + shown(cls.words(k)))
    for n in range(1000):
        v, w = a_key(cls, n % 2), a_key(cls, n % 2)
        a, b = cls.read(v), cls.read(w)
        case(cls, "pair", [v, w], f"covers {truth(cls.covers(a, b))} union {shown(cls.words(cls.union(a, b)))} growth {cls.growth(a, b)}")
    for question in cls.questions:
        for n in range(1000):
            v, w = a_key(cls, n % 2), any_words(cls) if n % 4 == 0 else a_key(cls, n % 2)
            if question == "point" and n % 4:
                w = [w[0], w[1], 0, 0]
            said = cls.ask(question, cls.read(v), w)
            case(cls, question, [v, w], said if isinstance(said, str) else f"matches {truth(said[0])} may hold {truth(said[1])}")
    for n in range(1000):
        ws = [a_key(cls, n % 2) for _ in range(random.randrange(1, 13))]
        u = cls.read(ws[0])
        for w in ws[1:]:
            u = cls.union(u, cls.read(w))
        case(cls, "join", ws, "union " + shown(cls.words(u)))
    for n in range(1000):
        count = 13 + n % 3
        if n % 10 == 0:
            ws = [a_key(cls, True)] * count
        elif n % 10 == 1:
            ws = [a_key(cls, True)] * (count - 1) + [a_key(cls, True)]
        else:
            ws = [a_key(cls, n % 2) for _ in range(count)]
        case(cls, "split", ws, cls.split([cls.read(w) for w in ws]))

with open(sys.argv[1], "w") as f:
    f.write("\n".join(cases) + "\n")
with open(sys.argv[2], "w") as f:
    f.write("\n".join(answers) + "\n")
