#!/usr/bin/env python3
"""A model of the key classes, the page stores and the index, with an implementation of its own.

Keys are tuples and frozensets, nodes are Python lists, and nothing is laid out in words but what is shown. Scripts that
make expected output import it.
"""
import collections
import functools
import itertools

WORD = 2**32
MOST, LEAST = 12, 4  # entries of a node; below the root also the least
PAGES = 4096  # the largest store


class Refused(Exception):
    """The number of a refusal and its details."""

    def __str__(self):
        return " ".join(["refused", *map(str, self.args)])


# ---- key classes: a key, and what is asked of keys


def zero(words, *places):
    for place in places:
        if words[place]:
            raise Refused(22, place)


class Interval:
    """A key is (low, high)."""

    name, questions = "interval", 2

    @staticmethod
    def key(w):
        if w[0] > w[1]:
            raise Refused(21, 0)
        zero(w, 2, 3)
        return (w[0], w[1])

    @staticmethod
    def words(k):
        return [k[0], k[1], 0, 0]

    @staticmethod
    def covers(a, b):
        return a[0] <= b[0] and b[1] <= a[1]

    @staticmethod
    def union(a, b):
        return (min(a[0], b[0]), max(a[1], b[1]))

    @classmethod
    def growth(cls, a, b):
        low, high = cls.union(a, b)
        return (high - low) - (a[1] - a[0])

    @classmethod
    def question(cls, number, w):
        """What a record has to fulfil, and what a page has to."""
        q = cls.key(w)

        def meets(k):
            return k[0] <= q[1] and q[0] <= k[1]

        def inside(k):
            return cls.covers(q, k)

        return {1: (meets, meets), 2: (inside, meets)}[number]

    @staticmethod
    def goes(keys):
        """The places that go: the upper half by low end, then place."""
        by_low = sorted(range(len(keys)), key=lambda i: (keys[i][0], i))
        return set(by_low[len(keys) // 2:])


def quadratic(cls, keys):
    """The places that go: two seeds that fit together worst, and then one by one."""

    def misfit(pair):
        a, b = keys[pair[0]], keys[pair[1]]
        return max(cls.growth(a, b), cls.growth(b, a))

    seeds = max(itertools.combinations(range(len(keys)), 2), key=misfit)  # of equals max gives the first
    stay, go = [seeds[0]], [seeds[1]]
    union = {id(stay): keys[seeds[0]], id(go): keys[seeds[1]]}
    waiting = collections.deque(i for i in range(len(keys)) if i not in seeds)
    while waiting:
        for group in (stay, go):
            if len(group) + len(waiting) == LEAST:
                group.extend(waiting)
                return set(go)
        i = waiting.popleft()
        group = min((stay, go), key=lambda g: (cls.growth(union[id(g)], keys[i]), len(g)))  # min too
        group.append(i)
        union[id(group)] = cls.union(union[id(group)], keys[i])
    return set(go)


class Rectangle:
    """A key is (left, bottom, right, top), whole numbers with a sign."""

    name, questions = "rectangle", 3
    goes = classmethod(quadratic)

    @staticmethod
    def signed(w):
        return (w ^ WORD // 2) - WORD // 2

    @classmethod
    def key(cls, w):
        k = tuple(map(cls.signed, w))
        for place in (0, 1):
            if k[place] > k[place + 2]:
                raise Refused(21, place)
        return k

    @staticmethod
    def words(k):
        return [z % WORD for z in k]

    @staticmethod
    def covers(a, b):
        return a[0] <= b[0] and a[1] <= b[1] and b[2] <= a[2] and b[3] <= a[3]

    @staticmethod
    def union(a, b):
        return (min(a[0], b[0]), min(a[1], b[1]), max(a[2], b[2]), max(a[3], b[3]))

    @staticmethod
    def area(k):
        return (k[2] - k[0]) * (k[3] - k[1])

    @classmethod
    def growth(cls, a, b):
        return cls.area(cls.union(a, b)) - cls.area(a)

    @classmethod
    def question(cls, number, w):
        if number == 3:
            zero(w, 2, 3)
            across, up = cls.signed(w[0]), cls.signed(w[1])

            def holds(k):
                return k[0] <= across <= k[2] and k[1] <= up <= k[3]

            return holds, holds
        q = cls.key(w)

        def meets(k):
            return k[0] <= q[2] and q[0] <= k[2] and k[1] <= q[3] and q[1] <= k[3]

        def inside(k):
            return cls.covers(q, k)

        return {1: (meets, meets), 2: (inside, meets)}[number]


class MemberSet:
    """A key is a number with bit m set for each member m."""

    name, questions = "set", 3
    goes = classmethod(quadratic)

    @staticmethod
    def bits(w):
        return sum(w[i] << 32 * i for i in range(4))

    @classmethod
    def key(cls, w):
        k = cls.bits(w)
        if not k:
            raise Refused(23)
        return k

    @staticmethod
    def words(k):
        return [k >> 32 * i & WORD - 1 for i in range(4)]

    @staticmethod
    def covers(a, b):
        return b & ~a == 0

    @staticmethod
    def union(a, b):
        return a | b

    @staticmethod
    def growth(a, b):
        return bin(b & ~a).count("1")

    @classmethod
    def question(cls, number, w):
        q = cls.bits(w)

        def has_all(k):
            return q & ~k == 0

        def shares(k):
            return q & k != 0

        def within(k):
            return k & ~q == 0

        return {1: (has_all, has_all), 2: (shares, shares), 3: (within, shares)}[number]


CLASSES = {cls.name: cls for cls in (Interval, Rectangle, MemberSet)}
STORES = ("array", "cache", "pile")


# ---- which page is taken, and in which order pages are given back


class Store:
    """The page given back last is taken first, then the lowest never taken. Caches leave the choice to those below."""

    def __init__(self, size):
        self.size, self.held, self.given, self.fresh = size, {}, [], 0

    def free(self):
        return self.size - len(self.held)

    def take(self, node):
        if self.given:
            page = self.given.pop()
        else:
            page, self.fresh = self.fresh, self.fresh + 1
        assert page < self.size and page not in self.held
        self.held[page] = node
        return page

    def give_back(self, page):
        del self.held[page]
        self.given.append(page)


def order_of_give_backs(joined, root):
    """Of a removal: the pages of nodes joined to others, from the leaves up; last the root's page, if it goes."""
    return joined + root


# ---- the index


class Node:
    """The entries are pairs of a key and a link: a record number on level 1, else a page number."""

    def __init__(self, level, entries):
        self.level, self.entries = level, entries


class Index:
    def __init__(self, cls, size):
        self.cls, self.store, self.root, self.last = cls, Store(size), None, 0
        self.seen = collections.Counter()  # what the scripts reached

    def node(self, page):
        return self.store.held[page]

    def levels(self):
        return 0 if self.root is None else self.node(self.root).level

    def key_of(self, node):
        return functools.reduce(self.cls.union, (key for key, _ in node.entries))

    def entry_for(self, page):
        return self.key_of(self.node(page)), page

    def least_growth(self, key, entries):
        """The place of the entry whose key grows least; the lowest of equals."""
        costs = [self.cls.growth(k, key) for k, _ in entries]
        return costs.index(min(costs))

    def parted(self, entries):
        """Those that stay and those that go, both in order."""
        goes = self.cls.goes([key for key, _ in entries])
        return [e for i, e in enumerate(entries) if i not in goes], [e for i, e in enumerate(entries) if i in goes]

    def insert(self, words):
        key = self.cls.key(words)
        way = []  # from the root down: a page, and the place that leads on
        page = self.root
        while page is not None:
            node = self.node(page)
            place = self.least_growth(key, node.entries) if node.level > 1 else None
            way.append((page, place))
            page = node.entries[place][1] if node.level > 1 else None
        needed = 0
        while needed < len(way) and len(self.node(way[-1 - needed][0]).entries) == MOST:
            needed += 1
        if needed == len(way):
            needed += 1
        if self.last == WORD - 1:
            raise Refused(31)
        if needed > self.store.free():
            self.seen["33", needed, self.store.free()] += 1
            raise Refused(33, needed, self.store.free())

        self.last += 1
        if not way:
            self.root = self.store.take(Node(1, [(key, self.last)]))
            return self.last
        held, coming = len(self.store.held), [(key, self.last)]
        for page, place in reversed(way):
            node = self.node(page)
            if place is not None:
                node.entries[place] = self.entry_for(node.entries[place][1])
            node.entries += coming
            coming = []
            if len(node.entries) > MOST:
                self.seen["split", node.level] += 1
                node.entries, go = self.parted(node.entries)
                coming = [self.entry_for(self.store.take(Node(node.level, go)))]
        if coming:
            old = self.root
            self.root = self.store.take(Node(self.levels() + 1, [self.entry_for(old)] + coming))
            self.seen["root", self.levels()] += 1
        assert len(self.store.held) == held + needed and self.levels() <= 7
        return self.last

    def remove(self, number, words):
        key = self.cls.key(words)
        joined = []
        if self.root is None or not self.drop(self.root, number, key, joined):
            raise Refused(34)
        root, node = [], self.node(self.root)
        if len(node.entries) < (1 if node.level == 1 else 2):
            root = [self.root]
            self.root = node.entries[0][1] if node.entries else None
            self.seen["lower", node.level] += 1
        for page in order_of_give_backs(joined, root):
            self.store.give_back(page)

    def drop(self, page, number, key, joined):
        """Takes the record out from under a page, if it is there. joined gets the pages that are needed no longer."""
        node = self.node(page)
        if node.level == 1:
            if (key, number) not in node.entries:
                return False
            node.entries.remove((key, number))
            return True
        for place, (k, child) in enumerate(node.entries):
            if self.cls.covers(k, key) and self.drop(child, number, key, joined):
                break
        else:
            return False
        thin = self.node(child)
        node.entries[place] = self.entry_for(child)
        if len(thin.entries) < LEAST:
            others = node.entries[:place] + node.entries[place + 1:]
            at = self.least_growth(node.entries[place][0], others)
            at += at >= place
            partner = self.node(node.entries[at][1])
            both = partner.entries + thin.entries
            where = "before" if place < at else "behind"
            fits = len(both) <= MOST
            self.seen["join" if fits else "share", thin.level, where] += 1
            partner.entries, thin.entries = (both, []) if fits else self.parted(both)
            node.entries[at] = self.entry_for(node.entries[at][1])
            if fits:
                del node.entries[place]
                joined.append(child)
            else:
                node.entries[place] = self.entry_for(child)
        return True

    def search(self, number, words):
        """The records that are found, one by one."""
        matches, may_hold = self.cls.question(number, words)

        def under(page):
            for key, link in self.node(page).entries:
                if self.node(page).level == 1:
                    if matches(key):
                        yield link, key
                elif may_hold(key):
                    yield from under(link)

        return iter(()) if self.root is None else under(self.root)

    def words(self, page):
        node = self.node(page)
        entries = [w for key, link in node.entries for w in self.cls.words(key) + [link]]
        return [node.level, len(node.entries), 0, 0] + entries + [0] * (5 * (MOST - len(node.entries)))

    def measure(self):
        leaves = [node for node in self.store.held.values() if node.level == 1]
        return self.levels(), sum(len(leaf.entries) for leaf in leaves), len(self.store.held)
