#!/usr/bin/env python3
"""Scripts for the program `replay` and the answers it must give, from an index of its own.

    python3 tests/replay.py make DIR                        # writes DIR/stdin and DIR/stdout
    python3 tests/replay.py compare PROGRAM [SEED [COUNT]]  # runs PROGRAM on COUNT further scripts
    python3 tests/replay.py selfcheck [COUNT]               # holds this model against plain lists
    python3 tests/replay.py script SEED                     # prints one of the further scripts
    python3 tests/replay.py answer < SCRIPT                 # prints what the program must print

A script has a call on each line. `class interval|rectangle|set` and then `store array|cache|pile N` begin a new, empty
index over N pages (a pile is a cache over a cache over an array) and print nothing. Then:

    insert W0 W1 W2 W3      number N
    remove N W0 W1 W2 W3    removed
    begin Q W0 W1 W2 W3     begun           Q is the number of the question
    next                    record N W0 W1 W2 W3 | none
    end                     ended
    measure                 levels L records R pages P
    dump                    page P W0 .. W63 for each held page, rising; then held H

or `refused`, the number of the refusal and its details. A line that is none of these is answered `refused line`. Else,
a call that may not be made now is answered `out of turn`: while a search is open there are only next, end and dump, and
with none open there is no next or end; before an index is made there are only class and then store. A class line may
come at any time, and drops what there was. A refused line or a call out of turn changes nothing.

Words are decimal, below 2^32, with no sign and no needless 0 in front; between fields there is exactly one blank.
"""
import collections
import functools
import itertools
import os
import random
import re
import subprocess
import sys

from model import CLASSES, STORES, WORD, MOST, LEAST, PAGES, Index, Interval, MemberSet, Rectangle, Refused

# ---- scripts

NUMBERS = {"insert": 4, "remove": 5, "begin": 5, "next": 0, "end": 0, "measure": 0, "dump": 0}


def parsed(line, cls):
    """The call on a line, as a verb and its arguments; none where it is no call. cls is the class so far, or none."""
    verb, *fields = line.split(" ")
    if verb == "class":
        return [verb, CLASSES[fields[0]]] if len(fields) == 1 and fields[0] in CLASSES else None
    kind = []
    if verb == "store":
        kind, fields = fields[:1], fields[1:]
        if len(kind + fields) != 2 or kind[0] not in STORES:
            return None
    elif verb not in NUMBERS or len(fields) != NUMBERS[verb]:
        return None
    if not all(re.fullmatch("0|[1-9][0-9]{0,9}", field, re.ASCII) for field in fields):
        return None
    numbers = list(map(int, fields))
    if any(n >= WORD for n in numbers):
        return None
    if verb == "store" and numbers[0] > PAGES:
        return None
    if verb == "begin" and not 1 <= numbers[0] <= (cls.questions if cls else 3):
        return None
    return [verb] + kind + numbers


class Replay:
    """Answers a script, a line at a time."""

    def __init__(self):
        self.cls = self.index = self.search = None
        self.seen = collections.Counter()

    def in_turn(self, verb):
        if verb == "class":
            return True
        if verb == "store":
            return self.cls is not None and self.index is None
        if self.index is None:
            return False
        return verb == "dump" or (verb in ("next", "end")) == (self.search is not None)

    def answer(self, line):
        """The lines that the call prints."""
        call = parsed(line, self.cls)
        if call is None:
            return ["refused line"]
        verb, *arguments = call
        if not self.in_turn(verb):
            return ["out of turn"]
        try:
            return getattr(self, "do_" + verb)(*arguments)
        except Refused as refusal:
            return [str(refusal)]

    def do_class(self, cls):
        self.cls, self.index, self.search = cls, None, None
        return []

    def do_store(self, kind, size):
        self.index = Index(self.cls, size)
        self.index.seen = self.seen
        return []

    def do_insert(self, *words):
        return [f"number {self.index.insert(words)}"]

    def do_remove(self, number, *words):
        self.index.remove(number, words)
        return ["removed"]

    def do_begin(self, number, *words):
        self.search = self.index.search(number, words)
        return ["begun"]

    def do_next(self):
        for number, key in self.search:
            return [f"record {number} {shown(self.cls.words(key))}"]
        return ["none"]

    def do_end(self):
        self.search = None
        return ["ended"]

    def do_measure(self):
        levels, records, pages = self.index.measure()
        self.seen["levels", levels] += 1
        return [f"levels {levels} records {records} pages {pages}"]

    def do_dump(self):
        held = sorted(self.index.store.held)
        return [f"page {page} {shown(self.index.words(page))}" for page in held] + [f"held {len(held)}"]


def shown(words):
    return " ".join(map(str, words))


# ---- the model held against plain lists


class Checked(Replay):
    """Looks at the whole tree after each call, and at each answer beside a list of the records."""

    def __init__(self):
        super().__init__()
        self.records, self.last, self.left, self.before = {}, 0, None, None

    def answer(self, line):
        call, open_before = parsed(line, self.cls), self.search is not None
        said = super().answer(line)
        if call is None or said == ["out of turn"]:
            assert call is None or said != ["refused line"]
            done = False
        else:
            done = not said or not said[0].startswith("refused")
            self.look(call[0], call[1:], said, done, open_before)
        if self.index is not None:
            pages = {p: (n.level, tuple(n.entries)) for p, n in self.index.store.held.items()}
            if not (done and call[0] in ("store", "insert", "remove")):
                assert pages == self.before, "a call that changes nothing changed a page"
            self.before = pages
            self.look_at_tree()
        return said

    def look(self, verb, arguments, said, done, open_before):
        """One answer, from the records alone."""
        if verb == "class":
            self.records, self.last, self.left = {}, 0, None
        elif verb == "insert":
            if done:
                self.last += 1
                self.records[self.last] = list(arguments)
                assert said == [f"number {self.last}"]
            elif said[0].startswith("refused 33"):
                needed, free = map(int, said[0].split()[2:])
                assert 1 <= free + 1 <= needed and free == self.index.store.size - len(self.index.store.held)
            else:
                assert said == [self.refusal(self.cls.key, arguments)]
        elif verb == "remove":
            refusal = self.refusal(self.cls.key, arguments[1:])
            if refusal is None and self.records.get(arguments[0]) == list(arguments[1:]):
                assert said == ["removed"]
                del self.records[arguments[0]]
            else:
                assert said == [refusal or "refused 34"]
        elif verb == "begin":
            assert not open_before
            refusal = self.refusal(lambda words: self.cls.question(arguments[0], words), arguments[1:])
            assert said == [refusal or "begun"]
            if done:
                matches, _ = self.cls.question(arguments[0], arguments[1:])
                self.left = {n: w for n, w in self.records.items() if matches(self.cls.key(w))}
        elif verb == "next":
            assert open_before
            if said == ["none"]:
                assert not self.left, "a search left a record out"
            else:
                word, number, *words = said[0].split()
                assert word == "record" and self.left.pop(int(number)) == list(map(int, words))
        elif verb == "measure":
            assert said[0].split()[3] == str(len(self.records))
        elif verb == "dump":
            numbers = [list(map(int, line.split()[1:])) for line in said[:-1]]
            assert all(len(page) == 65 and max(page) < WORD for page in numbers)
            assert [page[0] for page in numbers] == sorted(self.index.store.held) and said[-1] == f"held {len(numbers)}"
            listed = {p[9 + 5 * i]: p[5 + 5 * i:9 + 5 * i] for p in numbers if p[1] == 1 for i in range(p[2])}
            assert listed == self.records

    @staticmethod
    def refusal(make, words):
        try:
            make(words)
        except Refused as refusal:
            return str(refusal)

    def look_at_tree(self):
        index, reached, records = self.index, [], {}
        cls, store = index.cls, index.store

        def walk(page, level, least):
            node = store.held[page]
            reached.append(page)
            assert node.level == level and least <= len(node.entries) <= MOST
            for key, link in node.entries:
                if level == 1:
                    assert link not in records
                    records[link] = cls.words(key)
                else:
                    below = walk(link, level - 1, LEAST)
                    assert key == functools.reduce(cls.union, below), "a key is not the union of those below"
            return [key for key, _ in node.entries]

        if index.root is not None:
            level = store.held[index.root].level
            assert level <= 7
            walk(index.root, level, 1 if level == 1 else 2)
        assert sorted(reached) == sorted(store.held), "the pages held are not those of the tree"
        assert records == self.records and index.last == self.last
        assert sorted(list(store.held) + store.given) == list(range(store.fresh)) and store.fresh <= store.size


def worked_examples():
    """A few that were worked out by hand."""
    bits = MemberSet.goes
    assert bits([1] * 13) == set(range(1, 13, 2))
    assert bits([1] * 12 + [1 << 5]) == {9, 10, 11, 12}
    assert Rectangle.growth((0, 0, 10, 10), (20, 0, 30, 10)) == 200
    assert MemberSet.growth(0b11, 0b1110) == 2
    replay = Checked()

    def call(line):
        return " | ".join(replay.answer(line))

    def page(number, level, *entries):
        words = [level, len(entries), 0, 0] + [w for low, high, link in entries for w in (low, high, 0, 0, link)]
        return f"page {number} {shown(words + [0] * (64 - len(words)))}"

    call("class interval")
    call("store pile 4")
    for n in range(13):
        assert call(f"insert {n} {n} 0 0") == f"number {n + 1}"
    assert call("dump") == " | ".join([
        page(0, 1, *((n, n, n + 1) for n in range(6))),
        page(1, 1, *((n, n, n + 1) for n in range(6, 13))),
        page(2, 2, (0, 5, 0), (6, 12, 1)),
        "held 3",
    ])
    for n in range(3):
        assert call(f"remove {n + 1} {n} {n} 0 0") == "removed"
    assert call("dump") == page(1, 1, *((n, n, n + 1) for n in [6, 7, 8, 9, 10, 11, 12, 3, 4, 5])) + " | held 1"
    assert call("measure") == "levels 1 records 10 pages 1"
    for n in range(3):  # the two pages come back, the root's first
        call(f"insert {n} {n} 0 0")
    assert sorted(replay.index.store.held) == [0, 1, 2] and replay.index.root == 0


# ---- words for keys and questions: close together, far apart, in a row, and repeats


class Draws:
    def __init__(self, rng, cls, moods):
        self.rng, self.cls, self.moods, self.at = rng, cls, moods, 0

    def key(self):
        mood = self.rng.choice(self.moods)
        self.at += 1
        return self.cls.words(getattr(self, self.cls.name)(mood))

    def interval(self, mood):
        r = self.rng
        if mood == "row":
            return (self.at, self.at)
        if mood == "wide":
            ends = [0, 1, WORD - 1, WORD // 2, r.randrange(WORD), r.randrange(WORD)]
            return tuple(sorted(r.choice(ends) for _ in "ab"))
        reach, length = (60, 8) if mood == "close" else (100000, 900)
        low = r.randrange(reach)
        return (low, low + r.randrange(length))

    def rectangle(self, mood):
        r = self.rng
        if mood == "row":
            return (3 * self.at, 0, 3 * self.at, 0)
        if mood == "wide":
            ends = [-WORD // 2, WORD // 2 - 1, 0] + [r.randrange(-WORD // 2, WORD // 2) for _ in "ab"]
            (left, right), (bottom, top) = (sorted(r.choice(ends) for _ in "ab") for _ in "ab")
            return (left, bottom, right, top)
        reach, length = (20, 6) if mood == "close" else (100000, 4000)
        left, bottom = r.randrange(-reach, reach), r.randrange(-reach, reach)
        return (left, bottom, left + r.randrange(length), bottom + r.randrange(length))

    def set(self, mood):
        r = self.rng
        if mood == "row":
            return 1 << self.at % 128
        if mood == "wide":
            some = r.randrange(1, 2**128), r.randrange(1, 2**64) << 64, r.randrange(1, 2**32)
            return r.choice([2**128 - 1, 1 << 127, *some])
        first, reach, most = (0, 8, 3) if mood == "close" else (8 * r.randrange(15), 16, 6)
        return sum(1 << m for m in {first + r.randrange(reach) for _ in range(r.randrange(1, most + 1))})

    def question(self, number, live):
        """Words for a question, often near a record's key."""
        r, cls = self.rng, self.cls
        near = r.choice(list(live.values())) if live and r.random() < 0.7 else self.key()
        if cls is MemberSet:
            key = cls.bits(near)
            if r.random() < 0.1:
                return cls.words(r.choice([0, 0, 2**128 - 1]))
            if number == 3:
                for _ in range(r.randrange(4)):
                    key |= cls.bits(r.choice(list(live.values())) if live else self.key())
            elif r.random() < 0.6:
                key &= r.randrange(2**128)
            return cls.words(key)
        if cls is Rectangle:
            left, bottom, right, top = cls.key(near)
            if number == 3:
                return cls.words((r.randint(left, right), r.randint(bottom, top))) + [0, 0]
            wider = r.choice([0, 1, 10, 3000, 60000])
            ends = max(left - wider, -WORD // 2), max(bottom - wider, -WORD // 2)
            return cls.words(ends + (min(right + wider, WORD // 2 - 1), min(top + wider, WORD // 2 - 1)))
        wider = r.choice([0, 1, 5, 500, 20000])
        return [max(near[0] - wider, 0), min(near[1] + wider, WORD - 1), 0, 0]

    def refused(self, number=None):
        """Words that are no key, or no question of this number; none where there are no such words."""
        r = self.rng
        while True:
            words = [r.choice([0, 1, 7, WORD - 1, WORD // 2, r.randrange(WORD)]) for _ in range(4)]
            if self.cls is MemberSet:
                if number is not None:
                    return None
                words = [0, 0, 0, 0]
            elif self.cls is Interval and r.random() < 0.6:
                words[:2] = sorted(words[:2])
            if Checked.refusal(self.cls.key if number is None else functools.partial(self.cls.question, number), words):
                return words


NO_CALLS = (  # but for the question 3, where the class has one
    "", " ", "insert", "remove", "begin", "class", "store", "class circle", "class interval rectangle", "Class set",
    "class  set", "class set ", "store array", "store heap 4", "store array 4097", "store array 4294967296",
    "store cache -1", "store pile 04", "store array 1 2", "store 4", "next 1", "next ", " next", "Next", "nextt",
    "end now", "end ", "measure 0", "dump 0", "dump ", "help", "new", "insert 1 2 3", "insert 1 2 3 4 5",
    "remove 1 2 3 4", "remove 1 2 3 4 5 6", "begin 1 2 3 4", "begin 0 0 0 0 0", "begin 3 0 0 0 0", "begin 4 0 0 0 0",
    "begin 01 0 0 0 0", "begin meets 0 0 0 0", "insert 0 0 0 x", "insert\t0 0 0 0", "insert 0\t0 0 0", "number 1",
    "0", "#", "insert 0,0,0,0", "insert 0 0 0 0 ", " insert 0 0 0 0", "insert 0  0 0", "insert  0 0 0 0",
)


class Script:
    """Calls and their answers, made hand in hand."""

    def __init__(self, seed, replay=None):
        self.rng, self.replay, self.lines, self.said = random.Random(seed), replay or Replay(), [], []
        self.live, self.gone = {}, []

    def call(self, *parts):
        line = " ".join(map(str, parts))
        said = self.replay.answer(line)
        self.lines.append(line)
        self.said.append(said)
        return said

    def refused_line(self):
        """A line that is no call: a fixed one, or a call with something wrong."""
        r = self.rng
        while True:
            line = r.choice(NO_CALLS)
            if r.random() < 0.6:
                fields = r.choice(["insert", "remove", "begin"]).split()
                fields += r.choices(["0", "1", "2", "17", "4294967295", str(r.randrange(WORD))], k=NUMBERS[fields[0]])
                place = r.randrange(1, len(fields))
                n = fields[place]
                fields[place] = r.choice(["+" + n, "-" + n, "0" + n, "", n + "x", "0x" + n, n + ".0", n + ",",
                                          "4294967296", "9999999999", "42949672950", "1" + "0" * 30, "00", "one", "3"])
                line = " ".join(fields)
            if parsed(line, self.replay.cls) is None:
                return self.call(line)

    def out_of_turn(self):
        r = self.rng
        calls = ["next", "end", "measure", "insert 1 1 0 0", "insert 2 1 0 0", "remove 1 1 1 0 0", "begin 1 1 1 0 0",
                 "store array 5", "store pile 0", "begin 2 5 1 0 0"]
        return self.call(r.choice([c for c in calls if not self.replay.in_turn(c.split()[0])]))

    def start(self, cls, kind, size, moods):
        r = self.rng
        self.live, self.gone, self.draws = {}, [], Draws(r, cls, moods)
        self.call("class", cls.name)
        if r.random() < 0.2:
            self.refused_line()
        if r.random() < 0.2:
            self.call(r.choice(["dump", "measure", "next", "insert 1 1 1 1"]))
        self.call("store", kind, size)

    def insert(self, words=None):
        r = self.rng
        if words is None:
            words = r.choice(list(self.live.values())) if self.live and r.random() < 0.1 else self.draws.key()
        said = self.call("insert", shown(words))
        if said[0].startswith("number"):
            self.live[int(said[0].split()[1])] = list(words)
        return said

    def remove(self, number=None):
        """A record there is."""
        number = number or self.rng.choice(list(self.live))
        words = self.live.pop(number)
        self.gone.append((number, words))
        return self.call("remove", number, shown(words))

    def miss(self):
        """A removal with a wrong number, a wrong key, or of a record that is gone."""
        r = self.rng
        index = self.replay.index
        choices = [(0, self.draws.key()), (index.last + 1, self.draws.key()), (r.randrange(WORD), self.draws.key())]
        if self.gone:
            choices += [r.choice(self.gone)] * 3
        if self.live:
            number, words = r.choice(list(self.live.items()))
            choices += [(0, words), (index.last + 1, words), (number, self.draws.key())] * 2
        number, words = r.choice(choices)
        if self.live.get(number) != words:
            self.call("remove", number, shown(words))

    def no_key(self):
        r = self.rng
        number = r.randint(1, self.draws.cls.questions)
        words = self.draws.refused(number)
        if words and r.random() < 0.5:
            self.call("begin", number, shown(words))
        else:
            verb = r.choice(["insert", "remove 0", f"remove {r.choice(list(self.live))}" if self.live else "remove 1"])
            self.call(verb, shown(self.draws.refused()))

    def search(self, patience):
        """A question, and some or all of its answers."""
        r = self.rng
        number = r.randint(1, self.draws.cls.questions)
        self.call("begin", number, shown(self.draws.question(number, self.live)))
        reads = r.choice([0, r.randrange(8), patience, patience])
        for _ in range(reads):
            if r.random() < 0.02:
                r.choice([self.out_of_turn, self.refused_line])()
            if self.call("next") == ["none"]:
                for _ in range(r.choice([0, 0, 1, 2])):
                    self.call("next")
                break
        if r.random() < 0.02:
            self.call("dump")
        self.call("end")

    def aside(self, patience=40):
        """A call that leaves the index as it is."""
        what = self.rng.random()
        if what < 0.40:
            self.call("measure")
        elif what < 0.60:
            self.search(patience)
        elif what < 0.74:
            self.miss()
        elif what < 0.84:
            self.no_key()
        elif what < 0.93:
            self.refused_line()
        elif what < 0.992:
            self.out_of_turn()
        else:
            self.call("dump")

    def work(self, calls, share, until=None, asides=0.35):
        """Inserts, this share of the calls, and removals, with asides; until so many records are live."""
        for _ in range(calls):
            if len(self.live) == until:
                break
            if not self.live or self.rng.random() < share:
                self.insert()
            else:
                self.remove()
            while self.rng.random() < asides:
                self.aside()

    def drain(self, asides=0.3):
        """Removals until the index is empty: in any order, from the oldest, from the newest, or by key."""
        r = self.rng
        order = r.choice(["any", "old", "new", "key"])
        numbers = sorted(self.live, reverse=order == "new")
        if order == "any":
            r.shuffle(numbers)
        elif order == "key":
            numbers.sort(key=lambda n: self.live[n])
        for number in numbers:
            self.remove(number)
            while r.random() < asides:
                self.aside()
        self.call("measure")

    def stop_amid(self):
        """Leaves a search open."""
        self.call("begin", 1, shown(self.draws.question(1, self.live)))
        self.call("next")


MOODS = (["close"], ["middle"], ["wide"], ["close", "wide"], ["middle", "middle", "middle", "wide"], ["row"],
         ["row", "close"])


def large(script, cls, kind, size, moods, records):
    script.start(cls, kind, size, moods)
    script.work(3 * records, 0.88, until=records)
    script.call("dump")
    script.work(records // 2, 0.5)
    script.work(3 * records, 0.15, until=records // 4)
    script.work(records // 2, 0.8)
    script.drain()
    script.call("dump")
    script.work(40, 0.9)
    script.drain()


def small(script, cls, kind, size, moods):
    """A store that is soon full, filled and emptied again."""
    script.start(cls, kind, size, moods)
    for _ in range(2):
        script.work(11 * size + 15, 0.97, asides=0.2)
        script.call("dump")
        script.work(3 * size + 5, 0.6, asides=0.2)
        script.work(3 * size, 0.3, asides=0.2)
        script.drain(asides=0.1)


def row(script, cls, kind, size, records):
    """Records in a row, which fill pages by halves and so make high trees; then fewer of them."""
    script.start(cls, kind, size, ["row"])
    for _ in range(records):
        script.insert(script.draws.key())
        if script.rng.random() < 0.1:
            script.aside()
    script.call("dump")
    script.work(60, 0.6)
    for number in sorted(script.live)[:records // 2]:
        script.remove(number)
        if script.rng.random() < 0.1:
            script.aside()
    script.work(60, 0.5)
    script.drain(asides=0.1)


def gate(replay=None):
    """The fixed script: a few lines before any class, the worked example, then sessions of every kind."""
    script = Script(187, replay)
    for line in ["measure", "next", "", "store array 4", "insert 1 2 0 0", "begin 3 0 0 0 0", "begin 4 0 0 0 0", "dump",
                 "class", "end"]:
        script.call(line)
    script.call("class interval")
    script.call("class interval")
    script.call("store array 4")
    script.call("store array 4")
    for n in range(13):
        script.call("insert", n, n, 0, 0)
    for n in range(3):
        script.call("dump")
        script.call("remove", n + 1, n, n, 0, 0)
    script.call("dump")
    script.call("measure")
    script.call("begin 3 4 7 0 0")
    script.call("begin 1 4 7 0 0")
    for _ in range(6):
        script.call("next")
    script.call("class interval")  # drops the search
    script.call("next")

    moods = itertools.cycle(MOODS[:5])
    for place, (cls, kind) in enumerate(itertools.product(CLASSES.values(), STORES)):
        large(script, cls, kind, (90, 130, 200)[place % 3], next(moods), (190, 220, 250)[place // 3])
        if place % 2:
            script.work(20, 0.9)
            script.stop_amid()
    for cls in CLASSES.values():
        for place, size in enumerate((0, 1, 2, 3, 5, 8, 13, 14, 15)):
            small(script, cls, STORES[place % 3], size, next(moods))
    row(script, Interval, "cache", 100, 500)
    row(script, Interval, "array", 94, 485)  # the fourth level needs 95
    row(script, Rectangle, "pile", 92, 485)
    row(script, MemberSet, "array", 110, 250)
    script.start(Rectangle, "pile", PAGES, ["middle"])
    script.work(30, 0.9)
    script.stop_amid()
    return script


def further(seed, replay=None):
    """A script by chance."""
    script = Script(seed, replay)
    r = script.rng
    for _ in range(r.randint(1, 4)):
        cls, kind, moods = r.choice(list(CLASSES.values())), r.choice(STORES), r.choice(MOODS)
        size = r.choice([r.randrange(20), r.randrange(120), r.randrange(250), r.randrange(PAGES + 1)])
        what = r.random()
        if what < 0.4:
            large(script, cls, kind, size, moods, r.randrange(20, 400))
        elif what < 0.6:
            small(script, cls, kind, r.randrange(20), moods)
        elif what < 0.75:
            row(script, cls, kind, size, r.randrange(20, 700))
        else:
            script.start(cls, kind, size, moods)
            for _ in range(r.randint(1, 8)):
                script.work(r.randrange(200), r.choice([0.05, 0.3, 0.5, 0.7, 0.95]), asides=r.choice([0.1, 0.4]))
        if r.random() < 0.3:
            script.stop_amid()
    return script


# ---- the commands


def text(lines):
    return "".join(line + "\n" for line in lines)


def told(script):
    """What a script reached, to be looked at."""

    def row(name, counter):
        return f"{name}: " + ", ".join(f"{what} {count}" for what, count in sorted(counter.items()))

    calls, answers = collections.Counter(), collections.Counter()
    for line, said in zip(script.lines, script.said):
        if said != ["refused line"]:
            calls[line.split(" ")[0]] += 1
        if said:
            fields = said[0].split()
            answers[" ".join(fields[:2]) if fields[0] == "refused" else fields[0]] += 1
    reached = {shown(what) + ":": count for what, count in script.replay.seen.items()}
    return "\n".join([
        f"{len(script.lines)} calls, {sum(map(len, script.said))} lines of answers",
        row("calls", calls), row("answers", answers), row("reached", reached),
    ])


def make(directory):
    script = gate()
    for name, lines in (("stdin", script.lines), ("stdout", itertools.chain(*script.said))):
        with open(os.path.join(directory, name), "w") as f:
            f.write(text(lines))
    print(told(script))


def compare(program, seed=1, count=20):
    calls = 0
    for seed in range(seed, seed + count):
        script = further(seed)
        calls += len(script.lines)
        try:
            run = subprocess.run([program], input=text(script.lines), capture_output=True, text=True, timeout=600)
        except subprocess.TimeoutExpired:
            sys.exit(f"script {seed}: no end after 600 seconds")
        printed = run.stdout.split("\n")
        expected = [(place, line) for place, said in enumerate(script.said) for line in said]
        expected.append((len(script.lines), ""))
        for at, (place, line) in enumerate(expected):
            if at >= len(printed) or printed[at] != line:
                call = script.lines[place] if place < len(script.lines) else "(the end)"
                print(f"script {seed}, call {place + 1}: {call}")
                print(f"  expected: {line}")
                print(f"  printed:  {printed[at] if at < len(printed) else '(nothing)'}")
                if run.returncode:
                    print(f"  it stopped with {run.returncode}: {run.stderr.strip()[-500:]}")
                print(f"  `replay.py script {seed}` prints the script")
                sys.exit(1)
        if len(printed) > len(expected) or run.returncode:
            sys.exit(f"script {seed}: {len(printed) - len(expected)} lines too many, stopped with {run.returncode}")
    print(f"{count} scripts, {calls} calls: all the same")


def selfcheck(count=20):
    worked_examples()
    calls = len(gate(Checked()).lines)
    for seed in range(1, count + 1):
        calls += len(further(seed, Checked()).lines)
    print(f"{calls} calls: the model agrees with plain lists")


def main(command="", *arguments):
    if command == "make" and len(arguments) == 1:
        make(*arguments)
    elif command == "compare" and 1 <= len(arguments) <= 3:
        compare(arguments[0], *map(int, arguments[1:]))
    elif command == "selfcheck" and len(arguments) <= 1:
        selfcheck(*map(int, arguments))
    elif command == "script" and len(arguments) == 1:
        sys.stdout.write(text(further(int(arguments[0])).lines))
    elif command == "answer" and not arguments:
        replay = Replay()
        for line in sys.stdin.read().removesuffix("\n").split("\n"):
            sys.stdout.write(text(replay.answer(line)))
    else:
        sys.exit(__doc__)


if __name__ == "__main__":
    main(*sys.argv[1:])
