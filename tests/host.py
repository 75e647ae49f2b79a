#!/usr/bin/env python3
"""What the program `host` must print: a model of its own of pages, caches and memory.

    python3 tests/host.py > crates/host/stdout
"""
FEEDERS = [
    (11, 100, 100, 4980), (12, 220, 270, 1200), (13, 470, 470, 310), (14, 1000, 1000, 5000),
    (15, 4700, 5100, 77), (21, 10000, 10000, 2450), (22, 47000, 47000, 900),
]
REASONS = {41: "the page number is not below the size", 42: "the page is free", 43: "no page is free"}


class Refused(Exception):
    def __str__(self):
        return f"refused {self.args[0]}: {REASONS[self.args[0]]}"


class Pages:
    """Pages as a dictionary; the page given back last is taken first, then the lowest never taken."""

    def __init__(self, size):
        self.size, self.held, self.given, self.fresh = size, {}, [], 0

    def take(self, words):
        if self.given:
            page = self.given.pop()
        elif self.fresh < self.size:
            page, self.fresh = self.fresh, self.fresh + 1
        else:
            raise Refused(43)
        self.held[page] = words
        return page

    def look(self, page):
        if page >= self.size:
            raise Refused(41)
        if page not in self.held:
            raise Refused(42)
        return self.held[page]

    def give_back(self, page):
        self.look(page)
        del self.held[page]
        self.given.append(page)


def shown(feeder):
    slot, low, high, parts = feeder
    return f"slot {slot}, {low} to {high} ohm, {parts} parts"


def plug_in(pages, feeder):
    try:
        print(f"page {pages.take(feeder)} taken: {shown(feeder)}")
    except Refused as no:
        print(f"no page for {shown(feeder)}: {no}")


def unplug(pages, page):
    try:
        pages.give_back(page)
        print(f"page {page} given back")
    except Refused as no:
        print(f"page {page} not given back: {no}")


def work(pages):
    for feeder in FEEDERS:
        plug_in(pages, feeder)
    for page in (2, 2, 6):
        unplug(pages, page)
    plug_in(pages, FEEDERS[6])


pages = Pages(400 // 65)
print(f"{pages.size} pages in memory, behind a cache")
work(pages)
print("found in memory:")
for page in range(pages.size):
    try:
        print(f"page {page}: {shown(pages.look(page))}")
    except Refused as no:
        print(f"page {page}: {no}")
for low, high in ((240, 4800), (4800, 240)):
    print(f"feeders with {low} to {high} ohm:")
    if low > high:
        print("  refused 21: the low end in word 0 is above its high end")
        continue
    for page in sorted(pages.held):
        if max(low, pages.held[page][1]) <= min(high, pages.held[page][2]):
            print(f"  {shown(pages.held[page])}")
print("the same behind two caches")
again = Pages(400 // 65)
work(again)
if again.held == pages.held:
    print("the memory is the same, word for word")
print("self-test: page 0 keeps what is written")
