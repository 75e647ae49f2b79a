#!/usr/bin/env python3
"""Pages for the program `pages_dump` and what it must print, from a decoder of its own.

    python3 tests/pages_dump.py crates/pages_dump/stdin crates/pages_dump/stdout
"""
import random
import sys

WORD = 2**32
random.seed(1984)


def signed(w):
    return w - WORD if w >= WORD // 2 else w


def interval(w):
    return None if w[0] > w[1] or w[2] or w[3] else f"{w[0]} to {w[1]}"


def rectangle(w):
    left, bottom, right, top = map(signed, w)
    return None if left > right or bottom > top else f"({left}, {bottom}) to ({right}, {top})"


def members(w):
    found = [k for k in range(128) if w[k // 32] >> (k % 32) & 1]
    return "members " + " ".join(map(str, found)) if found else None


SHOWN = {"interval": interval, "rectangle": rectangle, "set": members}


def dumped(kind, page):
    """The lines for a page, looked at from the format alone."""
    level, count = page[0], page[1]
    if level not in range(1, 8):
        return ["refused 51: the level is not 1 to 7"]
    if count not in range(1, 13):
        return ["refused 52: the count of entries is not 1 to 12"]
    entries = [page[4 + 5 * i: 9 + 5 * i] for i in range(12)]
    if page[2] or page[3] or any(any(e) for e in entries[count:]):
        return ["refused 53: an unused word is not zero"]
    keys = [SHOWN[kind](e[:4]) for e in entries[:count]]
    if None in keys:
        return ["refused 54: a key does not unsqueeze"]
    links = [e[4] for e in entries[:count]]
    if any(link == 0 if level == 1 else link > 4095 for link in links):
        return ["refused 55: a record number is 0, or a page number is 4096 or more"]
    what = "record" if level == 1 else "page"
    return [f"level {level}, count {count}"] + [f"  {i}: {keys[i]}, {what} {links[i]}" for i in range(count)]


def some_key(kind):
    while True:
        if kind == "interval":
            low, high = sorted(random.choice([0, WORD - 1, random.randrange(WORD), random.randrange(100)]) for _ in "ab")
            return [low, high, 0, 0]
        if kind == "rectangle":
            xs = sorted(random.choice([-WORD // 2, WORD // 2 - 1, random.randrange(-1000, 1000)]) for _ in "ab")
            ys = sorted(random.choice([-WORD // 2, 0, random.randrange(-1000, 1000)]) for _ in "ab")
            return [z % WORD for z in (xs[0], ys[0], xs[1], ys[1])]
        words = [random.choice([0, 0, 1 << 31, 1, random.randrange(WORD)]) for _ in range(4)]
        if any(words):
            return words


def some_page(kind):
    level, count = random.randrange(1, 8), random.randrange(1, 13)
    page = [level, count, 0, 0]
    for _ in range(count):
        link = random.choice([1, WORD - 1, random.randrange(1, WORD)]) if level == 1 else random.choice([0, 4095, random.randrange(4096)])
        page += some_key(kind) + [link]
    return page + [0] * (64 - len(page))


def damaged(page):
    page = list(page)
    place = random.choice([0, 1, 2, 3, random.randrange(64), 8, 63, 4, 5])
    page[place] = random.choice([0, 1, 8, 13, 4096, WORD - 1, random.randrange(WORD)])
    return page


# The page worked out in docs/PAGES.md.
WORKED = [1, 2, 0, 0, WORD - 1500, 0, 2500, 4000, 7, 12000, 500, 12000, 900, 31] + [0] * 50

pages, lines = [], []
for kind in SHOWN:
    made = [WORKED] if kind == "rectangle" else []
    made += [some_page(kind) for _ in range(150)]
    made += [damaged(some_page(kind)) for _ in range(250)]
    made += [[random.randrange(WORD) for _ in range(64)] for _ in range(25)]
    made += [[random.randrange(14)] + [random.randrange(14)] + [random.randrange(3) for _ in range(62)] for _ in range(25)]
    for page in made:
        pages.append(kind + " " + " ".join(map(str, page)))
        lines += dumped(kind, page)

with open(sys.argv[1], "w") as f:
    f.write("\n".join(pages) + "\n")
with open(sys.argv[2], "w") as f:
    f.write("\n".join(lines) + "\n")
