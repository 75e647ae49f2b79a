#!/usr/bin/env python3
"""What the program `feeders` must print, by the model of the index in `model.py`.

    python3 tests/feeders.py > crates/feeders/stdout
"""
from model import Index, Interval, Refused

RANGES = [
    (100, 100), (120, 120), (150, 180), (220, 270), (330, 330), (390, 470), (560, 560), (680, 820), (1000, 1000),
    (1200, 1500), (1800, 1800), (2200, 2200), (2700, 3300), (3900, 3900), (5100, 4700), (4700, 5100), (5600, 5600),
    (6800, 8200), (10000, 10000), (10000, 12000), (15000, 15000), (18000, 22000), (27000, 27000), (33000, 39000),
    (47000, 47000), (56000, 68000), (82000, 82000), (100000, 100000), (100, 270), (1000, 10000), (470, 470),
]
ASKED = [(240, 480), (10000, 10000), (2300, 2600), (4800, 240), (0, 2**32 - 1)]


def shown(place):
    low, high = RANGES[place]
    return f"slot {place + 1}, {low} to {high} ohm"


def reason(no):
    if no.args[0] == 21:
        return "refused 21: the low end in word 0 is above its high end"
    return f"refused 33: {no.args[1]} pages are needed, {no.args[2]} are free"


def run(pages):
    print(f"{pages} pages in memory")
    index, plugged = Index(Interval, pages), {}
    for place, (low, high) in enumerate(RANGES):
        try:
            number = index.insert([low, high, 0, 0])
            plugged[number] = place
            print(f"{shown(place)}: plugged in as record {number}")
        except Refused as no:
            print(f"{shown(place)}: " + ("" if no.args[0] == 21 else "not plugged in: ") + reason(no))
    for low, high in ASKED:
        print(f"feeders with {low} to {high} ohm:")
        try:
            for number, _ in index.search(1, [low, high, 0, 0]):
                print(f"  {shown(plugged[number])}")
        except Refused as no:
            print(reason(no))
    print("behind a cache and behind two: the same answers")


run(6)
run(2)
