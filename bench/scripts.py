#!/usr/bin/env python3
"""Writes the scripts that `bench/run` runs to a folder. The same script comes out each time.

    bench/scripts.py FOLDER [NAME..]

two      two sources of two relations with 4,096 rows each, 4,096 updates a source, and three joined views
two_N    the same with N rows a relation and N updates a source, where N is 256, 512, 1024 or 2048
fan      a small relation joined to a large one, so that an update of it changes about 47 rows
listed   two, with 65,536 listed events of which 1,000 begin a scan
picked   two, with 1,024 updates a source, eight sessions, and a schedule that picks 65,536 events
"""
import json
import os
import random
import sys

SIZES = [256, 512, 1024, 2048]


class Source:
    """A source whose updates delete a key that is there or insert one that isn't."""

    def __init__(self, name, pick):
        self.name, self.pick, self.relations, self.keys = name, pick, [], {}

    def relation(self, name, columns, rows, keys, rest):
        """Adds a relation with so many rows, of so many keys that there may be. `rest` gives a row's columns after its key."""
        there = self.pick.sample(range(keys), rows)
        self.keys[name] = (keys, rest, set(there), list(there))
        self.relations.append({"name": name, "columns": columns, "key": [columns[0][0]], "rows": [[key, *rest(key)] for key in there]})

    def update(self, name, deletes=0.5):
        """An update of the relation, of which this part are deletes."""
        keys, rest, there, listed = self.keys[name]
        if there and (self.pick.random() < deletes or len(there) >= keys):
            at = self.pick.randrange(len(listed))
            key, listed[at] = listed[at], listed[-1]
            listed.pop()
            there.remove(key)
            return ["delete", name, [key]]
        key = self.pick.randrange(keys)
        while key in there:
            key = self.pick.randrange(keys)
        there.add(key)
        listed.append(key)
        return ["insert", name, [key, *rest(key)]]

    def written(self, updates):
        return {"name": self.name, "relations": self.relations, "updates": updates}


def columns(*names):
    return [[name, "number"] for name in names]


def view(name, relations, equal, out, **more):
    return {"name": name, "relations": relations, "equal": equal, **more, "out": out, "slots": 4096}


LINES = view("lines", ["orders", "items"], [["orders.item", "items.item"]], ["orders.id", "items.item", "items.bin", "orders.qty"])
BILL = view("bill", ["customers", "orders", "prices"], [["customers.id", "orders.cust"], ["orders.item", "prices.item"]],
            ["customers.id", "customers.name", "orders.id", "prices.item", "prices.cents", "orders.qty"])
STOCK = view("stock", ["items", "prices"], [["items.item", "prices.item"]], ["items.item", "prices.item", "items.bin", "prices.cents"],
             where=[["items.bin", "<", 900]])


def two(rows, seed=1, updates=None):
    """Two sources of two relations with so many rows each, and so many updates a source: as many as rows where none are
    given."""
    pick = random.Random(seed)
    keys = rows * 3 // 2
    first, second = Source("A", pick), Source("B", pick)
    first.relation("orders", columns("id", "item", "cust", "qty"), rows, keys,
                   lambda key: [pick.randrange(keys), pick.randrange(keys), pick.randrange(100)])
    first.relation("customers", [["id", "number"], ["name", "text"]], rows, keys,
                   lambda key: [f"name {key % 977}"])
    second.relation("items", columns("item", "bin"), rows, keys, lambda key: [pick.randrange(1000)])
    second.relation("prices", columns("item", "cents"), rows, keys, lambda key: [pick.randrange(100000)])
    sold = [first.update("orders" if pick.random() < 0.7 else "customers") for _ in range(updates or rows)]
    moved = [second.update("items" if pick.random() < 0.5 else "prices") for _ in range(updates or rows)]
    return {"sources": [first.written(sold), second.written(moved)], "views": [LINES, BILL, STOCK]}


def fan():
    """Orders of 96 items, of which each is in some 47."""
    pick = random.Random(2)
    first, second = Source("A", pick), Source("B", pick)
    first.relation("orders", columns("id", "item", "qty"), 4096, 4600, lambda key: [pick.randrange(96), pick.randrange(100)])
    second.relation("items", columns("item", "bin"), 64, 96, lambda key: [pick.randrange(1000)])
    sold = [first.update("orders") for _ in range(4096)]
    moved = [second.update("items", 0.52) for _ in range(4096)]
    return {"sources": [first.written(sold), second.written(moved)], "views": [LINES]}


# how often each event is listed, but for scans
WEIGHTS = {"commit A": 10, "commit B": 10, "integrate A": 20, "integrate B": 20, "answer A": 12, "answer B": 12, "manage": 40, "act": 18,
           "rel": 16, "begin": 12, "change": 30, "publish": 12, "open": 1, "fetch": 6, "close": 0.5}


def listed():
    """`two` with eight sessions and 65,536 events, one in 65 of which begins a scan until there are 1,000."""
    made = two(4096, 4)
    made["sessions"] = [f"s{session}" for session in range(8)]
    pick, events, scans = random.Random(5), [], 0
    views = [view["name"] for view in made["views"]]
    while len(events) < 65536:
        if len(events) % 65 == 7 and scans < 1000:
            scans += 1
            events.append(f"scan s{pick.randrange(8)} {pick.choice(views)}")
            continue
        event = pick.choices(list(WEIGHTS), list(WEIGHTS.values()))[0]
        if event in ("manage", "act") or event.startswith("answer"):
            event += f" {pick.choice(views)}"
        elif event in ("open", "close"):
            event += f" s{pick.randrange(8)}"
        elif event == "fetch":
            event += f" s{pick.randrange(8)} {pick.choice([64, 512, 4096, 65536])}"
        events.append(event)
    made["schedule"] = {"events": events}
    return made


def picked():
    """`two` with 1,024 updates a source, eight sessions, and a schedule that picks 65,536 events."""
    made = two(4096, 6, 1024)
    made["sessions"] = [f"s{session}" for session in range(8)]
    made["schedule"] = {"start": 1, "steps": 65536}
    return made


NAMES = [*(f"two_{size}" for size in SIZES), "two", "fan", "listed", "picked"]
OTHERS = {"fan": fan, "listed": listed, "picked": picked}


def script(name):
    """The text of the script with this name."""
    made = OTHERS[name]() if name in OTHERS else two(int(name[4:] or 4096))
    return json.dumps(made, separators=(",", ":"))


if __name__ == "__main__":
    if len(sys.argv) < 2:
        sys.exit(__doc__)
    os.makedirs(sys.argv[1], exist_ok=True)
    for name in sys.argv[2:] or NAMES:
        with open(os.path.join(sys.argv[1], f"{name}.json"), "w") as file:
            file.write(script(name))
