#!/usr/bin/env python3
"""A design that is edited while its parent changes too, settled, merged and posted: `example.py FILE [ALTCTL]`, over
a file that `altctl create` has made."""
import sys

from altctl import Refusal, Store

DUCTS = 7


def plan(store):
    """A design with two changes. Meanwhile one of the two records changes in `top`, and another one."""
    store.new("north", "top")
    store.put("north", DUCTS, 1, b"duct 160 PVC")
    store.put("north", DUCTS, 2, b"duct 110 PVC")
    store.put("top", DUCTS, 1, b"duct 125 PVC")
    store.put("top", DUCTS, 3, b"duct 50 HDPE")


def merge_and_post(store, alt):
    """Settles each conflict for the design, where it has a value of its own, and posts it."""
    try:
        changed = store.merge(alt)
    except Refusal as refusal:
        print(f"refused: {refusal}")
        settled = {}
        for conflict in store.conflicts(alt):
            print(f"{conflict.table}:{conflict.number} is {conflict.mine} here, and {conflict.parent} in the parent")
            settled[conflict.table, conflict.number] = "mine" if conflict.mine is not None else "theirs"
        changed = store.merge(alt, settled)
    print(f"merged: {changed} record changed")
    store.post(alt)


def main():
    file, *program = sys.argv[1:]
    with Store(file, *program) as store:
        plan(store)
        merge_and_post(store, "north")
        store.drop("north")
        store.commit()
    with Store(file, *program) as store:
        for record in store.list("top"):
            print(record.table, record.number, record.value.decode())


if __name__ == "__main__":
    main()
