#!/usr/bin/env python3
"""Fails device calls of the program over real files: `tools/faults/failing_device.py`. Where something is lost, it says
so and ends with status 1.

One list of lines is run over a store, which grows in it, and one of its reads, writes and syncs fails, the first, the
second and so on; or that one and all after it. So it is where written blocks wait in memory, too, up to two or to 64. A
write that fails leaves nothing, half a block or one block. Then the store has to open again with what was acknowledged,
and the rest of the lines ends as usual. And each block of a store with a tree of two levels can't be read once it was
opened: what lies in it is answered with `error 15 Device`, and everything else as usual. Each call of a copy fails,
too, on the store or on the new file: the store stays as it was, and nothing has the name of the copy. Where no hard
link can be made, a copy is named all the same.

It needs a C compiler, and a program that is linked against glibc. It stands beside the gate, as `tools/faults/space.py`
does.
"""
import errno
import os
import sys
import tempfile
from itertools import groupby

sys.dont_write_bytecode = True
from compare import FIRST, Store, read
from fixed_run import BLOCK, BLOCKS, Failure, create, expect, run_and_finish, start
from preloaded import ALTCTL, PROGRAM, build_program, compiled, preloaded

# As many records as need a root over two leaves: with values of 300 bytes one leaf has 13 of them.
RECORDS, LEFT, VALUE = 17, 13, "v" * 300


def try_calls(folder, library, fails_on, torn, options):
    """Fails one call after another, until a run has no such call. Gives how many runs were stopped."""
    file, failed = os.path.join(folder, "store"), os.path.join(folder, "failed")
    call, is_there = 0, True
    while is_there:
        call += 1
        create(ALTCTL, file)
        how = f"call {call}{' and those after it' * fails_on} failed, a write after {torn} bytes, "
        how += f"{options or 'no options'}"
        variables = preloaded(library, failed=failed, fail_call=call, fail_on=fails_on, fail_torn=torn)
        stopped = run_and_finish(ALTCTL, file, how, program=PROGRAM, options=options, variables=variables)
        is_there = os.path.exists(failed)
        expect(f"{how}: stopped", is_there, stopped)
        os.remove(file)
        if is_there:
            os.remove(failed)
    return call - 1


def read_queries(altctl, file, variables=None):
    """What each record is answered, and the list."""
    lines = [f"get top 1 {number}" for number in range(1, RECORDS + 1)] + ["list top", "free"]
    return start(altctl, ["run", "--cache", "0", "--read-only", file], lines, variables=variables)


def opening_reads(file):
    """How often an opening for lines reads blocks, by the model: the root of two levels to find its level, and to find
    what lies under it, and no leaf."""
    text, store = read(file), Store(BLOCKS)
    store.disk = [text[at : at + BLOCK] for at in range(0, len(text), BLOCK)]
    store.open()
    return {**dict.fromkeys(store.held, 0), store.committed[0].current: 2}


def try_blocks(folder, library):
    """Has each block fail once the store is open. Gives how many blocks were asked for then."""
    file, failed = os.path.join(folder, "store"), os.path.join(folder, "failed")
    create(ALTCTL, file)
    puts = [f"put top 1 {number} {VALUE}" for number in range(1, RECORDS + 1)]
    expect("puts", (0, ["ok"] * (RECORDS + 1), ""), start(ALTCTL, ["run", file], [*puts, "commit"]))
    with open(file, "rb") as it:
        before = it.read()
    values, listed = [f"value {VALUE}"] * RECORDS, [f"record 1 {number} {VALUE}" for number in range(1, RECORDS + 1)]
    expect("queries", (0, [*values, *listed, f"end {RECORDS}", "free 27"], ""), read_queries(ALTCTL, file))
    lost, before_lines = {}, opening_reads(file)
    for block in range(BLOCKS):
        reads = before_lines.get(block, 1)
        variables = preloaded(library, failed=failed, fail_block=block, fail_after=reads)
        status, answers, faults = read_queries(PROGRAM, file, variables)
        expect(f"block {block} fails: the end", (0, "", "free 27"), (status, faults, answers[-1]))
        if not os.path.exists(failed):
            expect(f"block {block} is not asked for", [*values, *listed, f"end {RECORDS}"], answers[:-1])
            continue
        os.remove(failed)
        expect(f"block {block} fails: the list", ["error 15 Device"], answers[RECORDS:-1])
        expect(f"block {block} fails: the records", set(), {*answers[:RECORDS]} - {f"value {VALUE}", "error 15 Device"})
        lost[block] = sum(answer != f"value {VALUE}" for answer in answers[:RECORDS])
    # The root has all records, and each leaf those of its own.
    expect("records that a block takes with it", [RECORDS - LEFT, LEFT, RECORDS], sorted(lost.values()))
    with open(file, "rb") as it:
        expect("the file is as it was", True, it.read() == before)
    os.remove(file)
    return len(lost)


def try_merges(folder, library):
    """Fails one call after another of a merge that settles all conflicts by a side, alone or with all after it. It ends
    the session if it is answered that the device failed, and otherwise it is done, or refused and nothing has changed.
    Gives how many were."""
    file, failed = os.path.join(folder, "store"), os.path.join(folder, "failed")
    create(ALTCTL, file)
    lines = ["put top 1 1 a", "new x top", "put top 1 1 b", "put x 1 1 c", "commit"]
    expect("a conflict", (0, ["ok"] * 5, ""), start(ALTCTL, ["run", file], lines))
    before, merge = read(file), ["merge x all=theirs", "get x 1 1"]
    ends = {0: [], 1: []}
    for fails_on in ends:
        is_there = True
        while is_there:
            number = len(ends[fails_on]) + 1
            variables = preloaded(library, failed=failed, fail_call=number, fail_on=fails_on)
            came = start(PROGRAM, ["run", "--cache", "0", "--buffer", "0", file], merge, variables=variables)
            ends[fails_on].append(came)
            with open(file, "r+b") as it:
                it.write(before)
            is_there = os.path.exists(failed)
            if is_there:
                os.remove(failed)
    done, device = (0, ["ok 1", "value b"], ""), (3, ["error 15 Device"], "altctl: stopped\n")
    unsettled, unread = (0, ["error 9 Unsettled 1", "value c"], ""), (0, ["ok 1", "error 15 Device"], "")
    opening = [(1, [], f"altctl: cannot open {file}\n"), (1, [], "altctl: 15 Device\n")]
    for fails_on, all_ends in ends.items():
        expect(f"a merge without a fault, fails_on {fails_on}", done, all_ends[-1])
        due = [*opening, device, done, unread] if fails_on else [*opening, unsettled, device, done, unread]
        expect(f"how a merge ends, fails_on {fails_on}", [], [end for end in all_ends if end not in due])
        expect(f"which ends there are, fails_on {fails_on}", [], [end for end in due if end not in all_ends])
    os.remove(file)
    return sum(map(len, ends.values())) - 2


def try_locks(folder, library):
    """Fails the lock of a file: nothing is done without it, unless the words say so. Gives how many runs were
    refused."""
    file, failed, refused = os.path.join(folder, "store"), os.path.join(folder, "failed"), 0
    create(ALTCTL, file)
    before = read(file)
    jobs = [["do", file, "put top 1 1 v", "commit"], ["check", file], ["tree", file], ["copy", file, f"{file}.copy"]]
    for error in (errno.ENOLCK, errno.EOPNOTSUPP):
        variables = preloaded(library, failed=failed, fail_lock=error)
        for words in [*jobs, *([words[0], "--wait", *words[1:]] for words in jobs)]:
            how = f"{words}, where a lock fails by error {error}"
            expect(how, (1, [], f"altctl: cannot lock {file}\n"), start(PROGRAM, words, variables=variables))
            expect(
                f"{how}: the file, and a copy",
                (before, ["store"]),
                (read(file), [it for it in os.listdir(folder) if "store" in it]),
            )
            expect(f"{how}: it failed", True, os.path.exists(failed))
            os.remove(failed)
            refused += 1
        free = start(PROGRAM, ["do", "--no-lock", file, "free"], variables=variables)
        expect("no lock is asked for", (0, ["free 30"], "", False), (*free, os.path.exists(failed)))
    os.remove(file)
    return refused


def make_copied(file):
    """Makes a store with a tree of two levels. Gives its bytes, the blocks that its trees have, and the bytes of a
    copy, by the model."""
    create(ALTCTL, file)
    lines = [f"put top 1 {number} {VALUE}" for number in range(1, RECORDS + 1)]
    expect("puts", (0, ["ok"] * (RECORDS + 2), ""), start(ALTCTL, ["run", file], [*lines, "new x top", "commit"]))
    text, store = read(file), Store(BLOCKS)
    store.disk = [text[at : at + BLOCK] for at in range(0, len(text), BLOCK)]
    store.open()
    return text, store.reached(store.committed), b"".join(store.copied(BLOCKS).disk)


def copy_failing(folder, file, variables, how):
    """Copies a store while calls fail. Gives what came, whether a call failed, and the bytes of each file that was
    made."""
    to, failed = os.path.join(folder, "copy"), os.path.join(folder, "failed")
    before = read(file)
    came = start(PROGRAM, ["copy", file, to], variables={**variables, "FAILED": failed})
    expect(f"{how}: the store is as it was", True, read(file) == before)
    is_there, made = os.path.exists(failed), {}
    for name in ("copy", "copy.part"):
        if os.path.exists(os.path.join(folder, name)):
            made[name] = read(os.path.join(folder, name))
            os.remove(os.path.join(folder, name))
    if is_there:
        os.remove(failed)
    return came, is_there, made


def try_copy_calls(folder, library, fails_on, torn):
    """Fails one call of a copy after another, until a copy has no such call. Gives how many copies were stopped."""
    file = os.path.join(folder, "store")
    _, reached, whole = make_copied(file)
    ends, is_there = [], True
    while is_there:
        how = f"a copy, call {len(ends) + 1}{' and those after it' * fails_on} failed, a write after {torn} bytes"
        variables = preloaded(library, fail_call=len(ends) + 1, fail_on=fails_on, fail_torn=torn)
        came, is_there, made = copy_failing(folder, file, variables, how)
        ends.append((came, made))
    expect(
        f"{how}: none failed", ((0, [f"copied {BLOCKS}, {FIRST + len(reached)} used"], ""), {"copy": whole}), ends.pop()
    )
    # The opening of the store, then the making of the file, which stays as far as it came, then the copying: that file
    # is removed.
    said = (1, "15 Device", []), (1, f"cannot create {folder}/copy.part", ["copy.part"]), (3, "stopped", [])
    due = [((status, [], f"altctl: {text}\n"), names) for status, text, names in said]
    phases = [(kind, len([*calls])) for kind, calls in groupby((came, [*made]) for came, made in ends)]
    expect("copies with failing calls: how they end", due, [kind for kind, _ in phases])
    # A sync and a read of block 0, a read and a write of each block, then the slot, the selector, a sync, the header, a
    # sync.
    expect("calls of the copying", 2 + 2 * len(reached) + 5, phases[-1][1])
    os.remove(file)
    return len(ends)


def try_copy_blocks(folder, library):
    """Has each block of a store fail from its second read on: the copy is stopped by those that have records."""
    file = os.path.join(folder, "store")
    _, reached, whole = make_copied(file)
    done = (0, [f"copied {BLOCKS}, {FIRST + len(reached)} used"], "")
    for block in range(BLOCKS):
        how = f"a copy, block {block} cannot be read again"
        came, is_there, made = copy_failing(folder, file, preloaded(library, fail_block=block), how)
        # Block 0 is the one in which the copy looks for a header.
        is_needed = block in reached or block == 0
        expect(how, ((3, [], "altctl: stopped\n"), {}) if is_needed else (done, {"copy": whole}), (came, made))
        expect(f"{how}: that came", is_needed, is_there)
    os.remove(file)
    return len(reached) + 1


def try_copy_links(folder, library):
    """Copies where the system makes no hard links: the copy is renamed."""
    file = os.path.join(folder, "store")
    _, reached, whole = make_copied(file)
    for error in (errno.EPERM, errno.EOPNOTSUPP, errno.EMLINK):
        how = f"a copy, a hard link fails by error {error}"
        due = (0, [f"copied {BLOCKS}, {FIRST + len(reached)} used"], ""), True, {"copy": whole}
        expect(how, due, copy_failing(folder, file, preloaded(library, fail_link=error), how))
    os.remove(file)


def main():
    try:
        with tempfile.TemporaryDirectory() as folder:
            build_program()
            library = compiled("fail_calls", folder)
            faults = [(fails_on, torn) for fails_on in (0, 1) for torn in (0, BLOCK // 2, BLOCK)]
            options = [[], ["--buffer", "1"], ["--buffer", "2"], ["--buffer", "64"]]
            stops = sum(try_calls(folder, library, *fault, given) for given in options for fault in faults)
            blocks = try_blocks(folder, library)
            locks = try_locks(folder, library)
            merges = try_merges(folder, library)
            try_copy_links(folder, library)
            copies = sum(try_copy_calls(folder, library, *fault) for fault in faults) + try_copy_blocks(folder, library)
    except Failure as failure:
        print(f"failing_device: {failure}", file=sys.stderr)
        return 1
    print(
        f"failing_device: nothing is lost: {stops} runs and {copies} copies were stopped at a call, "
        f"{blocks} blocks could not be read,"
    )
    print(f"    {merges} merges met a fault, and {locks} runs got no lock")
    return 0


if __name__ == "__main__":
    sys.exit(main())
