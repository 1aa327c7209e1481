#!/usr/bin/env python3
"""Tries what the program does where there is no room for a file: `tools/faults/space.py [ALTCTL]`. Where something is
lost, it says so and ends with status 1.

Room is wanting in two ways: by a limit on the size of a file, for each number of blocks; and in a small file system of
its own, in memory, that has each number of blocks left, of which a hole takes none. Each time one list of lines is run
over a store, which grows in it. It may stop with `error 15 Device`; then the store has to open again with what was
acknowledged, in a file that is no shorter than it was, and the rest of the lines, with room, ends as usual. Where a
file may not be as long as a growth wants it, it is that line which is answered so, and no later one; in a full file
system a growth is a hole, and a later commit is answered so. A copy for which there is no room is not made. The small
file system is mounted in a namespace of its own; where the machine does not allow that, this part is left out, and the
last line says so. It stands beside the gate: a full device is a device that fails, over which the store is proved; this
tries files and the program.
"""
import os
import resource
import subprocess
import sys
import tempfile

sys.dont_write_bytecode = True
from compare import MOST
from fixed_run import (
    BLOCK, BLOCKS, LARGEST, LINES, MORE, QUERIES, SHOWN, Failure, check_answers, create, expect, finish, run_and_finish,
    shown_after, start,
)

# So many blocks are written of a new store: the header, the selector and a slot; and of a copy that has two more.
CREATED, COPIED = 3, 5


def limited_to(blocks):
    """Limits the size of files to a number of blocks."""
    return lambda: resource.setrlimit(resource.RLIMIT_FSIZE, (blocks * BLOCK, resource.RLIM_INFINITY))


def create_without_room(altctl, file, blocks, prepare=None):
    """Has the program make a file for which there is room for so many blocks alone. What was written of it stays, and
    is no store."""
    came = start(altctl, ["create", file, str(BLOCKS)], prepare=prepare)
    expect(f"create, with room for {blocks} blocks", (1, [], f"altctl: cannot create {file}\n"), came)
    if os.path.getsize(file) > blocks * BLOCK:
        raise Failure(f"create, with room for {blocks} blocks: the file has {os.path.getsize(file)} bytes")
    expect(f"run over {blocks} blocks", (1, [], "altctl: 19 NotAStore\n"), start(altctl, ["run", file], LINES))
    again = start(altctl, ["create", file, str(BLOCKS)])
    expect("create over a file that stayed", (1, [], f"altctl: cannot create {file}\n"), again)
    os.remove(file)


def copy_without_room(altctl, source, file, blocks, prepare=None):
    """Has the program copy a store to a file, with room for this many blocks alone. Nothing gets its name, and what was
    written is no store."""
    part = f"{file}.part"
    with open(source, "rb") as it:
        before = it.read()
    for how in (f"a copy, with room for {blocks} blocks", "a copy over a file that stayed"):
        came = start(altctl, ["copy", source, file], prepare=prepare)
        expect(how, (1, [], f"altctl: cannot create {part}\n", False), (*came, os.path.lexists(file)))
    if os.path.getsize(part) > blocks * BLOCK:
        raise Failure(f"a copy, with room for {blocks} blocks: the file has {os.path.getsize(part)} bytes")
    expect(f"check of {blocks} blocks", (1, [], "altctl: 19 NotAStore\n"), start(altctl, ["check", part]))
    with open(source, "rb") as it:
        expect("the store that was copied is as it was", True, it.read() == before)
    os.remove(part)


def copy_with_room(altctl, source, file, prepare=None):
    """Has the program copy a store to a file for which there is just enough room."""
    came = start(altctl, ["copy", source, file], prepare=prepare)
    expect("a copy, with room for each block", (0, [f"copied {BLOCKS}, 36 used"], ""), came)
    expect("a copy, its other name", False, os.path.lexists(f"{file}.part"))
    expect("a copy, opened", (0, SHOWN[5], ""), start(altctl, ["run", file], QUERIES))
    os.remove(file)


def make_copied(altctl, folder):
    """Makes a store that can be copied, with the first of the lines."""
    source = os.path.join(folder, "source")
    create(altctl, source)
    expect("lines of a store to copy", (0, ["ok"] * 5, ""), start(altctl, ["run", source], LINES[:5]))
    return source


def try_limits(altctl, folder):
    """Limits the size of the file to each number of blocks. Gives how many of the runs were stopped."""
    file, source = os.path.join(folder, "limited"), make_copied(altctl, folder)
    for blocks in range(BLOCKS):
        create_without_room(altctl, file, blocks, limited_to(blocks))
        copy_without_room(altctl, source, file, blocks, limited_to(blocks))
    copy_with_room(altctl, source, file, limited_to(BLOCKS))
    stops = 0
    for blocks in range(MORE + 1):
        create(altctl, file)
        how = f"with a limit of {blocks} blocks"
        stops += run_and_finish(altctl, file, how, prepare=limited_to(blocks))
        os.remove(file)
    return stops


def stop_create(altctl, file, blocks):
    """Has the program make a file of which so many blocks alone can be written. It stays, and is no store."""
    came = start(altctl, ["create", file, str(BLOCKS)])
    expect(f"create, with {blocks} blocks left", (1, [], "altctl: 15 Device\n"), came)
    expect(f"run, with {blocks} blocks left", (1, [], "altctl: 19 NotAStore\n"), start(altctl, ["run", file], LINES))
    os.remove(file)


def stop_copy(altctl, source, file, blocks):
    """The same of a copy. Nothing of it stays, and the store is as it was."""
    with open(source, "rb") as it:
        before = it.read()
    came = start(altctl, ["copy", source, file])
    expect(f"a copy, with {blocks} blocks left", (3, [], "altctl: stopped\n"), came)
    expect("what stays of it", [], [it for it in (file, f"{file}.part") if os.path.lexists(it)])
    with open(source, "rb") as it:
        expect("the store that was copied is as it was", True, it.read() == before)


def limited_growths(altctl, folder):
    """Grows a store over a limit on the size of its file: it stops at the growth, and the file is as long as it was.
    Gives how many growths were stopped."""
    file, prepare = os.path.join(folder, "grown"), limited_to(BLOCKS + 10)
    for more in range(11, 41):
        create(altctl, file)
        lines = ["put top 1 1 a", "commit", f"grow {BLOCKS + more}", "put top 1 2 b"]
        came = start(altctl, ["run", file], lines, prepare=prepare)
        expect(f"a growth by {more} blocks", (3, ["ok", "ok", "error 15 Device"], "altctl: stopped\n"), came)
        expect(f"a growth by {more} blocks: blocks of the file", BLOCKS, os.path.getsize(file) / BLOCK)
        due = (0, ["record 1 1 a", "end 1", "free 29", "error 21 BadSize", "ok", "free 39"], "")
        queries = ["list top", "free", f"grow {BLOCKS}", f"grow {BLOCKS + 10}", "free"]
        expect(f"a growth by {more} blocks, opened again", due, start(altctl, ["run", file], queries, prepare=prepare))
        due = (0, ["ok", f"free {29 + more}", "ok"], "")
        lines = [f"grow {BLOCKS + more}", "free", "commit"]
        expect(f"a growth by {more} blocks, with room", due, start(altctl, ["run", file], lines))
        expect(f"a growth by {more} blocks: its end", BLOCKS + more, os.path.getsize(file) / BLOCK)
        os.remove(file)
    return 30


def leave_free(folder, blocks):
    """Fills the file system but for so many blocks."""
    filler = os.path.join(folder, "filler")
    with open(filler, "wb", buffering=0) as it:
        try:
            while it.write(bytes(BLOCK)) == BLOCK:
                pass
        except OSError:
            pass
        length = it.seek(0, os.SEEK_END) // BLOCK * BLOCK
        it.truncate(length - blocks * BLOCK)
    space = os.statvfs(folder)
    expect("blocks that are left free", blocks, space.f_bavail * space.f_frsize // BLOCK)
    return filler


def full_growths(altctl, folder):
    """Growths where the file system has 20 blocks left. They take none of them; a later change or commit finds no room,
    and all commits before it last. Gives how many runs were stopped."""
    file, sizes = os.path.join(folder, "grown"), (MORE, 2 * BLOCKS, 100_000, MOST)
    for blocks in sizes:
        create(altctl, file)
        filler, how = leave_free(folder, 20), f"a growth to {blocks} blocks of a full disk"
        puts = [[f"put top 1 {number} {LARGEST}", "commit"] for number in range(20)]
        lines = [f"grow {blocks}", "commit", *(line for pair in puts for line in pair)]
        status, answers, faults = start(altctl, ["run", file], lines)
        expect(how, (3, "error 15 Device", "altctl: stopped\n"), (status, answers[-1], faults))
        expect(f"{how}: what came before", {"ok"}, {*answers[:-1]})
        expect(f"{how}: blocks of the file", blocks, os.path.getsize(file) / BLOCK)
        done = answers.count("ok") // 2 - 1
        status, shown, faults = start(altctl, ["run", file], ["blocks", "list top"])
        # A commit that was answered so may be there.
        may_show = [done, done + 1] if lines[len(answers) - 1] == "commit" else [done]
        due = [[f"blocks {blocks}", *rows(records)] for records in may_show]
        expect(f"{how}, opened again", (0, "", True), (status, faults, shown in due))
        os.remove(filler)
        rest = [line for pair in puts[done:] for line in pair]
        expect(f"{how}, with room", (0, ["ok"] * len(rest), ""), start(altctl, ["run", file], rest))
        expect(f"{how}: its end", (0, rows(len(puts)), ""), start(altctl, ["run", file], ["list top"]))
        os.remove(file)
    return len(sizes)


def rows(records):
    """What `list top` shows of so many of those records."""
    return [*(f"record 1 {number} {LARGEST}" for number in range(records)), f"end {records}"]


def copy_with_holes(whole, file, first=2):
    """Copies a file. From the first block that is given on, one of zero bytes takes no room in the copy."""
    with open(whole, "rb") as source, open(file, "wb") as target:
        for n in range(BLOCKS):
            block = source.read(BLOCK)
            if n < first or any(block):
                target.seek(n * BLOCK)
                target.write(block)
        target.truncate(BLOCKS * BLOCK)


def open_without_room(altctl, whole, file):
    """Has the program open a store whose selector, block 1, is a hole, where no block is left: the opening writes it,
    and cannot."""
    copy_with_holes(whole, file, 1)
    filler = leave_free(os.path.dirname(file), 0)
    expect(
        "an opening that needs a block", (1, [], f"altctl: cannot open {file}\n"), start(altctl, ["run", file], LINES)
    )
    expect("a look that needs none", (0, ["end 0"], ""), start(altctl, ["run", "--read-only", file], ["list top"]))
    os.remove(filler)
    os.remove(file)


def try_small_disk(altctl, folder):
    """The same where the file system has each number of blocks left. The folder is mounted in memory."""
    file, whole, source = os.path.join(folder, "small"), os.path.join(folder, "whole"), make_copied(altctl, folder)
    for blocks in range(COPIED):
        filler = leave_free(folder, blocks)
        if blocks < CREATED:
            stop_create(altctl, file, blocks)
        stop_copy(altctl, source, file, blocks)
        os.remove(filler)
    filler = leave_free(folder, COPIED)
    copy_with_room(altctl, source, file)
    os.remove(filler)
    os.remove(source)
    create(altctl, whole)
    open_without_room(altctl, whole, file)
    stops, stopped = 0, True
    while stopped:
        copy_with_holes(whole, file)
        filler = leave_free(folder, stops)
        how = f"with {stops} blocks left"
        status, answers, faults = start(altctl, ["run", file], LINES)
        stopped = check_answers(file, status, answers, faults, how)
        after = shown_after(altctl, file, answers, how)
        os.remove(filler)
        finish(altctl, file, after, how)
        os.remove(file)
        stops += stopped
    return stops


def mount_and_try(altctl):
    """In a namespace of its own: mounts a small file system, and tries it."""
    with tempfile.TemporaryDirectory() as folder:
        subprocess.run(["mount", "-t", "tmpfs", "-o", f"size={4 * BLOCKS * BLOCK}", "none", folder], check=True)
        try:
            print(try_small_disk(altctl, folder) + full_growths(altctl, folder))
        finally:
            subprocess.run(["umount", folder], check=True)


def small_disk(altctl):
    """The number of runs that were stopped on a small file system, or None where none can be mounted."""
    unshare = ["unshare", "--map-root-user", "--mount"]
    probe = [*unshare, "mount", "-t", "tmpfs", "none", "/mnt"]
    try:
        if subprocess.run(probe, stderr=subprocess.DEVNULL).returncode:
            return None
    except FileNotFoundError:
        return None
    inside = subprocess.run(
        [*unshare, sys.executable, os.path.abspath(__file__), "--inside", altctl], stdout=subprocess.PIPE, text=True
    )
    if inside.returncode:
        raise Failure("on a small file system, as said above")
    return int(inside.stdout)


def main():
    words = sys.argv[1:]
    is_inside = words[:1] == ["--inside"]
    beside = os.path.join(os.path.dirname(os.path.abspath(__file__)), "..", "..", "altctl")
    altctl = os.path.abspath((words[is_inside:] or [beside])[0])
    try:
        if is_inside:
            mount_and_try(altctl)
            return 0
        with tempfile.TemporaryDirectory() as folder:
            limited = try_limits(altctl, folder) + limited_growths(altctl, folder)
        full = small_disk(altctl)
    except Failure as failure:
        print(f"space: {failure}", file=sys.stderr)
        return 1
    told = "no small file system can be mounted here" if full is None else f"{full} on a small file system"
    print(
        f"space: nothing is lost: {BLOCKS} files and as many copies were not made whole, "
        f"{limited} runs were stopped by a limit, {told}"
    )
    return 0


if __name__ == "__main__":
    sys.exit(main())
