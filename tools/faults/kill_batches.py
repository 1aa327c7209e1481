#!/usr/bin/env python3
"""Sends random batches of lines to `altctl serve` over one real file, compares each answer with a plain model, kills
the program at random moments, and looks each time whether the file then shows the tree after a beginning of the batches
that has each one answered `ok`, and no part of another: `tools/faults/kill_batches.py [ALTCTL] [COUNT] [SEED]`. The
status is 1 if it does not. The model is that of `kill.py`."""
import argparse
import random
import signal
import subprocess
import sys
import tempfile
import threading
import time
from pathlib import Path

sys.dont_write_bytecode = True
sys.path.insert(0, str(Path(__file__).resolve().parent))
from kill import BLOCKS, EMPTY, Failure, answered, change, part_query, unlike

LONGEST_LIFE = 0.3
MOST_LINES = 12
OPTIONS = [[], ["--buffer", "1"], ["--cache", "0"], ["--grow"]]
FULL = "error 13 Full"


def carried_out(state, lines):
    """The answers to a batch that a line begins, and the state that it leaves."""
    answers, now = [], state
    for place, line in enumerate(lines):
        [answer], now = answered(now, line)
        if answer.startswith("error "):
            return refused(len(lines), place, answer), state
        answers.append(answer)
    return [*answers, "ok"], now


def refused(count, place, answer):
    """The answers to a batch and its commit of which one line is refused."""
    others = f"error 91 NotDone {place + 1}"
    return [others] * place + [answer] + [others] * (count - place)


def is_own_growth(grows, line):
    """Whether a line changes the number of blocks of a store that grows by itself. When that is the model cannot know,
    as it does not know how many blocks a state needs."""
    return grows and line.startswith("grow ")


def turn(chance, state, grows):
    """Lines to send, the answers that are due, and the state after them, or None for one that stays."""
    kind = chance.choices(["change", "batch", "query", "abort", "mixed", "word"], [30, 40, 15, 5, 5, 5])[0]
    line = change(chance, state, True)
    if kind == "change" and line != "rollback" and not is_own_growth(grows, line):
        [answer], after = answered(state, line)
        return [line], [answer], after
    if kind == "query":
        line = chance.choice(["alts", "list top", part_query(chance, state.tree)])
        return [line], answered(state, line)[0], state
    if kind == "word":
        return [chance.choice(["commit", "abort", "rollback"])], ["ok"], state
    lines, now = [], state
    for _ in range(chance.randrange(1, MOST_LINES)):
        line = change(chance, now, True)
        if line != "rollback" and not is_own_growth(grows, line):
            lines.append(line)
            now = answered(now, line)[1]
    if kind == "abort":
        return ["begin", *lines, "abort"], ["ok", *["error 92 Aborted"] * len(lines), "ok"], state
    if kind == "mixed":
        place = chance.randrange(len(lines) + 1)
        lines.insert(place, chance.choice(["list top", "begin", "free"]))
        return ["begin", *lines, "commit"], ["ok", *refused(len(lines), place, "error 93 NotInBatch")], state
    answers, after = carried_out(state, lines)
    return ["begin", *lines, "commit"], ["ok", *answers], after


def is_full(expected, came):
    """Whether the store had no block for a change: how many it has is no part of the model."""
    return FULL in came and len(came) == len(expected)


class Life:
    """One process, from its start until it is killed or ends."""

    JOB = ["serve"]
    # How many blocks the stores have: as many lives are lived over each of them.
    SIZES = [BLOCKS]

    def __init__(self, altctl, file, chance, state, count):
        self.chance, self.state, self.count = chance, state, count
        options = chance.choice(OPTIONS)
        self.grows = "--grow" in options
        words = [altctl, *self.JOB, *options, file]
        self.process = subprocess.Popen(words, stdin=subprocess.PIPE, stdout=subprocess.PIPE)
        # The states after the last batch that was answered, and after those sent since.
        self.possible = [state]

    def answers(self, expected):
        """As many lines as are expected, or fewer if the program ended."""
        came = []
        for _ in expected:
            line = self.process.stdout.readline().decode()
            if not line.endswith("\n"):
                return came, False
            came.append(line[:-1])
        return came, True

    def live(self):
        for _ in range(self.count):
            lines, expected, after = turn(self.chance, self.state, self.grows)
            self.possible = [self.state, after]
            try:
                self.process.stdin.write("".join(f"{it}\n" for it in lines).encode())
                self.process.stdin.flush()
            except BrokenPipeError:
                return
            came, is_whole = self.answers(expected)
            if not is_whole:
                return
            if came != expected and not is_full(expected, came):
                raise Failure(f"{lines}\n{unlike(lines[-1], expected, came)}")
            self.state = after if came == expected else self.state
            self.possible = [self.state]

    def end(self):
        try:
            self.process.stdin.close()
        except BrokenPipeError:
            pass  # It was killed.
        self.process.stdout.close()
        self.process.wait()


def grown_by_itself(state, blocks):
    """The state with this number of blocks, if it comes of doubling its own, and else as it is."""
    due = state.blocks
    while due < blocks:
        due *= 2
    return state._replace(blocks=due) if due == blocks else state


def seen(altctl, file, state, grows):
    """Where the file does not show this state, and the state, with the file's blocks if it has grown by itself."""
    lines = ["blocks", "alts"]
    for name in state.tree:
        lines += [f"list {name}", f"list {name}@", f"checks {name}"]
        lines += [f"list {name}@{it}" for it in state.tree[name].checkpoints]
    words = [altctl, "run", "--read-only", file]
    looked = subprocess.run(words, input="".join(f"{it}\n" for it in lines), stdout=subprocess.PIPE, text=True)
    came = looked.stdout.splitlines()
    if grows and came and came[0].startswith("blocks "):
        state = grown_by_itself(state, int(came[0].split()[1]))
    due = [f"blocks {state.blocks}"]
    for line in lines[1:]:
        due += answered(state, line)[0]
    return unlike("after the kill", due, came), state


def lived(altctl, file, chance, state, kills, life_of):
    """The state that the file shows after one life of this class."""
    life = life_of(altctl, file, chance, state, 10_000 if kills else chance.randrange(1, 60))
    timer = threading.Timer(chance.random() * LONGEST_LIFE, life.process.send_signal, [signal.SIGKILL])
    if kills:
        timer.start()
    try:
        life.live()
    finally:
        timer.cancel()
        if kills:
            life.process.kill()
        life.end()
    all_wrong = []
    for it in life.possible:
        wrong, shown = seen(altctl, file, it, life.grows)
        if not wrong:
            return shown
        all_wrong.append(wrong)
    raise Failure(f"{len(all_wrong)} states may be shown, and none is\n" + "\n".join(all_wrong))


def main(life_of=Life, about=__doc__):
    parser = argparse.ArgumentParser(description=about)
    parser.add_argument("altctl", nargs="?", default=str(Path(__file__).resolve().parents[2] / "altctl"))
    parser.add_argument("count", nargs="?", type=int, default=200)
    parser.add_argument("seed", nargs="?", type=int, default=int(time.time()))
    given = parser.parse_args()
    chance = random.Random(given.seed)
    with tempfile.TemporaryDirectory() as folder:
        try:
            for place, blocks in enumerate(life_of.SIZES):
                file, state = f"{folder}/{place}.alt", EMPTY._replace(blocks=blocks)
                subprocess.run([given.altctl, "create", file, str(blocks)], check=True, stdout=subprocess.DEVNULL)
                for number in range(place, given.count, len(life_of.SIZES)):
                    state = lived(given.altctl, file, chance, state, chance.random() < 0.8, life_of)
        except Failure as failure:
            print(f"seed {given.seed}, life {number}: {failure}")
            return 1
    print(f"{given.count} lives, {len(state.tree)} alternatives at the end")
    return 0


if __name__ == "__main__":
    sys.exit(main())
