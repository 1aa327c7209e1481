"""What Ctrl-C does: one line that says what is in the store, no trace of the program, and a status that is not 0.

The handler ends the process at once, so nothing is half undone: `altctl` sees that its input has ended, and what was
not committed is not there. While a commit is on its way, the handler waits for its answer."""
import contextlib
import os
import shutil
import signal
import sys

INTERRUPTED = 130
_state = {"told": "nothing was changed", "is_busy": False, "folders": [], "is_asked": False}


def _end(told):
    for folder in _state["folders"]:
        shutil.rmtree(folder, ignore_errors=True)
    with contextlib.suppress(OSError, ValueError):
        sys.stdout.flush()
    os.write(2, f"altgis: interrupted: {told}\n".encode())
    os._exit(INTERRUPTED)


def _interrupted(*_):
    if not _state["is_busy"]:
        _end(_state["told"])
    if _state["is_asked"]:
        _end("the store was at work on the change: look whether it is there")
    _state["is_asked"] = True


def catch():
    signal.signal(signal.SIGINT, _interrupted)


def end():
    """All is done and told: there is nothing left to interrupt."""
    signal.signal(signal.SIGINT, signal.SIG_IGN)


def remove_at_end(folder):
    """Lets an interruption remove this folder, too."""
    _state["folders"].append(folder)


def done(told):
    """From now on this is what an interruption leaves."""
    _state["told"] = told


@contextlib.contextmanager
def held_back(told):
    """Holds an interruption back until the block is done. Then `told` is what is so."""
    _state["is_busy"] = True
    try:
        yield
        _state["told"] = told
    finally:
        _state["is_busy"] = False
    if _state["is_asked"]:
        _end(told)
