"""The limits and refusals of the service, as docs/PLANNERS.md lists them. One user may take a quarter of what all
share."""

# The longest line. The program takes one of 1,048,576 bytes, with the number of a planner before it.
LINE_BYTES = 1_048_560
# A batch between `begin` and `commit`. The program takes 100,000 lines, three of which may be the service's.
BATCH_LINES = 99_997
BATCH_BYTES = 64 << 20
# How many seconds a batch may be held.
HELD_SECONDS = 600
# Held and waiting lines of all planners together. Each line counts LINE_COST more than its bytes, as it does in memory.
HELD_BYTES = 320 << 20
LINE_COST = 64
# Connections.
PLANNERS = 1024
# What is read from a connection at once. No more is read until its whole lines have been carried out.
RECEIVED_BYTES = 32 << 10
# Lines in one commit, where each KiB counts as one more, and how many batches of it may be of one planner.
GROUP = 1024
GROUP_OF_ONE = 64
# A batch of more than that has a commit of its own.
SMALL_LINES = 64
SMALL_BYTES = 64 << 10
# Unread answers that are kept in memory: of a planner, and of all of them. The rest goes to temporary files, up to this
# size.
UNREAD_BYTES = 1 << 20
UNREAD_BYTES_OF_ALL = 64 << 20
UNREAD_FILES = 16 << 30
# After so long without progress in reading answers a planner is disconnected.
UNREAD_SECONDS = 60
# How long a start waits for the lock: the program of a service that was killed ends a moment later.
LOCK_SECONDS = 30
# Alternatives and checkpoints of one user, unless a rule says more.
ENTRIES = 127

REFUSALS = {
    90: "Denied",
    91: "NotDone",
    92: "Aborted",
    93: "NotInBatch",
    94: "TooLarge",
    95: "HeldTooLong",
    96: "HalfLine",
    97: "NotJournaled",
    98: "NoBackup",
    99: "Stopped",
    100: "TooManyPlanners",
    101: "Unsure",
    102: "TooManyEntries",
    103: "Changed",
    104: "NoArchive",
    105: "NoRoom",
    # The program's own, in a session of many planners.
    106: "NoSuchPlanner",
    107: "PlannerExists",
}


def of_one_user(limit: int) -> int:
    """How much of a limit one user may take."""
    return limit // 4


def refusal(number: int, *details: object) -> bytes:
    """The answer to a line that the service itself refuses."""
    return " ".join(["error", str(number), REFUSALS[number], *map(str, details)]).encode()


BAD_LINE = b"error 22 BadLine"
NO_SUCH_LINE = BAD_LINE + b" word 1: there is no such line"
LONG_LINE = b"error 23 LongLine"
