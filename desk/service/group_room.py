"""The room on the disk that groups of batches need, by how many blocks are in use."""
from typing import Callable, List, Optional, Sequence

from service.disk_room import AHEAD, FIRST, LARGE, MARGIN, MOST, ROOM, DiskRoom, Uses
from service.sending import Sent
from service.store import Store


class GroupRoom:
    def __init__(self, store: Store, ask: Callable[[List[bytes]], List[bytes]]):
        self.store, self.ask = store, ask
        self.disk, self.uses = DiskRoom(store.lock), Uses()
        # A marking may be of use when there is no room, unless somebody needs the free blocks to stay as they are.
        self.may_mark: Callable[[], bool] = lambda: True

    def known(self) -> Uses:
        """How many blocks there are."""
        if not self.uses.is_known:
            self.uses.note(self.ask([*ROOM]))
        return self.uses

    def lacking(self, group: Sequence[Sent], marks: bool = False) -> Optional[str]:
        """Why there may be no room for the blocks of a group, perhaps even after a marking, as an error of the system;
        None if there surely is. How many changes a merge makes is asked only if it matters."""
        records = sum([it.effect.records + it.batch.own for it in group])
        fault = None
        if not any(it.effect.merges for it in group) or self._lacking(MOST[1], group) is not None:
            fault = self._lacking(records + self._merged(group, records), group)
        return self.lacking(group) if fault is not None and marks and self._mark() else fault

    def _lacking(self, changes: int, group: Sequence[Sent]) -> Optional[str]:
        uses, count = self.known(), MARGIN * changes
        front = max(FIRST, uses.used + count)
        if front > uses.blocks and not self.store.grows:
            grows = any(line.startswith(b"grow ") for it in group for line in it.batch.lines)
            front = front if grows else uses.blocks
        return self.disk.lacking(front, count, uses.needed)

    def _merged(self, group: Sequence[Sent], records: int) -> int:
        """How many changes the merges of a group make, which has so many others."""
        merges = [line.split(b" ") for it in group for line in it.batch.lines if line.startswith(b"merge ")]
        tallies = [it.split(b" ") for it in self.ask([b"tally " + it[1] for it in merges])]
        return sum([records + min(int(it[1]), int(it[2])) for it in tallies if it[0] == b"tally"])

    def take_ahead(self) -> None:
        """Has the file hold room ahead of need, so that commits seldom have to."""
        uses = self.known()
        self.disk.lacking(uses.used + AHEAD // 2, 0, uses.needed)
        if self.disk.file is not None and uses.used > self.disk.end + LARGE and self._mark():
            self.disk.lacking(uses.used + AHEAD // 2, 0, uses.needed)

    def _mark(self) -> bool:
        """Has the program mark, if that may be of use: what is not needed any more, and has room, is used again then.
        Returns whether it has."""
        may = self.uses.may_mark() and self.may_mark()
        if may:
            self.uses.note(self.ask([b"reclaim", *ROOM])[1:])
            self.uses.needed = self.uses.used
        return may
