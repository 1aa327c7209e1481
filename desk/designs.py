"""What the desk shows of a store's designs: the tree of them, what each has changed, what is in conflict, and the
features in a window of the map. `altdesk` stands on this module; maps.py says how a layer lies in the store, and
places.py its index.

Of a design is read what it has changed, and then what a window or a question needs. After a batch only the keys are
looked at that its lines in the journal name; a merge, a post or `back` names none, so the design is looked at anew, as
it is where more lines came than are followed. Where a store has no index, the bounds of all features are read once,
page by page."""
import contextlib
import secrets

import descriptions
import joining
import maps
import places
from altctl import Refusal
from carry.names import PREFIX
from changes import Changes
from design import Design
from descriptions import Descriptions
from finding import Finder
from maps import numbers
from news import MOST_LINES, STEP, Journal, News
from numbering import Numbers
from values import aspect_of, metres_of, text_of

# The alternatives that programs keep for themselves: no designs.
OWN = {".service", places.OWN, descriptions.OWN, numbers.OWN}
MOST_MOVED = 1000  # features that lie elsewhere than the index says, before it is renewed
MOST_DESIGNS = 4  # that stay in memory
MOST_CONFLICTS = 100  # on a page of them
MOST_COMPARED = 1000  # features whose courses are drawn where two designs are compared


def is_own(name):
    """Whether an alternative is one that a program keeps for itself, or that of a field office or of an import."""
    return name in OWN or name.startswith((PREFIX, maps.IMPORTS))


def is_own_line(line):
    """Whether a line of the journal is about such an alternative, or about a checkpoint that a program has set."""
    verb, *words = line.split()
    return bool(words) and (is_own(words[0]) or verb in ("checkpoint", "uncheck") and words[1].startswith("."))


def without_steps(entries):
    """The lines of the journal that people read. Of a pull or a push of a field office that is the one that names the
    office anew."""
    steps = {it.batch for it in entries if it.line.startswith(STEP)}
    return [it for it in entries if it.line.startswith(STEP) or it.batch not in steps and not is_own_line(it.line)]


class Designs:
    """The designs of a service's store, as they are at the batch up to which the journal was read. `epoch` tells them
    from those of another connection: while there was none, anything may have been done to the store."""

    def __init__(self, store):
        self.store, self.batch, self.parents, self.news, self.rows = store, None, {}, [], None
        self.planner, self.epoch, self.journal = store.whoami(), secrets.token_hex(8), Journal(store)
        self.about_designs, self.numbers, self.finder = Descriptions(), Numbers(), Finder()
        self._forget(0)

    def _forget(self, batch):
        """Lets everything be read anew."""
        self.designs, self.counts, self.touched, self.floor, self.indexes = {}, {}, {}, batch, {}
        self.indexed = batch  # The last batch that may have changed the index.

    def refresh(self):
        """Reads the journal on, and looks what its batches have changed."""
        news = self.journal.look()
        if news:
            self.take(news)

    def take(self, news: News):
        """Looks what batches have changed."""
        if self.batch is not None and news.batch <= self.batch:
            return
        self.rows, self.batch = None, news.batch
        parents = {it.name: it.parent for it in self.store.alternatives()}
        self.parents = {name: it for name, it in parents.items() if not is_own(name)}
        self.has_index = places.OWN in parents
        if not news.is_whole or not all(map(self._follow, news.entries)):
            self._forget(self.batch)
        for it in without_steps(news.entries):
            if not self.news or self.news[-1].line != it.line:
                self.news = [*self.news, it][-20:]

    def _follow(self, entry):
        """Marks what a line has changed. False where that cannot be told."""
        verb, *words = entry.line.split()
        if verb in ("grow", "reclaim"):
            return True
        alt = words[0]
        if verb == "post" and alt.startswith(maps.IMPORTS):
            return False
        if is_own_line(entry.line):
            # The index is made anew: where features lie is read again.
            if alt == places.OWN and verb in ("renew", "new"):
                self.designs, self.indexes = {}, {}
            if alt == places.OWN:
                self.indexed = entry.batch
            if alt == descriptions.OWN:
                self.about_designs.forget()
            return True
        if verb == "drop" or alt not in self.parents:
            return False
        below = [it for it, parent in self.parents.items() if parent == alt]
        if verb in ("put", "remove"):
            self._mark(int(words[1]), int(words[2]), alt, *below)
        elif verb in ("merge", "back", "new"):
            self._drop(alt, *below)
        elif verb == "post":
            parent = self.parents[alt]
            self._drop(alt, parent, *below, *(it for it, its in self.parents.items() if its == parent))
            self.touched[parent] = entry.batch
        self.touched[alt] = entry.batch
        return True

    def _mark(self, table, number, *alts):
        """Marks a record that has changed in one of these designs. A layer, and many records, let the design be read
        anew."""
        for it in alts:
            if it in self.designs:
                self.designs[it].stale.add((table, number))
                if table == 0 or len(self.designs[it].stale) > MOST_LINES:
                    del self.designs[it]

    def _drop(self, *alts):
        for it in alts:
            self.designs.pop(it, None)

    def stamp(self, alt):
        """The last batch that has changed what this design shows, its parent's included."""
        return max(self.touched.get(it, self.floor) for it in (alt, self.parents[alt]))

    def known(self, alt):
        if alt not in self.parents:
            raise maps.Fault(f"there is no design {alt} any more")
        return alt

    def design(self, alt):
        """A design as it is now."""
        found = self.designs.pop(self.known(alt), None) or self._read(alt)
        for name in list(self.designs)[: -MOST_DESIGNS + 1]:
            del self.designs[name]
        self.designs[alt] = found
        if found.stale:
            found.take()
        return found

    def _read(self, alt):
        found = Design(self.store, alt, self.parents[alt], self._index)
        if alt == "top" and self.has_index and sum(map(len, found.moved.values())) > MOST_MOVED:
            with contextlib.suppress(Refusal):  # Who may not do that has the map, too.
                places.renew(self.store, True)
                self.indexes = {}
                found = Design(self.store, alt, self.parents[alt], self._index)
        return found

    def _index(self, table):
        """The index of a table, None where there is none."""
        if self.has_index and table not in self.indexes:
            self.indexes[table] = places.Index(self.store, table)
        found = self.indexes.get(table)
        return found if found is not None and len(found.pages) else None

    def tree(self):
        """Each design with how many records it has changed and how many are in conflict, as `altctl tree` counts
        them."""
        if self.rows is None:
            self.rows = self._tree()
        return self.rows

    def _tree(self):
        rows = []

        def add(name, depth):
            changed, conflicts = self._count(name)
            checks = [it for it in self.store.checkpoints(name) if not it.startswith(".")]
            its = {"changed": changed, "conflicts": conflicts, "checkpoints": checks, "stamp": self.stamp(name)}
            its["about"] = self.about_designs.read(self.store).get(name, {})
            rows.append({"name": name, "parent": self.parents[name], "depth": depth, **its})
            for child, parent in self.parents.items():
                if parent == name:
                    add(child, depth + 1)

        add("top", 0)
        return rows

    def _count(self, alt):
        if self.parents[alt] is None:
            return None, None
        stamp, counts = self.counts.get(alt, (-1, None))
        if stamp < self.stamp(alt):
            tally = self.store.tally(alt)
            counts = tally.changed, tally.conflicts
            self.counts[alt] = self.batch, counts
        return counts

    def about(self, alt):
        """All of a design but its map."""
        design = self.design(alt)
        bounds = design.bounds()
        layers = [self._layer(design, table, it) for table, it in sorted(design.layers.items())]
        clashes = design.clashes
        in_conflict = {design.mine.feature_of(it) or it for it in design.conflicts}
        joined = in_conflict - {design.mine.feature_of(it) or it for it in clashes.features}
        told = {"conflicts_in_all": len(clashes.features), "joined": len(joined), "mark": clashes.marks[joining.REST]}
        told.update({"records": len(design.mine.rows), "conflicts": self.conflicts(alt, 0)})
        told.update(
            {"name": alt, "parent": self.parents[alt], "batch": self.batch, "stamp": self.stamp(alt), "layers": layers}
        )
        changes = design.mine.listed(design.status)
        size = {"bounds": bounds, "aspect": aspect_of(design.crs, bounds), "metres": metres_of(design.crs)}
        return {**told, **size, "changes": changes}

    def _layer(self, design, table, it):
        told = {"table": table, "name": it["name"], "is_on_map": table in design.on_map}
        told.update({"geometry": it["geometry"], "crs": it["crs"]})
        fields = [{"name": field["name"], "type": field["type"]} for field in it["fields"]]
        return {**told, "fields": fields, "style": design.style_of(table)}

    def conflicts(self, alt, first):
        """A page of the conflicts, with their features as base, parent and design have them."""
        design = self.design(alt)
        keys = sorted(design.clashes.features)[first : first + MOST_CONFLICTS]
        return [self.conflict(alt, design, key) for key in keys]

    def conflict(self, alt, design, key):
        """A feature in conflict, or a record that is of none, with each clash that takes a choice."""
        feature = design.mine.feature_of(key) or key
        versions = {"base": design.base, "parent": design.parent, "mine": alt}
        sides = {name: design.sides(feature, at) for name, at in versions.items()}
        clashes = design.clashes.features[key]
        told = [self._clash(design, it) for it in clashes]
        fields = ["course" if it["is_course"] else it["field"] for it in told]
        what = ", ".join(fields) if clashes[0].field else self._whole(alt, design, key, clashes[0])
        return {**design.mine.row(feature), "key": f"{key[0]}:{key[1]}", "what": what, "clashes": told, "sides": sides}

    def _whole(self, alt, design, key, clash):
        """What a clash is about that is one as a whole."""
        if key[0] not in design.mine.layers or not design.clashes.is_by_field:
            return design.mine.what(key)
        side = alt if clash.mine is None else design.parent if clash.parent is None else None
        return f"removed in {side}" if side else "added by both" if clash.base is None else design.mine.what(key)

    def _clash(self, design, clash):
        is_course = isinstance(clash.mine, bytes) or isinstance(clash.parent, bytes)
        sides = zip(("base", "parent", "mine"), (clash.base, clash.parent, clash.mine))
        has_texts = clash.field and not is_course
        texts = {name: None if it is None else text_of(it) for name, it in sides} if has_texts else {}
        key = str(clash)
        told = {"key": key, "field": clash.field, "is_course": is_course, "texts": texts}
        return {**told, "mark": design.clashes.marks[key], "sides": joining.can_be(clash)}

    def parent_changes(self, alt):
        """What a merge would bring in: how the parent differs from the design's base."""
        parent = self.parents[self.known(alt)]
        return Changes(self.store, f"{alt}@", parent).listed({}) if parent else []

    def compared(self, alt, other):
        """How two designs differ: what another one has that this one has not, or has otherwise. Of the first ones the
        courses are told, too."""
        changes = Changes(self.store, self.known(alt), self.known(other))
        listed, on_map = changes.listed({}), self.design(alt).on_map | self.design(other).on_map
        for it in [it for it in listed if it["table"] in on_map][:MOST_COMPARED]:
            feature = it["table"], int(it["number"])
            sides = self.design(alt).sides(feature, alt), self.design(other).sides(feature, other)
            it["before"], it["now"] = (side and side["course"] for side in sides)
        return listed

    def feature(self, alt, feature, other=None):
        """A feature: before, now, and with what types its fields are edited. Before is what another design has, if one
        is said."""
        design = self.design(alt)
        before, now = (design.sides(feature, at) for at in (design.base if other is None else self.known(other), alt))
        if before is None and now is None:
            raise maps.Fault(f"{alt} has no {design.mine.name(feature[0])} {feature[1]}")
        fields = [
            {"name": it["name"], "type": it["type"]}
            for it in design.mine.layers.get(feature[0], {"fields": []})["fields"]
        ]
        told = {"before": before, "now": now, "fields": fields, "bounds": design.box(feature), "other": other}
        return {**design.mine.row(feature), "status": design.status.get(feature, "same"), **told}
