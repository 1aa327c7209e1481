"""A design: what it has changed, what is in conflict, and where its features lie."""
import numpy

import maps
import places
import styles
from altctl import Conflict
from changes import Changes
from density import cells
from joining import clashes_of
from maps import GEOMETRY
from places import box_of
from values import Course, attributes_of, side_of

MOST_COURSES = 20000  # geometries of a table that stay in memory, and attributes of a design
MOST_FEATURES = 3000  # in a window
PIXELS = 2000  # that a window has across, at most


class Design:
    """What a design has changed, what is in conflict, and where its features lie. `top` has no base: it is compared to
    itself."""

    def __init__(self, store, alt, parent, index):
        self.store, self.alt, self.parent, self.base = store, alt, parent, f"{alt}@" if parent else alt
        self.stale, self.texts, self.styles = set(), {}, None
        self._clashes = None  # The conflicts that were looked at, and what of them needs a choice.
        self.mine = Changes(store, self.base, alt)
        self.conflicts = {(it.table, it.number): it for it in store.conflicts(alt)} if parent else {}
        self.layers = {it: layer for it, layer in self.mine.layers.items() if store.get(alt, 0, it) is not None}
        # Of several coordinate systems the map shows the first layer's.
        systems = {table: it["crs"] for table, it in sorted(self.layers.items())}
        self.crs = next(iter(systems.values()), None)
        self.on_map = {table for table, crs in systems.items() if crs == self.crs}
        self.courses = {it: {} for it in self.on_map}
        self.places = {it: index(it) or places.scanned(store, alt, it) for it in self.on_map}
        # Where features lie that have moved since the index was made, None for nowhere, and those that have changed
        # otherwise.
        self.moved, self.beside = {}, {it: {} for it in self.on_map}
        for table, its in self.places.items():
            is_stored = isinstance(its, places.Index)
            self.moved[table] = places.moved(store, places.OWN, alt, table) if is_stored else {}
        self._survey()

    def take(self):
        """Looks at the keys that have changed here or in the parent."""
        keys, self.stale = sorted(self.stale), set()
        self.mine.look_again(keys)
        for key in keys:
            self.conflicts.pop(key, None)
            mine = self.mine.rows.get(key)
            theirs = (
                mine and self.parent and next(self.store.diff(self.base, self.parent, key[0], key[1], key[1]), None)
            )
            if theirs and theirs.after != mine.after:
                self.conflicts[key] = Conflict(*key, mine.before, theirs.after, mine.after)
            self.texts.pop(key, None)
            self.styles = None if key[0] == styles.STYLES else self.styles
        moved = [it for it in keys if it[0] - GEOMETRY in self.on_map]
        records = maps.read(self.store, self.alt, moved)
        for table, number in moved:
            self.moved[table - GEOMETRY][number] = box_of(places.safe_value(records, (table, number)))
            self.courses[table - GEOMETRY].pop(number, None)
        self._survey()

    def _survey(self):
        """Finds where features lie that the index does not know so."""
        changed = {*self.mine.kinds, *(self.mine.feature_of(it) or it for it in self.conflicts)}
        shown = [(it[0] - GEOMETRY, it[1]) for it in self.mine.rows if it[0] - GEOMETRY in self.on_map]
        gone = [(it[0] + GEOMETRY, it[1]) for it in shown if self.mine.rows[it[0] + GEOMETRY, it[1]].after is None]
        self.gone = maps.with_parts(self.store, self.base, {it: self.mine.rows[it].before for it in gone})
        boxes = {it: box_of(places.safe_value(self.gone, it)) for it in gone}
        self.others = {}
        for table, moved in self.moved.items():
            beside = self.beside[table]
            known = {**moved, **beside}
            due = [number for its_table, number in changed if its_table == table and number not in known]
            records = maps.read(self.store, self.alt, [(table + GEOMETRY, it) for it in due])
            beside.update({it: box_of(places.safe_value(records, (table + GEOMETRY, it))) for it in due})
            lost = {number: box for (its_table, number), box in boxes.items() if its_table == table + GEOMETRY}
            self.others[table] = places.Places.of({**beside, **moved, **lost})
        arrays = {table: [number for its_table, number in changed if its_table == table] for table in self.on_map}
        self.changed = {table: numpy.array(numbers, "<u8") for table, numbers in arrays.items()}

    # --- conflicts ------------------------------------------------------------------------------

    @property
    def clashes(self):
        """What needs a choice. It is looked at once, as long as the conflicts stay the same."""
        if self._clashes is None or self._clashes[0] != self.conflicts:
            self._clashes = dict(self.conflicts), clashes_of(self.store, self.alt, self.conflicts)
        return self._clashes[1]

    @property
    def status(self):
        """Whether features are added, changed, removed or in conflict."""
        return {**self.mine.kinds, **{self.mine.feature_of(it) or it: "conflict" for it in self.clashes.features}}

    # --- features -------------------------------------------------------------------------------

    def sides(self, feature, at):
        """A feature as a version has it, None where it has none."""
        return self.side_of(maps.read(self.store, at, self.mine.keys_of(feature)), feature)

    def side_of(self, records, feature):
        """A feature as records have it."""
        return side_of(records, feature, self.mine.keys_of(feature), self.mine.layers.get(feature[0]))

    def box(self, feature):
        key = feature[0] + GEOMETRY, feature[1]
        for at in (self.alt, self.base):
            box = box_of(places.safe_value(maps.read(self.store, at, [key]), key))
            if box:
                return box

    # --- the map ----------------------------------------------------------------------------------

    def bounds(self):
        found = [it.bounds() for group in (self.places, self.others) for it in group.values()]
        return places.union(numpy.array([it for it in found if it]).reshape(-1, 4))

    def style_of(self, table):
        if self.styles is None:
            self.styles = styles.read(self.store, self.alt, sorted(self.layers))
        return self.styles.get(table, styles.PLAIN)

    def style_record(self, table, style):
        if table not in self.layers:
            raise maps.Fault(f"{self.alt} has no layer in table {table} any more")
        return styles.record_of(table, style)

    def window(self, box, off=()):
        """The features in a window, but those of layers that are off: those that are changed go first, and then the
        largest. Of each layer it tells how many there are, and where they lie if not all are drawn."""
        found = {table: self._in_window(table, box) for table in sorted(self.on_map - set(off))}
        tables = numpy.repeat(list(found), [len(it[0]) for it in found.values()]) if found else numpy.empty(0, int)
        numbers = numpy.concatenate([numpy.empty(0, "<u8"), *(it[0] for it in found.values())])
        sizes = numpy.concatenate([numpy.empty(0), *(it[1] for it in found.values())])
        if len(numbers) > MOST_FEATURES:
            largest = numpy.argpartition(-sizes, MOST_FEATURES)[:MOST_FEATURES]
            tables, numbers = tables[largest], numbers[largest]
        keys = list(zip(tables.tolist(), numbers.tolist()))
        self._read_courses(keys)
        tolerance = (box[2] - box[0]) / PIXELS
        status = self.status
        features = [self.on_window(it, tolerance, status.get(it, "same")) for it in keys]
        drawn = {table: sum(it[0] == table for it in keys) for table in found}
        layers = [
            {
                "table": table,
                "name": self.layers[table]["name"],
                "found": count,
                "is_about": is_about,
                "drawn": drawn[table],
            }
            for table, (_, _, count, is_about) in found.items()
        ]
        dense = {it["table"]: cells(self.places[it["table"]], box) for it in layers if it["found"] > it["drawn"]}
        told = {"found": sum(it["found"] for it in layers), "is_about": any(it["is_about"] for it in layers)}
        return {"type": "FeatureCollection", "features": features, **told, "layers": layers, "density": dense}

    def _in_window(self, table, box):
        """The numbers of a layer's features in a window, their sizes, how many there are, and whether that is a
        guess."""
        numbers, boxes, about = self.places[table].window(*box)
        stays = ~numpy.isin(numbers, numpy.array([*self.moved[table], *self.beside[table]], "<u8"))
        others, more, count = self.others[table].window(*box)
        is_about = about > len(stays)
        numbers, boxes = numpy.concatenate([numbers[stays], others]), numpy.concatenate([boxes[stays], more])
        size = (boxes[:, 2:] - boxes[:, :2]).max(axis=1, initial=0)
        size[numpy.isin(numbers, self.changed[table])] += 1e300
        return numbers, size, max(about - int((~stays).sum()) + count, len(numbers)), is_about

    def _courses_of(self, key):
        """Where the course of a feature is kept: with the index, for all designs, if it lies where that says."""
        table, number = key
        its = self.places[table]
        return its.courses if isinstance(its, places.Index) and number not in self.moved[table] else self.courses[table]

    def _read_courses(self, keys):
        shared = [it.courses for it in self.places.values() if isinstance(it, places.Index)]
        for it in [*self.courses.values(), *shared]:
            if len(it) > MOST_COURSES:
                it.clear()
        due = [(table + GEOMETRY, number) for table, number in keys if number not in self._courses_of((table, number))]
        records = {**self.gone, **maps.read(self.store, self.alt, due)}
        for table, number in due:
            course = Course(places.parsed(places.safe_value(records, (table, number))))
            self._courses_of((table - GEOMETRY, number))[number] = course
        styles_of = {table: self.style_of(table) for table in self.on_map}
        with_texts = {table for table, it in styles_of.items() if it["by"] or it["label"]}
        self._read_texts([it for it in keys if it[0] in with_texts] if with_texts else [])

    def _read_texts(self, keys):
        """Reads the attributes that styles need."""
        if len(self.texts) > MOST_COURSES:
            self.texts = {}
        due = [it for it in keys if it not in self.texts]
        records = maps.read(self.store, self.alt, due)
        for key in due:
            self.texts[key] = attributes_of(places.safe_value(records, key) or b"{}", self.mine.layers[key[0]])

    def on_window(self, key, tolerance, status):
        properties = {**self.mine.row(key), "status": status}
        style = self.style_of(key[0])
        for name in ("by", "label"):
            if style[name]:
                properties[name] = self.texts[key].get(style[name])
        return {"type": "Feature", "properties": properties, "geometry": self._courses_of(key)[key[1]].at(tolerance)}
