"""What differs from one version of a store to another, as records and as features."""
import maps
from maps import GEOMETRY, PARTS
from styles import STYLES

NAMES = {0: "layer", STYLES: "style"}  # of tables that have no features


class Changes:
    """What differs from one version to another: records, and features with whether they are added, changed or
    removed."""

    def __init__(self, store, old, new):
        self.store, self.old, self.new = store, old, new
        self.layers = {**maps.layers(store, old), **maps.layers(store, new)}
        self.rows = {(it.table, it.number): it for table in self._tables() for it in store.diff(old, new, table)}
        self._note(self.rows)

    def _tables(self):
        """The tables that have records in one of the versions, but those of parts."""
        found = set()
        for at in {self.old, self.new}:
            table = 0
            while table is not None and table < 2**16:
                table = next((it.table for it in self.store.next(at, table, 0, 1)), None)
                if table is not None:
                    found.add(table)
                    table += 1
        return [it for it in sorted(found) if not self.is_part(it)]

    def look_again(self, keys):
        """Looks at these keys, which may differ otherwise now."""
        keys = [it for it in keys if not self.is_part(it[0])]
        for key in keys:
            self.rows.pop(key, None)
            self.rows.update({key: it for it in self.store.diff(self.old, self.new, key[0], key[1], key[1])})
        self._note(keys)

    def _note(self, keys):
        """Notes of which kind the change of each key's feature is. What a feature has beside its changes is looked
        up."""
        features = {self.feature_of(it) for it in keys} - {None}
        due = {it: [key for key in self.keys_of(it) if key in self.rows] for it in features}
        self.kinds = getattr(self, "kinds", {})
        beside = [
            key
            for it, keys in due.items()
            for key in self.keys_of(it)
            if keys and key not in keys and self.one_sided(keys)
        ]
        is_there = {key for key, value in zip(beside, self.store.get_many(self.new, beside)) if value is not None}
        for feature, keys in due.items():
            self.kinds.pop(feature, None)
            if keys:
                is_whole = any(it in is_there for it in self.keys_of(feature))
                self.kinds[feature] = "changed" if is_whole else self.one_sided(keys) or "changed"

    def one_sided(self, keys):
        """Whether all of these rows are added, or all removed."""
        rows = [self.rows[it] for it in keys]
        added, removed = all(it.before is None for it in rows), all(it.after is None for it in rows)
        return "added" if added else "removed" if removed else None

    def is_part(self, table):
        return table - PARTS in self.layers or (table == PARTS and bool(self.layers))

    def feature_of(self, key):
        """The feature that a record belongs to. A part of a long value belongs to none; other records are by
        themselves."""
        table, number = key
        if table - GEOMETRY in self.layers:
            return table - GEOMETRY, number
        return None if self.is_part(table) else key

    def keys_of(self, feature):
        table, number = feature
        return [feature, (table + GEOMETRY, number)] if table in self.layers else [feature]

    def what(self, key):
        return "course" if key[0] - GEOMETRY in self.layers else "attributes" if key[0] in self.layers else "record"

    def name(self, table):
        return self.layers[table]["name"] if table in self.layers else NAMES.get(table, f"table {table}")

    def row(self, feature):
        # A number may have more digits than JavaScript has.
        return {"table": feature[0], "number": str(feature[1]), "layer": self.name(feature[0])}

    def listed(self, status):
        """The features, each with its status and what of it differs."""
        found = {}
        for key in sorted(self.rows):
            feature = self.feature_of(key)
            row = found.setdefault(
                feature, {**self.row(feature), "status": status.get(feature, self.kinds[feature]), "what": []}
            )
            row["what"].append(self.what(key))
        return [found[feature] for feature in sorted(found)]
