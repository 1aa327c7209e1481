"""How a map lies in a store: its layers, features and versions as records. `altgis`, the desk and `demo` stand on this
package, and it on the client alone: it knows no file format of maps. Only its module `systems` needs GDAL.

| Record | Its value |
|---|---|
| (0, T) | the layer that table T has, 1 to 99: name, coordinate system, type of geometry, fields, as JSON (layer.py) |
| (T, id) | a feature's attributes: a JSON object in UTF-8, with the numbers of fields as keys (attributes.py) |
| (T + 100, id) | its geometry: WKB as ISO has it, little-endian; no record if it has none |
| (T + 200, n) | a part of a value of more than 4,000 bytes (records.py) |

Such a longer value has a *head* in its own record: `long BYTES FIRST`. Its parts of 4,000 bytes are under FIRST, FIRST
+ 1 and so on. FIRST is computed from the key and from all bytes of the value, so a changed value has other parts, and
the head alone tells which: two designs that change it are in conflict at the head, and what a merge leaves is one of
them."""
import sys
from pathlib import Path

TOP = Path(__file__).resolve().parents[2]
sys.path.insert(0, str(TOP / "clients" / "python"))

from maps.attributes import Fields
from maps.layer import (
    NO_LAYER,
    UNKNOWN_GEOMETRY,
    free_name,
    joined,
    layer_at,
    layer_of,
    layers,
    layers_and_bad,
    numbered,
    replaced,
    to_text,
)
from maps.records import (
    GEOMETRY,
    IMPORTS,
    LONGEST,
    MOST_PARTS,
    PARTS,
    TABLES,
    Fault,
    by_key,
    features,
    first_part,
    part_keys,
    parts_table,
    read,
    read_features,
    records_of,
    scan_features,
    scan_values,
    tables_of,
    value_at,
    with_parts,
)
from maps.update import Update
