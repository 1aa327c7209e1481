"""`altgis layers`: what a file or a store has."""
import maps
from gis.formats import is_of_maps, names_of, open_source
from gis.sources import Source


def of_file(words):
    """The layers of a file of maps."""
    opened = open_source(words.store)
    for name in names_of(opened):
        source = Source(opened, opened.GetLayerByName(name))
        print(f"{name}: {source.count()} features, {about(source.described)}")


def of_store(store, words):
    """The layers of a version of a store, and what else is in table 0."""
    layers, bad = maps.layers_and_bad(store, words.version)
    for table in sorted({*layers, *bad}):
        told = f"{layers[table]['name']}, {about(layers[table])}" if table in layers else str(bad[table])
        print(f"table {table}: {told}")


def about(layer):
    crs = layer["crs"] or "no coordinate system"
    fields = ", ".join(f"{it['name']} {it['type']}" for it in layer["fields"]) or "none"
    return f"{layer['geometry']}, {crs if len(crs) < 30 else 'WKT'}, fields: {fields}"


def is_file(words):
    return is_of_maps(words.store)
