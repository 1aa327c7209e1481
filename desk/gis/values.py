"""Values of attributes: as GDAL has them, and as JSON has them."""
import math
import re

from osgeo import ogr

import maps

FORMULA = re.compile("'*[=+@\\t\\r\\n-]")
TYPES = {ogr.GetFieldTypeName(it): it for it in range(14)}
SUBTYPES = {ogr.GetFieldSubTypeName(it): it for it in range(6)}


def moment_to_text(feature, at):
    """A date, a time or both as ISO 8601 has it: GDAL writes them 2024/02/29 23:59:59.999+00, and reads this form,
    too."""
    return feature.GetFieldAsString(at).replace("/", "-").replace(" ", "T")


def set_moment(feature, at, text):
    feature.SetField(at, text)
    if not feature.IsFieldSet(at):
        raise ValueError


def real_to_json(number):
    """A real as it is. JSON has no word for those that are not finite."""
    return number if math.isfinite(number) else str(number)


def set_text(feature, at, value):
    feature.SetFieldString(at, value if isinstance(value, str) else maps.to_text(value))


def guarded(text):
    """A text for CSV, with `'` before it if a spreadsheet would take it for a formula."""
    return "'" + text if FORMULA.match(text) else text


def unguarded(text):
    """The text that `guarded` made this one of."""
    return text[1:] if text.startswith("'") and FORMULA.match(text) else text


def set_guarded(feature, at, value):
    set_text(feature, at, guarded(value) if isinstance(value, str) else value)


READ = {
    ogr.OFTInteger: ogr.Feature.GetFieldAsInteger,
    ogr.OFTInteger64: ogr.Feature.GetFieldAsInteger64,
    ogr.OFTReal: lambda feature, at: real_to_json(feature.GetFieldAsDouble(at)),
    ogr.OFTString: ogr.Feature.GetFieldAsString,
    ogr.OFTDate: moment_to_text,
    ogr.OFTTime: moment_to_text,
    ogr.OFTDateTime: moment_to_text,
    ogr.OFTBinary: lambda feature, at: bytes(feature.GetFieldAsBinary(at)).hex(),
    ogr.OFTIntegerList: ogr.Feature.GetFieldAsIntegerList,
    ogr.OFTInteger64List: ogr.Feature.GetFieldAsInteger64List,
    ogr.OFTRealList: lambda feature, at: [real_to_json(it) for it in feature.GetFieldAsDoubleList(at)],
    ogr.OFTStringList: ogr.Feature.GetFieldAsStringList,
}
WRITE = {
    ogr.OFTInteger: ogr.Feature.SetFieldInteger64,
    ogr.OFTInteger64: ogr.Feature.SetFieldInteger64,
    ogr.OFTReal: lambda feature, at, value: feature.SetField(at, float(value)),
    ogr.OFTString: set_text,
    ogr.OFTDate: set_moment,
    ogr.OFTTime: set_moment,
    ogr.OFTDateTime: set_moment,
    ogr.OFTBinary: ogr.Feature.SetFieldBinaryFromHexString,
    ogr.OFTIntegerList: ogr.Feature.SetFieldIntegerList,
    ogr.OFTInteger64List: ogr.Feature.SetFieldInteger64List,
    ogr.OFTRealList: lambda feature, at, value: feature.SetFieldDoubleList(at, list(map(float, value))),
    ogr.OFTStringList: ogr.Feature.SetFieldStringList,
}


def readers(fields, id_field, is_csv):
    """For each field but the id: its place, its name, and what reads it."""
    for at, field in enumerate(fields):
        read = READ[TYPES[field["type"]]]
        if is_csv and field["type"] == "String":
            read = lambda feature, at: unguarded(feature.GetFieldAsString(at))
        if field.get("subtype") == "Boolean" and field["type"] == "Integer":
            read = lambda feature, at: bool(feature.GetFieldAsInteger(at))
        if field["name"] != id_field:
            yield at, field["name"], read
