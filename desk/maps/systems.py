"""Coordinate systems as a layer's record names them: a code of EPSG, or WKT. What a record names is never looked up
elsewhere: GDAL would open a file of that name, or fetch an address."""
import re
from typing import Optional

from osgeo import osr

from maps.records import Fault

# Codes that PROJ's own database has. Only those of EPSG are written; older stores have the others, too.
CODE = re.compile(r"(EPSG|ESRI|OGC|IGNF|NKG|IAU_2015):[A-Za-z0-9_]+")
WKT = re.compile(r"[A-Z][A-Za-z0-9_]*\[")


def crs_to_text(system: Optional[osr.SpatialReference]) -> Optional[str]:
    """A coordinate system by its code if EPSG has one that says all of it, else as WKT, or None."""
    if system is None:
        return None
    if system.GetAuthorityName(None) == "EPSG":
        known = osr.SpatialReference()
        try:
            known.ImportFromEPSG(int(system.GetAuthorityCode(None)))
            if known.IsSame(system):
                return f"EPSG:{system.GetAuthorityCode(None)}"
        except (RuntimeError, ValueError):
            pass
    return system.ExportToWkt(["FORMAT=WKT2_2019"])


def crs_from_text(text: Optional[str]) -> Optional[osr.SpatialReference]:
    """The coordinate system that a layer's record names."""
    if text is None:
        return None
    system = osr.SpatialReference()
    read = system.ImportFromWkt if WKT.match(text) else system.SetFromUserInput if CODE.fullmatch(text) else None
    if read is None:
        raise Fault(f"a coordinate system is EPSG:CODE or WKT, and not {text[:60]!r}")
    try:
        read(text)
    except RuntimeError as fault:
        raise Fault(f"no coordinate system is known as {text[:60]!r}: {fault}") from None
    system.SetAxisMappingStrategy(osr.OAMS_TRADITIONAL_GIS_ORDER)
    return system
