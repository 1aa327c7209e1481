"""The office's map below the features: a picture for each window, from a file or a folder of georeferenced pictures,
from a folder of tiles as gdal2tiles makes them, or from a WMS. GDAL brings pictures into the map's coordinate
system."""
import os
import threading
import urllib.error
import urllib.parse
import urllib.request
import xml.etree.ElementTree as xml
from pathlib import Path

from osgeo import gdal, osr

from maps import Fault
from maps.systems import crs_from_text
from places import FARTHEST

TILES = "tilemapresource.xml"
SUFFIXES = (".tif", ".tiff", ".png", ".jpg", ".jpeg", ".jp2", ".vrt")
WORLD = 2 * 20037508.342789244  # metres of the map of the world that mercator's tiles are of
MOST_SIDE = 4096  # pixels that a picture has across
MOST_PIXELS = 100_000_000  # of a source that are read for one picture
MOST_BYTES = 30_000_000  # of a picture from a WMS
WAIT_SECONDS = 20


class Pictures:
    """Pictures in files, as one."""

    threads = 1  # that read them at once

    def __init__(self, path):
        self.name = Path(path).name
        try:
            self.source = dataset_of(path)
            if has_palette(self.source):
                self.paletted = self.source  # As long as the other one is there.
                self.source = gdal.Translate("", self.paletted, format="VRT", rgbExpand="rgb")
        except RuntimeError as fault:
            raise Fault(f"{path}: no background can be read of it\n{fault}") from None

    def picture(self, crs, box, width, height):
        """The picture of a window, and its type."""
        how = {"outputBounds": box, "width": width, "height": height, "resampleAlg": "bilinear", "dstAlpha": True}
        if crs and self.source.GetSpatialRef() is not None:
            how["dstSRS"] = crs_from_text(crs)
        self._refuse_large(how.get("dstSRS"), box)
        try:
            made = gdal.Warp("", self.source, format="MEM", **how)
            alpha = made.GetRasterBand(made.RasterCount).ReadRaster()
            if not alpha.strip(b"\xff"):
                made = gdal.Translate("", made, format="MEM", bandList=list(range(1, made.RasterCount)))
            return written(made, "PNG" if alpha.strip(b"\xff") else "JPEG")
        except RuntimeError as fault:
            raise Fault(f"the background cannot be shown here: {fault}") from None

    def _refuse_large(self, system, box):
        """Refuses what would be read for very long: a large part of pictures without overviews."""
        if self.source.GetRasterBand(1).GetOverviewCount():
            return
        _, width, _, _, _, height = self.source.GetGeoTransform()
        west, south, east, north = box
        if system is not None:
            own = osr.CoordinateTransformation(system, self.source.GetSpatialRef())
            west, south, east, north = own.TransformBounds(west, south, east, north, 21)
        across, down = min((east - west) / width, self.source.RasterXSize), min(
            (south - north) / height, self.source.RasterYSize
        )
        if across * down > MOST_PIXELS:
            raise Fault("the background has no overviews (gdaladdo makes them): zoom in to see it")


def dataset_of(path):
    if not os.path.isdir(path):
        return gdal.OpenEx(os.fspath(path), gdal.OF_RASTER)
    if os.path.exists(os.path.join(path, TILES)):
        return gdal.OpenEx(tiles_of(Path(path)), gdal.OF_RASTER)
    files = sorted(str(it) for it in Path(path).rglob("*") if it.suffix.lower() in SUFFIXES)
    if not files:
        raise Fault(f"{path}: there are no pictures in it ({', '.join(SUFFIXES)})")
    first = gdal.OpenEx(files[0], gdal.OF_RASTER)
    return gdal.BuildVRT("", files, addAlpha=not has_palette(first))


def has_palette(dataset):
    return dataset.GetRasterBand(1).GetColorTable() is not None


def tiles_of(folder):
    """A folder of tiles in GDAL's words. The tiles of the coarsest level are taken for one large one."""
    try:
        tree = xml.parse(folder / TILES).getroot()
        origin, form = tree.find("Origin").attrib, tree.find("TileFormat").attrib
        finest = max((it.attrib for it in tree.find("TileSets")), key=lambda it: int(it["order"]))
        order, side = int(finest["order"]), int(form["width"])
        west, south, size = float(origin["x"]), float(origin["y"]), float(finest["units-per-pixel"]) * side * 2**order
        profile = tree.find("TileSets").get("profile")
        if profile == "mercator":
            west, south, size = -WORLD / 2, -WORLD / 2, WORLD
        elif profile != "raster":
            raise ValueError(f"tiles of the profile {profile}, and neither raster nor mercator")
        system, suffix = tree.find("SRS").text or "", form["extension"]
    except (OSError, xml.ParseError, AttributeError, TypeError, KeyError, ValueError) as fault:
        raise Fault(f"{folder / TILES}: it describes no tiles\n{fault}") from None
    url = f"file://{urllib.parse.quote(str(folder.resolve()))}/${{z}}/${{x}}/${{y}}.{suffix}"
    window = {"UpperLeftX": west, "UpperLeftY": south + size, "LowerRightX": west + size, "LowerRightY": south}
    window.update({"TileLevel": order, "TileCountX": 1, "TileCountY": 1, "YOrigin": "bottom"})
    words = {"Projection": system, "BlockSizeX": side, "BlockSizeY": side, "BandsCount": 4}
    words.update({"ZeroBlockHttpCodes": "204,404", "ZeroBlockOnServerException": "true"})
    made = xml.Element("GDAL_WMS")
    xml.SubElement(xml.SubElement(made, "Service", name="TMS"), "ServerUrl").text = url
    for its, parent in ((window, xml.SubElement(made, "DataWindow")), (words, made)):
        for name, text in its.items():
            xml.SubElement(parent, name).text = str(text)
    return xml.tostring(made, "unicode")


def written(dataset, kind):
    """A dataset as the bytes of a picture."""
    path = f"/vsimem/background-{threading.get_ident()}"
    gdal.GetDriverByName(kind).CreateCopy(path, dataset)
    file = gdal.VSIFOpenL(path, "rb")
    try:
        return bytes(gdal.VSIFReadL(1, gdal.VSIStatL(path).size, file)), f"image/{kind.lower()}"
    finally:
        gdal.VSIFCloseL(file)
        gdal.Unlink(path)


class MapServer:
    """A WMS, by its address with the layers that it is to show."""

    threads = 4

    def __init__(self, url):
        self.url = urllib.parse.urlsplit(url)
        self.words = {
            name.upper(): text for name, text in urllib.parse.parse_qsl(self.url.query, keep_blank_values=True)
        }
        self.name = self.url.hostname or url
        if not self.words.get("LAYERS"):
            raise Fault(f"{url}: the address of a WMS says which layers, as in {url.split('?')[0]}?LAYERS=streets")

    def picture(self, crs, box, width, height):
        if not (crs or "").startswith("EPSG:"):
            raise Fault("a WMS needs to know the map's coordinate system by an EPSG code, and it has none")
        words = {"FORMAT": "image/png", "STYLES": "", "TRANSPARENT": "TRUE", **self.words}
        words.update({"SERVICE": "WMS", "VERSION": "1.1.1", "REQUEST": "GetMap", "SRS": crs})
        words.update({"BBOX": ",".join(map(repr, box)), "WIDTH": str(width), "HEIGHT": str(height)})
        url = self.url._replace(query=urllib.parse.urlencode(words)).geturl()
        try:
            with urllib.request.urlopen(url, timeout=WAIT_SECONDS) as answer:
                kind, value = answer.headers.get_content_type(), answer.read(MOST_BYTES + 1)
        except (OSError, ValueError) as fault:
            raise Fault(
                f"the background's server {self.name} does not answer: {getattr(fault, 'reason', fault)}"
            ) from None
        if kind not in ("image/png", "image/jpeg") or len(value) > MOST_BYTES:
            raise Fault(
                f"the background's server {self.name} gives no picture: {value[:200].decode('utf-8', 'replace')}"
            )
        return value, kind


def background_of(source):
    """What `--background` names."""
    return MapServer(source) if source.startswith(("http://", "https://")) else Pictures(source)


def picture(background, crs, it):
    """The picture of a window that the page asks for."""
    west, south, east, north = box = tuple(map(float, it["box"].split(",", 3)))
    width, height = (int(it[name]) for name in ("width", "height"))
    is_size = 0 < width <= MOST_SIDE and 0 < height <= MOST_SIDE
    if not (is_size and west < east and south < north and max(map(abs, box)) < FARTHEST):
        raise ValueError("no window")
    return background.picture(crs, box, width, height)
