"""The words of altgis, and what ends it."""
import argparse
import os
import platform
import shutil
import sqlite3
import subprocess
import sys

from altctl import Ended, Refusal, Store
from osgeo import gdal

import maps
from gis import journal, listing
from gis.comparing import diff
from gis.exporting import export
from gis.formats import set_up
from gis.full import FULL
from gis.importing import bring, index
from gis.settling import merge
from maps import Fault
from reasons import named, why

NO_READER = 141  # The status that a shell gives for a pipe that nobody reads.
STORE = "STORE", "a store's file, or unix:PATH"
VERSION = "`north`, its base `north@`, or its checkpoint `north@before`"


def read_words(arguments=None):
    parser = argparse.ArgumentParser(prog="altgis", description="Brings layers of maps into a store and out of it.")
    parser.add_argument("--version", action="store_true", help="tells the versions of what altgis stands on")
    jobs = parser.add_subparsers(metavar="import | export | diff | merge | history | layers | index", dest="job")

    def job(name, do, told, *places):
        made = jobs.add_parser(name, help=told, description=f"altgis {told}.")
        made.set_defaults(do=do, grow=False)
        for place, meaning in places:
            made.add_argument(place.lower(), metavar=place, help=meaning)
        return made

    import_words(
        job("import", bring, "puts what differs between layers of a file and tables", STORE, ("FILE", "a file of maps"))
    )
    out = ("OUT", "a file that is not there yet: .gpkg, .geojson, .json, .shp or .csv")
    send = job("export", export, "writes a version as layers of a file", STORE, ("VERSION", VERSION), out)
    send.add_argument("--table", type=table_number, metavar="T", help="the layer of this table alone")
    send.add_argument("--layer", metavar="NAME", help="its name in the file")
    send.add_argument("--plain", action="store_true", help="CSV: no ' before texts that begin as formulas do")
    told = "what is drawn in the file gets numbers that nobody else is given (.gpkg)"
    send.add_argument("--numbers", action="store_true", help=told)
    compare = job("diff", diff, "writes what differs between two versions", STORE, ("A", VERSION), ("B", "as A"), out)
    compare.add_argument("--table", type=table_number, metavar="T", help="the layer of this table alone")
    settle = job("merge", merge, "merges a design with its parent, field by field", STORE, ("ALT", "the design"))
    told = "TABLE:NUMBER=mine, =theirs or =both, TABLE:NUMBER.FIELD=mine, all=mine"
    settle.add_argument("choices", metavar="CHOICE", nargs="*", help=told)
    settle.add_argument("--dry-run", action="store_true", help="tells what would be merged, and changes nothing")
    told = "tells who changed which field of a feature, and when"
    job("history", journal.tell, told, STORE, ("FEATURE", "TABLE:NUMBER"))
    show = job(
        "layers", listing.of_store, "tells which layers a store or a file has", ("STORE", "a store or a file of maps")
    )
    show.add_argument("version", metavar="VERSION", nargs="?", default="top", help=VERSION)
    job("index", index, "makes the index of places, by which the desk is quick, of what `top` shows", STORE)
    words = parser.parse_args(arguments)
    check(parser, words)
    words.is_service = words.job is not None and words.store.startswith("unix:")
    return words


def check(parser, words):
    """Refuses words that do not go together."""
    if not words.version and not words.job:
        parser.error("say what to do: import, export, diff, merge, history, layers or index")
    if words.job == "import" and not words.all and words.table is None:
        parser.error("say which table by --table, or give --all")
    if words.job == "import" and words.all and (words.table or words.layer or words.name or words.id):
        parser.error("with --all there is no LAYER, and no --table, --name or --id")


def import_words(parser):
    parser.add_argument("layer", metavar="LAYER", nargs="?", help="one of its layers, if it has several")
    parser.add_argument("--alt", required=True, help="the alternative")
    parser.add_argument("--table", type=table_number, metavar="T", help="1 to 99")
    parser.add_argument(
        "--all", action="store_true", help="all layers of the file, each into the table of its name or a free one"
    )
    parser.add_argument(
        "--first-table", type=table_number, default=1, metavar="T", help="the first table that may be free"
    )
    parser.add_argument("--id", metavar="FIELD", help="the field of the ids, if they are not the fids")
    parser.add_argument("--new", action="store_true", help="each feature is a new one, and gets a number of the store")
    parser.add_argument("--name", help="the layer's name in the store, if it has another one in the file")
    parser.add_argument("--rename", action="store_true", help="lets the table's layer get another name")
    parser.add_argument(
        "--link", action="append", metavar="FIELD=T", help="the field has numbers of features of table T"
    )
    parser.add_argument("--sync", action="store_true", help="removes what the file lacks")
    parser.add_argument("--skip-bad", action="store_true", help="leaves bad features out, and names them")
    parser.add_argument("--dry-run", action="store_true", help="tells what would change, and changes nothing")
    parser.add_argument("--no-checkpoint", action="store_true", help="makes no checkpoint before-import-N")
    parser.add_argument("--grow", action="store_true", help="lets the store grow")


def table_number(word):
    if not word.isdecimal() or int(word) not in maps.TABLES:
        raise argparse.ArgumentTypeError(f"a layer's table is {maps.TABLES[0]} to {maps.TABLES[-1]}")
    return int(word)


def tell_versions(program):
    ran = subprocess.run([program, "--version"], stdout=subprocess.PIPE, encoding="utf-8", errors="replace")
    print(
        f"altgis beside {ran.stdout.partition(chr(10))[0]}, GDAL {gdal.__version__}, Python {platform.python_version()}"
    )


def carry_out(words):
    program = os.environ.get("ALTCTL") or shutil.which("altctl") or str(maps.TOP / "altctl")
    if words.job is None:
        return tell_versions(program)
    if words.do is listing.of_store and listing.is_file(words):
        return listing.of_file(words)
    how = {"grow": True} if words.grow and not words.is_service else {}
    with Store(words.store, program, **how) as store:
        return words.do(store, words)


def main():
    words = read_words()
    set_up()
    try:
        status = carry_out(words) or 0
        sys.stdout.flush()
        return status
    except BlockingIOError:
        return f"altgis: {words.store} is in use"
    except BrokenPipeError:
        os.dup2(os.open(os.devnull, os.O_WRONLY), 1)
        return NO_READER
    except Refusal as refusal:
        more = f": give it more, altctl do {words.store} 'grow BLOCKS' commit" if refusal.number == FULL else ""
        return named("altgis", f"refused: {refusal}{more}\n{why(refusal)}")
    except OSError as fault:
        return f"altgis: {why(fault)}"
    except Ended as ended:
        return f"altgis: {words.store}: altctl ended with status {ended.status}\naltgis: {why(ended)}"
    except (Fault, RuntimeError, ValueError, sqlite3.Error) as fault:
        return f"altgis: {fault}"
