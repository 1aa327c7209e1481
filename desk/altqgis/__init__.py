"""The designs of a map store in QGIS: a plugin over a service. desk/README.md has how it is used."""
import sys
from pathlib import Path

# The plugin may be a link in the folder of a profile: the package `maps` lies beside what it leads to.
DESK = Path(__file__).resolve().parent.parent
sys.path.extend(it for it in (str(DESK), str(DESK.parent / "clients" / "python")) if it not in sys.path)


def classFactory(iface):  # QGIS asks for it by this name.
    from .plugin import Plugin

    return Plugin(iface)
