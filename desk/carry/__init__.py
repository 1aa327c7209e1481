"""What `altcarry` does: designs that travel between a store and its clones."""
import sys
from pathlib import Path

TOP = Path(__file__).resolve().parent.parent.parent
sys.path.insert(0, str(TOP / "clients" / "python"))
