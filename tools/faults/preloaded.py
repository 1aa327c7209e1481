"""The program as it is built, and small C libraries that are loaded before the C library of a program, to stand in the
way of its calls. They need a C compiler, and a program that is linked against glibc."""
import os
import subprocess

HERE = os.path.dirname(os.path.abspath(__file__))
TOP = os.path.join(HERE, "..", "..")
ALTCTL, PROGRAM = os.path.join(TOP, "altctl"), os.path.join(TOP, "crates/altctl/out/altctl")


def build_program():
    """Builds the program where something has changed."""
    subprocess.run([ALTCTL, "--help"], stdout=subprocess.DEVNULL, check=True)


def compiled(name, folder):
    """Makes the library of `NAME.c` here in a folder, and gives its path."""
    library = os.path.join(folder, f"{name}.so")
    source = os.path.join(HERE, f"{name}.c")
    subprocess.run([os.environ.get("CC", "cc"), "-O1", "-shared", "-fPIC", "-o", library, source], check=True)
    return library


def preloaded(library, **values):
    """The variables of a program that a library is loaded before. Those of the library have names in capitals."""
    values = {name.upper(): str(value) for name, value in values.items()}
    return {**os.environ, **values, "LD_PRELOAD": library}
