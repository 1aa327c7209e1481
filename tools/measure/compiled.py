"""Programs of C for measurements: compiled from the files beside this one into a folder."""
import os
import subprocess

HERE = os.path.dirname(os.path.abspath(__file__))


class Compiler:
    """Puts programs, and other files, into one folder."""

    def __init__(self, folder):
        self.folder = folder

    def path(self, name):
        return os.path.join(self.folder, name)

    def compiled(self, name, source, *options):
        """A program of a C file beside this one. None if it can't be compiled."""
        words = ["cc", "-O3", "-o", self.path(name), os.path.join(HERE, source), *options]
        built = subprocess.run(words, stderr=subprocess.DEVNULL)
        return None if built.returncode else self.path(name)
