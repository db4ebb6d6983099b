"""A repository of what a program needs, for `rt ci` to judge: the crates that it stands on, each file of them as it
stands. Left out are the other crates, the edits that must fail, and what an earlier proof left."""

import filecmp
import os
import shutil

from crates import named

# What of a crate its program does not need.
LEFT_OUT = ("out", "must-fail")


class Copied:
    """The crates that a program needs, in a folder of their own."""

    def __init__(self, crates, folder):
        self.crates, self.folder = crates, folder

    def write(self):
        """Copies what is needed, with the lines of the list of crates that are theirs."""
        for path in ("HANDLES", *self.needed()):
            to = os.path.join(self.folder, path)
            os.makedirs(os.path.dirname(to), exist_ok=True)
            shutil.copyfile(os.path.join(self.crates.top, path), to)
        libraries = named(self.crates.top)
        with open(os.path.join(self.folder, "crates.txt"), "w", encoding="utf-8") as file:
            for name in self.crates.names:
                file.write("%s: %s\n" % (name, " ".join(libraries[name])))

    def needed(self):
        """The files of the crates that are copied, by their paths in the repository."""
        for name in self.crates.names:
            for at, below, files in os.walk(self.crates.folder(name)):
                inside = os.path.relpath(at, self.crates.top)
                below[:] = [it for it in below if inside != os.path.join("crates", name) or it not in LEFT_OUT]
                yield from (os.path.join(inside, file) for file in files)

    def differing(self):
        """The files of the copied crates that are not, byte for byte, those of the project."""
        for at, _, files in os.walk(os.path.join(self.folder, "crates")):
            for file in files:
                path = os.path.relpath(os.path.join(at, file), self.folder)
                source = os.path.join(self.crates.top, path)
                if not os.path.isfile(source) or not filecmp.cmp(os.path.join(at, file), source, shallow=False):
                    yield path
