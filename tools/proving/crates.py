"""The crates of crates.txt that a program needs."""

import os


def named(top):
    """The crates of crates.txt, each with the libraries that its line names."""
    found = {}
    with open(os.path.join(top, "crates.txt"), encoding="utf-8") as lines:
        for line in lines:
            name, colon, below = line.partition("#")[0].partition(":")
            if colon:
                found[name.split()[0]] = below.split()
    return found


def sources(folder):
    """The files of a crate that its proof reads, in order."""
    return sorted(os.path.join(at, name) for part in ("src", "specs", "proofs")
                  for at, _, names in os.walk(os.path.join(folder, part))
                  for name in names if name.endswith((".rt", ".antt")))


class Crates:
    """Those that a program needs, lowest first, the program last."""

    def __init__(self, top, program):
        self.top, self.program, self.all_below, self.on, self.of_kit = top, program, {}, {}, {}
        libraries = named(top)
        for name, others in libraries.items():
            # The crates on which one stands, and the libraries of the kit.
            self.on[name] = [it for it in others if it in libraries]
            self.of_kit[name] = [it for it in others if it not in libraries]
        self.names = [*self.below(program), program]

    def folder(self, name):
        return os.path.join(self.top, "crates", name)

    def size(self, name):
        """How many bytes of functions a crate has."""
        return sum(os.path.getsize(path) for path in sources(self.folder(name)) if path.endswith(".rt"))

    def program_made(self):
        """Where the program is built."""
        return os.path.join(self.folder(self.program), "out", self.program)

    def below(self, name):
        """All crates on which one stands, each behind those on which it stands itself."""
        if name not in self.all_below:
            found = []
            for other in self.on[name]:
                found += [it for it in [*self.below(other), other] if it not in found]
            self.all_below[name] = found
        return self.all_below[name]
