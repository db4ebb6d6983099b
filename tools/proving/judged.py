"""What `rt ci` says of a repository, as it says it: which crates it passed, and of those that it refused all that it
said."""

import os
import re
import signal
import subprocess

# Lines of what was said of a refused crate that tell only what was read, or proved.
PASSED = re.compile(r"statements |checked |so far: |crate |logic /|fn \S+: proved$|empty contracts: 0 ")


class Judge:
    """`rt ci`, over a repository."""

    def __init__(self, repository, hears):
        self.repository, self.hears, self.running, self.is_stopped = repository, hears, None, False
        # What is said of the crate that is being told of, and what was said of those that were refused.
        self.block, self.refused = [], []

    def status(self):
        """That of `rt ci`, once it has ended; `hears` is told the name of each crate that passed, and whether it was
        proved by this run."""
        if self.is_stopped:
            return 1
        self.running = subprocess.Popen(["rt", "ci"], cwd=self.repository, text=True, errors="replace",
                                        stdin=subprocess.DEVNULL, stdout=subprocess.PIPE, stderr=subprocess.STDOUT)
        for line in self.running.stdout:
            self.take(line)
        self.refused += self.block
        return self.running.wait()

    def stop(self):
        """Ends it, with all that it started."""
        self.is_stopped = True
        if self.running and self.running.poll() is None:
            self.running.send_signal(signal.SIGTERM)
            self.running.wait()

    def take(self, line):
        """Takes a line that it said: a crate's lines end with the verdict on it."""
        verdict = re.match(r"rt: (\w+) (proved$|is kept: |NOT PROVED)", line)
        if line.startswith("== "):
            self.refused += self.block
            self.block = [line]
        elif verdict and verdict[2] != "NOT PROVED":
            self.block = []
            self.hears(verdict[1], verdict[2] == "proved")
        else:
            self.block.append(line)

    def told(self):
        """What it said of what it refused, with the files as they stand in the project."""
        lines, crate = [], ""
        for line in self.refused:
            crate = line[3:].strip() if line.startswith("== ") else crate
            if not PASSED.match(line):
                lines.append(re.sub(r"(?<![\w/.])(?:\./)?(?=(?:src|specs|proofs)/)", "crates/%s/" % crate, line))
        return "".join(lines).replace(os.path.realpath(self.repository) + os.sep, "")
