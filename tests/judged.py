"""What ./tock refuses, as the gate does, where the kit's own prover judges a project of two tiny crates: each of these
sources is safe and meets its contracts, or meets any. `checks` gives each check with its name, for tests/run."""

import os
import shutil
import tempfile

from common import TOCK, run, write
from cases.case import REPOSITORY

LOW = """// A number.
#![tactic(auto)]

ghost use Rattle.std.specs.Prelude.{◌≡◌, ◌<◌, ◌+◌, ◌^◌};

/// The number behind one.
pub fn next(number: u32) -> u32
    requires { number + 1 < 2 ^ 32 }
    ensures { result ≡ number + 1 }
{
    number + 1
}
"""
MAIN = """// Ends with a number.
#![tactic(auto)]

use low::next;
use std::process::ExitCode;

fn main(_rt: HostRuntime) -> ExitCode {
    ExitCode::from(if next(1) == 2 { 2 } else { 1 })
}
"""
MAY_ABORT = """// A number.
#![tactic(auto)]

ghost use Rattle.std.specs.Prelude.{◌≡◌, ◌<◌, ◌+◌, ◌^◌};

use std::process::Abort;

/// The number behind one, or the end of the program.
pub fn next_or_end(rt: &impl Abort, number: u32) -> u32
    ensures { result ≡ number + 1 }
{
    if number == 7 {
        panic!(rt; "seven");
    }
    panic!(rt; "no seven")
}
"""
HANDS_OUT = LOW + """
/// A function, of which no contract says anything.
pub fn chosen() -> fn(u32) -> u32 {
    |number| number
}
"""
THREADS = """// Waits for a thread.
#![tactic(auto)]

use low::next;
use std::process::ExitCode;
use std::thread;

fn main(rt: HostRuntime) -> ExitCode {
    match thread::spawn(&rt, || 1u32) {
        Ok(child) => ExitCode::from(if child.join(&rt) == 1 { 2 } else { 3 }),
        Err(_) => ExitCode::from(if next(1) == 2 { 3 } else { 4 }),
    }
}
"""

# A file of a crate, its text, and what `rt` says of it.
REFUSED = {
    "may abort": ("low/src/lib.rt", MAY_ABORT, "rt: a function takes the bound Abort, under which"),
    "hands out": ("low/src/lib.rt", HANDS_OUT, "rt: a function on a line that begins with hides"),
    "takes threads": ("tock/src/main.rt", THREADS, "handles that this repository's HANDLES does not allow (none)"),
    "false": ("low/src/lib.rt", LOW.replace("    number + 1\n}", "    number\n}"), "crates/low/src/lib.rt:"),
}


class Project:
    """Two crates in a folder, with ./tock and its tools."""

    def __init__(self, folder):
        self.top = folder
        for path, text in (("low/src/lib.rt", LOW), ("tock/src/main.rt", MAIN), ("tock/status", "2\n")):
            write(folder, os.path.join("crates", path), text)
        write(folder, "crates.txt", "low:\ntock: low\n")
        write(folder, "HANDLES", "Handles allowed: none.\n")
        shutil.copy(TOCK, folder)
        shutil.copytree(os.path.join(REPOSITORY, "tools", "proving"), os.path.join(folder, "tools", "proving"))

    def runs(self):
        """How ./tock ends there, without what is told of the run."""
        return run([os.path.join(self.top, "tock")], env=dict(os.environ, TOCK_QUIET="1"))


def is_refused():
    """The sound project is proved and runs; each of the others is answered by 1, with what `rt` said, and no program
    is left; and once more the sound one, of which nothing is proved again."""
    with tempfile.TemporaryDirectory() as folder:
        project = Project(folder)
        end = project.runs()
        if end.returncode != 2:
            return "the sound one: %d, %r" % (end.returncode, end.stderr)
        for what, (path, text, said) in REFUSED.items():
            kept = LOW if path.startswith("low") else MAIN
            write(folder, os.path.join("crates", path), text)
            end = project.runs()
            is_left = os.path.exists(os.path.join(folder, "crates", "tock", "out", "tock"))
            if end.returncode != 1 or said not in end.stderr or is_left:
                return "%s: %d, %r" % (what, end.returncode, end.stderr)
            write(folder, os.path.join("crates", path), kept)
        end = project.runs()
    return None if end.returncode == 2 else "the sound one again: %d, %r" % (end.returncode, end.stderr)


def checks(program):
    """Each check with its name; none without the prover."""
    if shutil.which("rt") is None:
        print("first-run-judged: not tried without rt")
        return []
    return [("first-run-judged", is_refused)]
