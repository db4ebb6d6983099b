"""The standards that definitions come from: what each short name means, and how the head comment of a file names one
with its section."""

import re

STANDARDS = {
    "TRD 104": "Tock Reference Document 104, *Syscalls*: the system calls of Tock 2.",
    "Tock Binary Format": "Tock's document of that name: headers and their elements, objects, footers.",
    "unprivileged manual": "*The RISC-V Instruction Set Manual*, volume I: RV32I, M, C.",
    "privileged manual": "The same, volume II: memory protection, exception causes.",
    "Levy et al., SOSP 2017": "*Multiprogramming a 64 kB Computer Safely and Efficiently*: processes apart from one "
                              "another (the whole paper), grants in a process's own block (section 4).",
    "driver 0x..": "The driver of that number in Tock's list of drivers, with its document there.",
    "this board's own": "No standard has it; nor where it says `this tool's own`, `this kernel's own`.",
}

# A source: a standard with its section, a driver by its number, or that none has it.
SOURCES = [re.compile(source) for source in (
    r'TRD 104[,:][^"]{0,12}"', r'Tock Binary Format[^".]{0,30}"', r'privileged manual, [^".]{0,40}"',
    r"Levy et al\., SOSP 2017, section \d", r"this (?:board|tool|kernel)'s own", r"driver 0x[0-9A-F]+")]


def has_source(text):
    """Whether a text names a source."""
    return any(source.search(text) for source in SOURCES)
