"""The worked examples: each has a name, what it shows, the files, the words of the command line, and the answer and the
text that the program must give.

The applications are written here instruction by instruction, but for those in C, and the expected texts come from the
rules to which docs/definitions.md leads; none was taken from the program. A text is laid out with its lines indented
alike. Each subject, and each driver, has a file of its own.
"""

import os
import sys

# Where the assembler and the builder of objects stand, flash_images.
sys.path.insert(0, os.path.join(os.path.dirname(os.path.dirname(os.path.dirname(os.path.abspath(__file__)))), "tools"))

from .acts import ACTS
from .alarm import ALARMS, READABLES
from .applications import APPLICATIONS
from .buttons import BUTTONS
from .command_lines import COMMAND_LINES
from .console import CONSOLES
from .documents import README
from .edits import MADE
from .files import FILES
from .images import IMAGES
from .leds import LEDS
from .partitions import PARTITIONS
from .programs import EXIT_7, THREE
from .random_bytes import RANDOMS
from .running import CALLS, DENIALS, INSTRUCTIONS, RUNS
from .scripts import BAD_SCRIPTS, SCRIPTS
from .several import SEVERAL
from .soaks import SOAKS
from .storage import STORAGES
from .swaps import SWAPS
from .traces import TRACES
from .yields import WAITS, YIELDS

CASES = [
    *RUNS, *DENIALS, *INSTRUCTIONS, *CALLS, *SWAPS, *YIELDS, *WAITS, *ALARMS, *READABLES, *CONSOLES, *LEDS, *BUTTONS,
    *RANDOMS, *STORAGES, *SEVERAL, *IMAGES, *PARTITIONS, *ACTS, *SCRIPTS, *BAD_SCRIPTS, *FILES, *TRACES, *SOAKS, *MADE,
    *README, *APPLICATIONS, *COMMAND_LINES,
]

# The images that are written here and kept as files, for whoever runs the program; tests/write_kept writes them.
KEPT = {
    "examples/images/exit7.bin": EXIT_7,
    "examples/images/three.bin": THREE,
    "crates/tock/data/exit7.bin": EXIT_7,
}
