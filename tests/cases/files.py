"""Files that cannot be read, or are too long."""

from .case import boot, DIRECTORY, listing
from .programs import EXIT_7, RUN_OF_EXIT_7

FILES = [
    boot("no-flash-file", "a file that is not there cannot be read", None, status=3, text="file flash fault"),
    boot("no-script-file", "nor can a script", EXIT_7, status=3, script=None, text="file script fault"),
    boot("flash-is-a-directory", "a directory cannot be read", DIRECTORY, status=3, text="file flash fault"),
    boot("flash-too-long", "flash has 1,048,576 bytes at most", bytes(1048577), status=4,
         text="file flash too long"),
    boot("flash-at-the-limit", "and may have that many", bytes(1048576), """
        ==
        leds 0000
        end done steps 0 time 0
    """),
    boot("script-too-long", "a script has 262,144 bytes at most", EXIT_7, status=4,
         script=b"#" * 262145, text="file script too long"),
    boot("script-at-the-limit", "and may have that many", EXIT_7, RUN_OF_EXIT_7, script=b"#" * 262144),
    listing("list-of-no-file", "a file that is not there cannot be listed", None, status=3,
            text="file flash fault"),
    listing("list-of-a-directory", "nor can a directory", DIRECTORY, status=3, text="file flash fault"),
    listing("list-of-too-much", "nor what is past the limit", bytes(1048577), status=4,
            text="file flash too long"),
]
