"""Images that are made of others."""

from flash_images import *
from .case import listing, makes, makes_none
from .programs import BAD_CHECKSUM, BLINK, blink, CODE_7, EXIT_7, FOOTERS

# What the tool writes of an image is what the builder of objects makes of the changed object.
TWO_NAMES = app(CODE_7, name="blink", elements=[package_name_tlv("other")])
HALF = app(CODE_7, size=524288)

MADE = [
    makes("disable", "an object is disabled, and its checksum is right again", "disable flash 0", EXIT_7,
          patched(EXIT_7, 8, bytes(4) + bytes.fromhex("43012c00"))),
    makes("disable-twice", "it may be so already", "disable flash 0", app(CODE_7, flags=0), app(CODE_7, flags=0)),
    makes("disable-blink", "the objects behind it stay", "disable flash 0", BLINK, blink(FOOTERS, flags=0)),
    makes("enable-blink", "it is enabled again", "enable flash 0", blink(FOOTERS, flags=0), BLINK),
    makes("enable-keeps-the-other-flags", "bit 0 alone is set", "enable flash 64",
          EXIT_7 + app(CODE_7, flags=0xFFFFFFFE), EXIT_7 + app(CODE_7, flags=0xFFFFFFFF)),
    makes("rename-blink", "it gets another name", "rename flash 0 flash", BLINK, blink(FOOTERS, "flash")),
    makes("rename-to-six-bytes", "of the same length rounded up to 4", "rename flash 0 lights", BLINK,
          blink(FOOTERS, "lights")),
    makes("rename-to-fewer-bytes", "what was there before is gone", "rename flash 0 lo-fi", blink(FOOTERS, "lights"),
          blink(FOOTERS, "lo-fi")),
    listing("list-after-edits", "the name is read again", blink(FOOTERS, "lights"), """
        object 0 96 app lights
        object 96 16 padding -
        objects 2
    """),
    makes("rename-the-first-name", "of two names the first counts", "rename flash 0 lamps", TWO_NAMES,
          app(CODE_7, name="lamps", elements=[package_name_tlv("other")])),
    makes_none("no-object-at-4", "an object is named by where it begins", "rename flash 4 -", BLINK, "image no-object"),
    makes_none("bad-object-edited", "a bad object is not edited", "enable flash 0", BAD_CHECKSUM, "image no-object"),
    makes_none("name-with-a-blank", "a name is visible", ["rename", "flash", "0", "a b"], EXIT_7, "image bad-name"),
    makes_none("name-of-nothing", "and not empty", ["rename", "flash", "0", ""], EXIT_7, "image bad-name"),
    makes_none("name-of-33-bytes", "and has 32 bytes at most", ["rename", "flash", "0", "n" * 33], BLINK,
               "image bad-name"),
    makes_none("rename-to-three-bytes", "the rounded length stays", "rename flash 0 cam", BLINK, "image name-length"),
    makes_none("rename-without-a-name", "an object has a name or has none", "rename flash 0 flash", EXIT_7,
               "image name-length"),
    makes_none("edit-of-no-file", "a file that is not there is not edited", "enable flash 0", None,
               "file flash fault", status=3),
    makes_none("edit-of-too-much", "nor one past the limit", "enable flash 0", bytes(1048577),
               "file flash too long", status=4),
    makes("pack-twice", "objects one after another", "pack flash flash", EXIT_7, EXIT_7 + EXIT_7),
    makes("pack-without-the-rest", "bytes that are no object are left out", "pack flash script", EXIT_7 + bytes(20),
          EXIT_7 + BLINK, BLINK + b"rest"),
    makes("pack-a-bad-object", "a bad object is packed as any other", "pack flash", BAD_CHECKSUM + EXIT_7,
          BAD_CHECKSUM + EXIT_7),
    makes("pack-nothing", "a file without objects adds nothing", "pack flash", b"no object", b""),
    makes("pack-64-files", "there may be 64 files", "pack" + " flash" * 64, EXIT_7, EXIT_7 * 64),
    makes("pack-up-to-the-limit", "and 1,048,576 bytes", "pack flash flash", HALF, HALF + HALF),
    makes_none("pack-65-objects", "there are 64 objects at most", "pack script" + " flash" * 63, EXIT_7,
               "image too-many", BLINK),
    makes_none("pack-past-the-limit", "and no byte more", "pack flash flash script", HALF, "image too-long", padding()),
    makes_none("pack-too-many-and-too-long", "which is asked for first", "pack flash flash",
               EXIT_7 * 32 + HALF + padding(), "image too-many"),
    makes_none("pack-refused-before-a-fault", "the first file that is refused decides", "pack flash flash none",
               EXIT_7 * 33, "image too-many"),
    makes_none("pack-fault-before-a-refusal", "whatever is wrong with it", "pack flash none flash", EXIT_7 * 33,
               "file flash fault", status=3),
    makes_none("pack-too-long-a-file", "a file is read whole before it is packed", "pack flash script", EXIT_7,
               "file flash too long", bytes(1048577), status=4),
]
