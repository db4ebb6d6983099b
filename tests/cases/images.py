"""What a flash image has, as `list` and a run tell it."""

from flash_images import *
from .case import boot, listing
from .programs import BAD_CHECKSUM, blink, CODE_7, EXIT_7, fixed_at, FOOTERS, RUN_OF_EXIT_7

IMAGES = [
    boot("name-in-the-report", "the package name stands in the report", blink(b"\xff" * 12), """
        ==
        slot 0 blink terminated 7 turns 4 restarts 0
        leds 0000
        end done steps 4 time 4
    """),
    boot("footers-are-passed-over", "what follows the binary changes nothing", blink(FOOTERS), """
        ==
        slot 0 blink terminated 7 turns 4 restarts 0
        leds 0000
        end done steps 4 time 4
    """),
    boot("bytes-after-the-last-object", "bytes that are no object end the image", EXIT_7 + bytes(4),
         RUN_OF_EXIT_7),
    boot("boot-past-a-bad-checksum", "a bad object is passed over", BAD_CHECKSUM + EXIT_7, RUN_OF_EXIT_7),
    listing("list-past-a-bad-checksum", "a bad object is listed, and the next one too",
            BAD_CHECKSUM + EXIT_7, """
        object 0 64 bad-checksum -
        object 64 64 app -
        objects 2
    """),
    listing("list-of-an-image-with-padding", "padding is listed, and has no name", blink(b"\xff" * 12), """
        object 0 96 app blink
        object 96 16 padding -
        objects 2
    """),
    listing("list-of-one-file-packed-twice", "its objects stand one behind another", EXIT_7 + EXIT_7, """
        object 0 64 app -
        object 64 64 app -
        objects 2
    """),
    listing("list-of-an-empty-flash", "there may be no object", b"", "objects 0"),
    listing("list-of-15-bytes", "fewer bytes than a bare header are no object", EXIT_7[:15], "objects 0"),
    listing("list-of-16-bytes", "an object does not pass the end of flash", EXIT_7[:16], "objects 0"),
    listing("total-size-that-is-no-multiple", "an object's size is a multiple of 4",
            patched(EXIT_7, 4, b"\x3e"), "objects 0"),
    listing("header-size-of-12", "a header has 16 bytes at least", patched(EXIT_7, 2, b"\x0c"), """
        object 0 64 bad-sizes -
        objects 1
    """),
    listing("header-past-the-object", "a header lies in its object", patched(EXIT_7, 2, b"\x44"), """
        object 0 64 bad-sizes -
        objects 1
    """),
    listing("main-of-11-bytes", "Main has 12 bytes", tbf([main_tlv(length=11)], CODE_7 + bytes(16)), """
        object 0 64 bad-tlv -
        objects 1
    """),
    listing("main-past-the-header", "an element lies in the header",
            tbf([main_tlv(length=13)], CODE_7 + bytes(16)), """
        object 0 64 bad-tlv -
        objects 1
    """),
    listing("second-main-of-11-bytes", "nor may an element be short that does not count",
            tbf([main_tlv(), main_tlv(length=11)], CODE_7), """
        object 0 64 bad-tlv -
        objects 1
    """),
    listing("object-that-is-disabled", "an application without the flag is not enabled",
            app(CODE_7, flags=0, size=64), """
        object 0 64 disabled -
        objects 1
    """),
    listing("flash-start-that-is-its-own", "a fixed flash start is the address after the header",
            fixed_at(NO_FIXED_ADDRESS, FLASH), """
        object 0 60 app -
        objects 1
    """),
    listing("flash-start-of-another-place", "a flash start elsewhere is wrong", fixed_at(RAM, FLASH + 4), """
        object 0 60 wrong-flash -
        objects 1
    """),
    listing("entry-that-is-odd", "an entry is even", app(CODE_7, entry=1, size=64), """
        object 0 64 bad-entry -
        objects 1
    """),
    listing("entry-past-the-object", "an entry lies in accessible flash", app(CODE_7, entry=32, size=64), """
        object 0 64 bad-entry -
        objects 1
    """),
    listing("protected-past-the-object", "the protected bytes lie in the object",
            app(CODE_7, protected=36, size=64), """
        object 0 64 bad-entry -
        objects 1
    """),
]
