"""What a file is that stands where one of another kind should."""

import os

ELF, IMAGE = "an ELF file", "a flash image"
# By their first bytes. No script begins so.
KINDS = {b"\x7fELF": ELF, b"\x02\x00": IMAGE}
# Where the image of an ELF file may stand, from the folder of that.
PLACES = ("", os.pardir, os.path.join(os.pardir, "images"))


def kind_of(name):
    """What a file is by its first bytes, or None."""
    with open(name, "rb") as file:
        first = file.read(4)
    return next((kind for begin, kind in KINDS.items() if first.startswith(begin)), None)


def image_of(name):
    """The image that is made of an ELF file, where one of its name stands beside it; else that name."""
    folder, base = os.path.split(name)
    image = os.path.splitext(base)[0] + ".bin"
    paths = [os.path.normpath(os.path.join(folder, place, image)) for place in PLACES]
    return next(filter(os.path.exists, paths), image)


def take_image(name):
    """What to do with an ELF file that was given for an image."""
    return "%s: it is an ELF file: take %s, the image that is made of it" % (name, image_of(name))


def elf_files(names):
    """Says of each file that is an ELF file what to take in its place."""
    return (take_image(name) for name in names if kind_of(name) == ELF)


def wrong_kinds(flash, script):
    """Says of a flash file that is an ELF file, and of a script that is one or an image, that it is; both can be
    read."""
    yield from elf_files([flash])
    kind = kind_of(script)
    if kind == IMAGE and kind_of(flash) is None:
        yield "%s: it is a flash image, and no script: FLASH comes first, and then SCRIPT" % script
    elif kind:
        yield "%s: it is %s, and no script" % (script, kind)
