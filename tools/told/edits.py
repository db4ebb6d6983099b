"""Why no image was made."""

import os

import files
import images
from program import tell


def no_object(program, words):
    offsets = [str(it.offset) for it in images.objects(program, words[1]) if it.verdict not in images.UNREADABLE]
    return "%s: no object whose header can be read begins at %s; such begin at %s" % (
        words[1], words[2], ", ".join(offsets) or "no place")


def bad_name(program, words):
    return "a name has 1 to 32 bytes of visible ASCII, and no blank"


def name_length(program, words):
    name = images.elements(files.content(words[1]), int(words[2])).get(3)
    if name is None:
        return "%s: the object at %s has no name" % (words[1], words[2])
    return "%s: the name of the object at %s takes %d words of 4 bytes, and `%s` takes %d" % (
        words[1], words[2], (len(name) + 3) // 4, words[3], (len(words[3]) + 3) // 4)


def passing(program, names, much_of, most, what):
    """Tells the first file with whose objects there is more in all than there may be, by how much an object is."""
    much = 0
    for name in names:
        much += sum(map(much_of, images.objects(program, name)))
        if much > most:
            return "%s: with its objects there are %d%s, and an image has at most %d" % (name, much, what, most)


def too_many(program, words):
    return passing(program, words[1:], lambda found: 1, images.MOST_OBJECTS, "")


def too_long(program, words):
    return passing(program, words[1:], lambda found: found.size, files.FLASH[1], " bytes")


REASONS = {"no-object": no_object, "bad-name": bad_name, "name-length": name_length, "too-many": too_many,
           "too-long": too_long}


def tell_why(program, words):
    """Tells why no image was made of these files, by what the program answers again."""
    given = words[1:] if words[0] == "pack" else words[1:2]
    if not files.are_kept(*filter(os.path.exists, given)):
        return
    answer = next(iter(program.lines(*words)), "").split()
    if answer[:1] == ["image"]:
        tell(REASONS[answer[1]](program, words))
