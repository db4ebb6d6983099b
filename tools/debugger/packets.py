"""Packets of GDB's remote protocol, over standard input and output."""

import os
import select

INTERRUPT = "\x03"


class Packets:
    """What comes in, and what goes out."""

    def __init__(self, log=None):
        self.acknowledges, self.log = True, log

    def bytes_in(self):
        while True:
            data = os.read(0, 65536)
            if not data:
                return
            yield from data

    def text_of(self, stream):
        """The rest of a packet, whose checksum a pipe need not have checked."""
        text = bytearray()
        for byte in stream:
            if byte == ord("#"):
                break
            text.append(byte)
        next(stream, None)
        next(stream, None)
        return text.decode("latin-1")

    def __iter__(self):
        """The packets that come in; an interrupt alone is one of one byte."""
        stream = self.bytes_in()
        for byte in stream:
            if byte == ord(INTERRUPT):
                yield INTERRUPT
            if byte == ord("$"):
                text = self.text_of(stream)
                if self.acknowledges:
                    os.write(1, b"+")
                self.note("<- " + text)
                yield text

    def send(self, text):
        self.note("-> " + text)
        escaped = "".join("}" + chr(ord(letter) ^ 0x20) if letter in "#$}*" else letter for letter in text)
        data = escaped.encode("latin-1")
        os.write(1, b"$" + data + b"#%02x" % (sum(data) & 255))

    def say(self, text):
        """Text for the user, of what goes on."""
        for n in range(0, len(text), 500):
            self.send("O" + text[n:n + 500].encode("utf-8", "replace").hex())

    def is_interrupted(self):
        return bool(select.select([0], [], [], 0)[0]) and os.read(0, 1) in (INTERRUPT.encode(), b"")

    def note(self, text):
        if self.log:
            self.log.write(text[:300] + "\n")
            self.log.flush()
