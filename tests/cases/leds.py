"""The LEDs."""

from flash_images import *
from .case import boot, tells

LEDS = [
    boot("leds-that-are-lit", "LEDs are turned on, off, and to what they are not",
         app(command(LED, 1, 1), command(LED, 1, 2), command(LED, 2, 2), command(LED, 3, 3), command(LED, 3, 3),
             command(LED, 3, 0), li(A1, 0), exits()), """
        ==
        slot 0 - terminated 0 turns 40 restarts 0
        leds 1100
        end done steps 40 time 40
    """),
    boot("last-of-16-leds", "the last of sixteen", app(command(LED, 1, 15), command(LED, 0), exits()),
         script=b"leds 16", text="""
        ==
        slot 0 - terminated 16 turns 15 restarts 0
        leds 0000000000000001
        end done steps 15 time 15
    """),
    boot("led-outlives-a-life", "an LED stays as it is where its process starts again",
         app(command(LED, 1, 1), exits(1)), turns=20, text="""
        ==
        slot 0 - running turns 20 restarts 2
        leds 0100
        end turns steps 20 time 20
    """),
    tells("no-such-led", "a number beyond the LEDs is refused", 6, command(LED, 1, 4)),
    boot("led-of-none", "all are where there are none", app(command(LED, 1, 0), exits()), script=b"leds 0", text="""
        ==
        slot 0 - terminated 6 turns 9 restarts 0
        leds -
        end done steps 9 time 9
    """),
]
