"""The storage."""

from flash_images import *
from .case import boot, tells
from .programs import storage_reads

STORAGES = [
    # A read and its upcall are 12 turns and a step of the storage.
    boot("storage-read-" + name, shows, storage_reads(places, exit_code),
         script=b"storage 16\nstorage-fault 1", text="""
        ==
        slot 0 - terminated %d turns %d restarts 0
        leds 0000
        end done steps %d time %d
    """ % (code, 22 + 12 * len(places), 22 + 13 * len(places), 22 + 12 * len(places)))
    for name, shows, places, exit_code, code in [
        ("that-fails", "its upcall says so", [(0, 4)], nop, 1),
        ("that-moves-nothing", "and the buffer is as it was", [(0, 4)], lbu(A1, S1), 0x55),
        ("after-a-fault", "the next request is served", [(0, 4)] * 2, mv(A1, A0), 4),
        ("of-fresh-bytes", "storage is all ones at first", [(0, 4)] * 2, lw(A1, S1), 0xFFFFFFFF),
        ("at-the-end", "a read of nothing may lie at the end", [(0, 4), (16, 0)], mv(A1, A0), 0),
    ]
] + [
    tells("storage-size", "a script says how many bytes of storage a slot has", 4096, command(STORAGE, 1),
          script=b"storage 4096"),
    tells("no-storage", "there may be none", 0, command(STORAGE, 1), script=b"storage 0"),
    tells("storage-range", "bytes beyond them are refused", 6, command(STORAGE, 3, 12, 8), script=b"storage 16"),
    boot("bytes-in-storage", "bytes are written and read back",
         app(mv(S0, A0), mv(S1, A1), li(T0, 0x55), sb(T0, S1), lends(READ_ONLY, STORAGE, 0, 4),
             lends(READ_WRITE, STORAGE, 0, 4, 8), *hands(SUBSCRIBE, STORAGE, 0, "back"),
             *hands(SUBSCRIBE, STORAGE, 1, "back"), command(STORAGE, 3, 4, 4), yields(1), command(STORAGE, 2, 4, 4),
             yields(1), lbu(A1, S1, 8), exits(), "back", jalr(ZERO, RA)), script=b"storage 16", text="""
        ==
        slot 0 - terminated 85 turns 60 restarts 0
        leds 0000
        end done steps 62 time 60
    """),
    boot("storage-fault", "a request that fails is told so",
         app(mv(S0, A0), *hands(SUBSCRIBE, STORAGE, 0, "told"), command(STORAGE, 2, 0, 4), yields(1), "told", exits()),
         script=b"storage 16\nstorage-fault 1", text="""
        ==
        slot 0 - terminated 1 turns 22 restarts 0
        leds 0000
        end done steps 23 time 22
    """),
]
