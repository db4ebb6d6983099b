"""An operator's acts."""

from flash_images import *
from .case import boot, trace
from .programs import BLINK, EXIT_7, FAULTS, NAPS, SPINS, WAKES


def acts(*lines, first=""):
    """A script of an operator's acts, each with its time, verb and name; settings stand first."""
    return (first + "\n".join("at %d do %s %s" % line for line in lines)).encode()


ACTS = [
    boot("act-stop-and-start", "a process that is stopped has no turn until it is started", BLINK,
         script=acts((2, "stop", "blink"), (10, "start", "blink")), text="""
        ==
        slot 0 blink terminated 7 turns 4 restarts 0
        leds 0000
        end done steps 7 time 12
    """),
    boot("act-list", "one that is listed goes on", BLINK, script=acts((1, "list", "blink")), text="""
        0 blink running
        ==
        slot 0 blink terminated 7 turns 4 restarts 0
        leds 0000
        end done steps 5 time 4
    """),
    boot("act-restart-of-one-that-ended", "one that ended starts again, which counts", BLINK,
         script=acts((20, "restart", "blink")), text="""
        ==
        slot 0 blink terminated 7 turns 8 restarts 1
        leds 0000
        end done steps 10 time 24
    """),
    boot("act-stop-for-good", "the report tells that it is stopped", BLINK, script=acts((2, "stop", "blink")), text="""
        ==
        slot 0 blink stopped turns 2 restarts 0
        leds 0000
        end done steps 3 time 2
    """),
    boot("act-on-nobody", "a name that no process has changes nothing but the count of steps", BLINK,
         script=acts((1, "terminate", "blank")), text="""
        ==
        slot 0 blink terminated 7 turns 4 restarts 0
        leds 0000
        end done steps 5 time 4
    """),
    boot("act-on-the-lowest-slot", "of two with a name the one in the lower slot is meant", BLINK * 2,
         script=acts((1, "terminate", "blink")), text="""
        ==
        slot 0 blink terminated 0 turns 1 restarts 0
        slot 1 blink terminated 7 turns 4 restarts 0
        leds 0000
        end done steps 6 time 5
    """),
    boot("act-on-one-without-a-name", "one without a name has that of the report", EXIT_7 + EXIT_7,
         script=acts((1, "stop", "-")), text="""
        ==
        slot 0 - stopped turns 1 restarts 0
        slot 1 - terminated 7 turns 4 restarts 0
        leds 0000
        end done steps 6 time 5
    """),
    boot("act-start-of-one-that-runs", "one that is not stopped cannot be started", BLINK,
         script=acts((1, "start", "blink")), text="""
        ==
        slot 0 blink terminated 7 turns 4 restarts 0
        leds 0000
        end done steps 5 time 4
    """),
    boot("act-stop-of-one-that-ended", "nor one stopped or ended that has ended", BLINK,
         script=acts((9, "stop", "blink"), (9, "terminate", "blink"), (9, "start", "blink")), text="""
        ==
        slot 0 blink terminated 7 turns 4 restarts 0
        leds 0000
        end done steps 8 time 9
    """),
    boot("act-restart-of-one-that-is-stopped", "a restart lets it go", BLINK,
         script=acts((2, "stop", "blink"), (10, "restart", "blink")), text="""
        ==
        slot 0 blink terminated 7 turns 6 restarts 1
        leds 0000
        end done steps 9 time 14
    """),
    boot("act-terminate-of-one-that-is-stopped", "so does its end, and the report tells its code", BLINK,
         script=acts((2, "stop", "blink"), (10, "terminate", "blink"), (12, "restart", "blink")), text="""
        ==
        slot 0 blink terminated 7 turns 6 restarts 1
        leds 0000
        end done steps 11 time 16
    """),
    boot("act-terminate-of-one-that-waits", "it waits for nothing any more", WAKES,
         script=acts((20, "terminate", "wakes")), text="""
        ==
        slot 0 wakes terminated 0 turns 11 restarts 0
        leds 0000
        end done steps 13 time 20
    """),
    boot("act-stop-of-one-that-waits", "its answer comes while it is stopped, and is delivered once it is started",
         WAKES, script=acts((20, "stop", "wakes"), (90, "list", "wakes"), (100, "start", "wakes"),
                            (100, "list", "wakes")), text="""
        0 wakes stopped
        0 wakes awaited
        ==
        slot 0 wakes terminated 3 turns 16 restarts 0
        leds 0000
        end done steps 25 time 105
    """),
    boot("act-restart-of-one-that-waits", "its alarm is gone with its life", WAKES,
         script=acts((30, "restart", "wakes")), text="""
        ==
        slot 0 wakes terminated 3 turns 27 restarts 1
        leds 0000
        end done steps 31 time 80
    """),
    boot("act-list-of-each-state", "each state has its word", SPINS + NAPS + FAULTS + WAKES + BLINK, turns=200,
         script=acts((100, "stop", "spins"), (150, "list", "spins"), (150, "list", "naps"), (150, "list", "stray"),
                     (150, "list", "wakes"), (150, "list", "blink"), first="slice 1\n"), text="""
        0 spins stopped
        1 naps yielded
        2 stray faulted
        3 wakes terminated
        4 blink terminated
        ==
        slot 0 spins stopped turns 75 restarts 0
        slot 1 naps yielded turns 3 restarts 0
        slot 2 stray faulted store 80000900 no-region turns 2 restarts 0
        slot 3 wakes terminated 3 turns 16 restarts 0
        slot 4 blink terminated 7 turns 4 restarts 0
        leds 0000
        end done steps 108 time 150
    """),
    boot("act-list-of-one-that-waits", "one that waits for one upcall alone is told apart, and stopped it is stopped",
         WAKES, script=acts((30, "list", "wakes"), (30, "stop", "wakes"), (90, "list", "wakes"), (90, "start", "wakes"),
                     (90, "stop", "wakes")), text="""
        0 wakes waiting
        0 wakes stopped
        ==
        slot 0 wakes stopped turns 11 restarts 0
        leds 0000
        end done steps 20 time 90
    """),
    trace("trace-of-acts", "an act is told before what it prints", BLINK,
          script=acts((1, "list", "blink"), (2, "stop", "blink"), (3, "start", "blank"), (4, "start", "blink"),
                      (9, "restart", "blink")), text="""
        @1 0 act list
        @1 0 out 3020626c696e6b2072756e6e696e670a
        @2 0 act stop
        @4 0 act start
        @5 0 call 6 00000000 00000007 00000400 80000100
        @9 0 act restart
        @12 0 call 6 00000000 00000007 00000400 80000100
        ==
        slot 0 blink terminated 7 turns 8 restarts 1
        leds 0000
        end done steps 16 time 13
    """),
]

# One process in each state at time 150, all by then without a pass, since the first one never ends: one that is stopped
# at once had no turn; the alarm of another came while it was stopped, and it is started just before.
STATES = [("spins", "running"), ("naps", "yielded"), ("waits", "waiting"), ("rings", "awaited"), ("halts", "stopped"),
          ("stray", "faulted"), ("blink", "terminated")]
IN_EACH_STATE = (SPINS + NAPS + app(waits_for(ALARM, 0), name="waits")
                 + app(command(ALARM, 5, 100), waits_for(ALARM, 0), exits(), name="rings")
                 + app("here", jal(ZERO, "here"), name="halts") + FAULTS + BLINK)
STATE_TURNS = [125, 3, 5, 11, 0, 2, 4]
# What a verb makes of a state; each other state stays.
BECOMES = {
    "list": {},
    "stop": dict.fromkeys(["running", "yielded", "waiting", "awaited"], "stopped"),
    "start": {"stopped": "running"},
    "terminate": dict.fromkeys(["running", "yielded", "waiting", "awaited", "stopped"], "terminated"),
    "restart": dict.fromkeys([state for _, state in STATES], "running"),
}


def on_each_state(verb):
    """A verb done to a process in each state, whereupon each is listed and ended."""
    becomes = [BECOMES[verb].get(state, state) for _, state in STATES]
    before = [state for _, state in STATES] if verb == "list" else []
    lines = ["%d %s %s" % (slot, STATES[slot][0], state) for states in (before, becomes)
             for slot, state in enumerate(states)]
    ends = ["faulted store 80001500 no-region" if state == "faulted" else
            "terminated %d" % (7 if state == "terminated" and STATES[slot][1] == state else 0)
            for slot, state in enumerate(becomes)]
    report = ["slot %d %s %s turns %d restarts %d" % (slot, STATES[slot][0], end, STATE_TURNS[slot], verb == "restart")
              for slot, end in enumerate(ends)]
    script = [(0, "stop", "halts"), (100, "stop", "rings"), (150, "start", "rings")]
    script += [(150, each, name) for each in (verb, "list", "terminate") for name, _ in STATES]
    text = lines + ["=="] + report + ["leds 0000", "end done steps 175 time 150"]
    return boot("act-%s-on-each-state" % verb, "a verb changes the states that it applies to, and no other",
                IN_EACH_STATE, "\n".join(text), acts(*script, first="slice 1\n"))


ACTS += [on_each_state(verb) for verb in BECOMES]
