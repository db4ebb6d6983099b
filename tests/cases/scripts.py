"""Scripts, and those that are refused."""

from flash_images import *
from .case import boot
from .programs import BREAKPOINT, EXIT_7, RUN_OF_EXIT_7

SCRIPTS = [
    boot("script-of-a-comment", "a comment is skipped", EXIT_7, RUN_OF_EXIT_7, script=b"# a comment\n"),
    boot("script-with-line-ends-of-both-kinds", "empty lines are skipped; blanks are spaces and tabs", EXIT_7,
         RUN_OF_EXIT_7, script=b"# x\r\n\n \t\r\nram\t8192 \r\n"),
    boot("script-without-a-last-line-feed", "the last line needs no line feed", EXIT_7, RUN_OF_EXIT_7,
         script=b"ram 262144"),
    boot("script-with-ten-digits", "leading zeros are digits", EXIT_7, RUN_OF_EXIT_7,
         script=b"ram 0000004096\n"),
    boot("script-with-eleven-digits", "a number has ten digits at most", EXIT_7, status=5,
         script=b"ram 00000004096\n", text="script 1 bad-number"),
    boot("script-with-too-few-words", "a line has as many words as its first asks for", EXIT_7, status=5,
         script=b"\nram\n", text="script 2 words"),
    boot("script-with-a-comment-after-words", "a comment is a line of its own", EXIT_7, status=5,
         script=b"ram 4096 # x\n", text="script 1 words"),
    boot("script-of-a-word-in-capitals", "words are told by their bytes", EXIT_7, status=5,
         script=b"Ram 4096\n", text="script 1 unknown-word"),
    boot("script-out-of-range-before-repeated", "of two rules that a line breaks the first counts", EXIT_7,
         status=5, script=b"ram 4096\r\nram 4095\r\n", text="script 2 out-of-range"),
    boot("ram-that-is-no-multiple", "RAM is a multiple of 1024", EXIT_7, status=5,
         script=b"ram 5000", text="script 1 out-of-range"),
    boot("ram-twice", "RAM is set once", EXIT_7, status=5,
         script=b"ram 8192\nram 8192", text="script 2 repeated"),
    boot("unknown-event", "an event has a name", EXIT_7, status=5,
         script=b"at 5 output 00", text="script 1 unknown-word"),
    boot("input-that-is-no-hex", "bytes that come in are hex; lines that are skipped count", EXIT_7, status=5,
         script=b"# c\n\nat 5 input 0g", text="script 3 bad-hex"),
    boot("policy-by-itself", "a policy is named", EXIT_7, status=5,
         script=b"policy", text="script 1 words"),
    boot("filter-open", "a script may name a filter", EXIT_7, RUN_OF_EXIT_7, script=b"filter open"),
    boot("filter-strict", "each of the two lets a process exit", EXIT_7, RUN_OF_EXIT_7, script=b"filter strict"),
] + [
    boot("call-under-filter-" + name, shows,
         app(li(A4, 2), li(A0, LED), li(A1, 0), li(A2, 0), ecall, li(A4, 6), li(A0, 0), ecall), """
        ==
        slot 0 - terminated %d turns 8 restarts 0
        leds 0000
        end done steps 8 time 8
    """ % code, script=b"filter " + name.encode())
    for name, shows, code in [
        ("open", "an application without a Permissions element may call a driver", 4),
        ("strict", "and under the strict filter it is refused", 11)]
] + [
    boot("slice-of-0", "a slice has one turn at least", EXIT_7, status=5,
         script=b"slice 0", text="script 1 out-of-range"),
    boot("window-of-0", "a window has one tick at least", EXIT_7, status=5,
         script=b"partition 0", text="script 1 out-of-range"),
    boot("window-of-1000001", "and 1,000,000 at most", EXIT_7, status=5,
         script=b"partition 1000001", text="script 1 out-of-range"),
    boot("windows-twice", "the windows are said once", EXIT_7, status=5,
         script=b"partition 4\npartition 4", text="script 2 repeated"),
    boot("leds-of-a-script", "a script says how many LEDs there are", b"", script=b"leds 6\n", text="""
        ==
        leds 000000
        end done steps 0 time 0
    """),
    boot("no-leds", "there may be none", b"", script=b"leds 0\n", text="""
        ==
        leds -
        end done steps 0 time 0
    """),
    boot("threshold-of-2", "a process that faults starts again twice; a slice of two turns beside one that spins",
         app("here", jal(ZERO, "here"), size=40) + BREAKPOINT + EXIT_7, turns=14,
         script=b"slice 2\npolicy threshold 2\n", text="""
        ==
        slot 0 - running turns 7 restarts 0
        slot 1 - faulted fetch 20000048 breakpoint turns 3 restarts 2
        slot 2 - terminated 7 turns 4 restarts 0
        leds 0000
        end turns steps 14 time 14
    """),
    boot("threshold-of-2-beside-a-count", "what the one that spins does changes nothing of the others",
         app("here", addi(T0, T0, 1), jal(ZERO, "here")) + BREAKPOINT + EXIT_7, turns=14,
         script=b"slice 2\npolicy threshold 2\n", text="""
        ==
        slot 0 - running turns 7 restarts 0
        slot 1 - faulted fetch 20000048 breakpoint turns 3 restarts 2
        slot 2 - terminated 7 turns 4 restarts 0
        leds 0000
        end turns steps 14 time 14
    """),
    boot("policy-restart", "and without an end under restart", BREAKPOINT, turns=5,
         script=b"policy restart", text="""
        ==
        slot 0 - running turns 5 restarts 5
        leds 0000
        end turns steps 5 time 5
    """),
    boot("threshold-of-0", "no restart at all under a threshold of 0", BREAKPOINT,
         script=b"policy threshold 0", text="""
        ==
        slot 0 - faulted fetch 20000020 breakpoint turns 1 restarts 0
        leds 0000
        end done steps 1 time 1
    """),
]

# Scripts that are refused, each by the first rule that its first bad line breaks.
BAD_SCRIPTS = [
    boot("script-with-" + name, shows, EXIT_7, status=5, script=script, text="script " + answer)
    for name, shows, script, answer in [
        ("input-of-nothing", "an input has bytes", b"at 5 input", "1 words"),
        ("threshold-of-nothing", "a threshold has a number", b"policy threshold", "1 words"),
        ("filter-of-nothing", "a filter is named", b"filter", "1 words"),
        ("filter-of-another-name", "it is open or strict", b"filter closed", "1 unknown-word"),
        ("two-filters", "and set once, whatever it is", b"filter open\nfilter strict", "2 repeated"),
        ("time-of-eleven-digits", "so has a time", b"at 12345678901 input 41", "1 bad-number"),
        ("time-of-33-bits", "which has 32 bits", b"at 4294967296 input 41", "1 out-of-range"),
        ("seven-hex-digits", "a random word has 8 digits", b"random 1234567", "1 bad-hex"),
        ("setting-after-an-event", "settings come before events", b"at 5 input 41\nleds 4", "2 order"),
        ("fault-that-does-not-rise", "the numbers of faults rise", b"storage-fault 2\nstorage-fault 2", "2 order"),
        ("a-button-of-none", "a board has no buttons where none are said", b"at 5 press 0", "1 out-of-range"),
        ("a-button-beyond-the-last", "a button is one of those", b"buttons 2\nat 5 release 2", "2 out-of-range"),
        ("17-buttons", "there are sixteen at most", b"buttons 17", "1 out-of-range"),
        ("two-counts-of-buttons", "and one count", b"buttons 1\nbuttons 1", "2 repeated"),
        ("buttons-after-an-event", "before all events", b"at 5 input 41\nbuttons 1", "2 order"),
        ("a-button-that-is-held", "a button is pressed or released", b"buttons 1\nat 5 hold 0", "2 unknown-word"),
        ("a-press-of-nothing", "an edge is of a button", b"buttons 1\nat 5 press", "2 words"),
        ("a-press-of-a-name", "which is a number", b"buttons 1\nat 5 press x", "2 bad-number"),
        ("a-press-before-the-last-event", "times never fall, whatever comes",
         b"buttons 1\nat 5 input 41\nat 4 press 0", "3 order"),
        ("an-act-of-nothing", "an act has a verb", b"at 5 do", "1 words"),
        ("an-act-on-nobody", "and a name", b"at 5 do list", "1 words"),
        ("an-act-on-two", "one name", b"at 5 do list one two", "1 words"),
        ("an-act-of-another-verb", "a verb is one of five", b"at 5 do kill blink", "1 unknown-word"),
        ("another-verb-without-a-name", "which comes first", b"at 5 do kill", "1 unknown-word"),
        ("an-act-of-a-verb-in-capitals", "they are small letters", b"at 5 do Stop blink", "1 unknown-word"),
        ("a-name-of-33-bytes", "a name has 32 bytes at most", b"at 5 do stop " + b"a" * 33, "1 out-of-range"),
        ("a-name-with-a-bell", "each of them visible", b"at 5 do stop bl\x07nk", "1 out-of-range"),
        ("a-name-beyond-ascii", "and of ASCII", b"at 5 do stop bl\xc3\xbc", "1 out-of-range"),
        ("an-act-at-no-time", "an act has its time", b"at x do stop blink", "1 bad-number"),
        ("an-act-before-the-last-event", "which never falls", b"at 5 input 41\nat 4 do stop blink", "2 order"),
        ("a-setting-after-an-act", "settings come before acts", b"at 5 do stop blink\nleds 4", "2 order"),
        ("buttons-after-partition", "after time partitions there are no lines of buttons", b"partition 4\nbuttons 2",
         "2 unknown-word"),
        ("a-press-after-partition", "whatever else is wrong with them", b"partition 4\nat x press 0", "2 unknown-word"),
        ("a-release-after-partition", "though buttons were said before", b"buttons 1\npartition 4\nat 5 release 0",
         "3 unknown-word"),
        ("an-act-after-partition", "nor of an operator", b"partition 4\nat 5 do stop blink", "2 unknown-word"),
        ("partition-after-an-event", "and these come before events", b"at 5 input 41\npartition 4", "2 order"),
        ("partition-of-nothing", "a window has a length", b"partition", "1 words"),
        ("partition-of-a-name", "which is a number", b"partition four", "1 bad-number"),
        ("input-of-65-bytes", "at most 64 bytes come in at a time", b"at 5 input " + b"41" * 65, "1 too-many"),
    ]
]
