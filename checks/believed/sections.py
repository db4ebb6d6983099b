"""What the pages are made of: the one place where the tool names crates, files and functions.

A section is a heading with what stands in it, in reading order: crates, files of specs/ as crate/File, or definitions
as crate/File:Name. A definition that is named by itself stands there, then the rest of a file that is named, and the
rest of a crate where the crate is named.
"""

from reading import ARROWS, FIRST, PICTURE

# The contract that the page is about, how many lines a reader has to believe at most, and how many its page has at
# most: what stands today fits.
HEADLINE = ("tock_cli/serve.rt", "serve")
LIMIT, LINES = 3800, 6000

# What is proved of the program in one sentence, and which names below have each part of it.
SENTENCE = """\
For every flash file, script and turn limit, the tool (`serve`, over files and an output that tell their bytes; that the
host's files and output keep theirs is trusted) writes exactly the console bytes and final states of TRD 104's abstract
kernel under round-robin turns; there a process's byte changes only by its own permitted act or through a buffer it then
allowed, every denial names its address and rule, and a process's record is the replay of its own turns and device
answers alone, whatever others do."""
PARTS = [
    "*For every*: any words, shelf and sink; of the words `command_of`, of the files' bytes `comes_to`. A file that "
    "is too long and a script that has no reading are refused. The limit counts steps: turns, steps of devices and "
    "passes of time.",
    "*Writes exactly*: at answer 0, `Serves`, field `done`; the text is `run_text`, for `boot` in mode `Boot`. "
    "Each other answer but 7 has its cause: its own field. Which answer comes, where the output does not fail: field "
    "`decided`, of files whose bytes the shelf tells. Of a shelf or a sink that tells no bytes none are promised; "
    "those that `main` gives are such, so of the binary that last step is [trusted](#assumptions), and so is that the "
    "exit status is the answer.",
    "*TRD 104's abstract kernel under round-robin turns*: the one that is defined here, after TRD 104 and with this "
    "board's own rules, as each file's head says. It is `round`, a fold of `stepped` by `next`, from the world "
    "`opening`. Turns are after Tock's round robin: here a process that waits, and goes on before another had a turn, "
    "has the rest of its slice. Under a script with `partition` the turns are those of the windows.",
    "*Byte, act, buffer*: `IsAccountedFor`, field `causes`, for memory below the grants and for storage; that a store "
    "was permitted, field `accesses`; a grant changes only in a turn of its process, an answer to it or an act on it. "
    "A restart counts as the process's own act, by exit, by the policy after a denial, or by an operator; that it "
    "leaves all zeroed as at the boot is `RestartsFromBoot`.",
    "*Every denial*: fields `denials`, `recorded` and `shown`; conversely no access that is permitted is denied "
    "(`DenialIsDue`).",
    "*Replay alone*: `IsAccountedRun`, field `alone`, from the object, its place and the settings that processes see. "
    "A turn is replayed with its time. What an operator does to the process counts as an answer, as does an edge of a "
    "button.",
    "*Whatever others do*: they may decide which answers a process gets, and how long it waits for these and for its "
    "turns. With `partition` these are the same, and at the same times, in two runs with the same object in the same "
    "place of its slot, up to each time that both have reached (`IsAccountedTask`); how far N steps reach, others "
    "decide.",
]

# What a reader might take to be promised, and is not.
NOT_PROMISED = [
    "*What others decide*: without `partition` a process may learn of others from which answers it gets, since all "
    "share input, random words and the script's storage faults, and from when its turns and answers come. With it the "
    "text of the console and the LEDs stay shared, which no process can read; how far N steps reach; and real time.",
    "*That a run is made*: that memory is found, that answer 7 comes for want of memory alone, that files can be read "
    "and written.",
    "*That a run is `done`* and not ended by its limit of steps.",
    "*That an image is whole*, or whose it is: a header has a checksum and nothing more. An object that is bad, "
    "disabled or has no place is not run, and the answer may be 0.",
    "*Agreement with any real board*, or with the code of Tock's kernel; speed, energy and real time.",
    "*What stands beside the program*: `tock_look` has [a contract of its own](looking.md#what-is-proved), which is "
    "not on this page; the script `./tock` and what it tells (`tools/told`), the debugger, `tools/`, `checks/` and "
    "`tests/` have none.",
]

SECTIONS = [
    ("The nouns: own, record, event, label, world", [
        "process_layout/Bounds:Bounds", "process_layout/LayoutView:LayoutView", "grant_values/Values:KeptValue",
        "grant_model/Grants:Grant", "process_model/Own:Own", "kernel_model/Record:Record",
        "kernel_model/Turn:TurnTrace", "kernel_model/Turn:Event", "kernel_model/World:Label",
        "board_devices/SerialLine:SerialLine", "script_text/Settings:EventKind", "script_text/Settings:ScriptEvent",
        "kernel_model/World:Pace", "kernel_model/World:WaitingSlots", "kernel_model/World:Devices",
        "kernel_model/World:Clock", "kernel_model/World:Present", "kernel_model/World:World"]),
    ("One process, and what happens to it", [
        "kernel_model/Record", "kernel_model/Turn", "process_record/Process", "process_record/Operator",
        "process_model/Own",
        "process_model/Instruction", "fault_policy", "process_layout/LayoutView", "process_layout/Interval"]),
    ("The opening world, and one step", ["board_opening/Opening", "board_opening/Settings", "kernel_model/World"]),
    ("System calls", [
        "kernel_model/Calls", "syscall_abi", "syscall_filter", "tk_base/Call", "process_model", "upcall_queue",
        "grant_model"]),
    ("Instructions and permission", ["rv32_model", "process_layout", "tk_base"]),
    ("What holds of the run", [
        "tool_answers/Accounts", "board_opening/Certified", "board_opening/Alone", "kernel_model/Accounts",
        "kernel_model/Causes", "kernel_model/Accesses", "kernel_model/Prints", "kernel_model/Refused",
        "kernel_model/Edges", "kernel_model/Console",
        "kernel_model/Replay", "kernel_model/Choices", "kernel_model/Histories", "process_model/Changes",
        "process_model/Permission", "driver_model/Bytes", "rv32_model/Laws"]),
    ("What time partitions promise of it", ["board_partitions", "kernel_partitions"]),
    ("Drivers and devices", ["driver_model", "board_devices", "grant_values"]),
    ("Runs by round robin, and by windows", ["kernel_model/Run", "partition_turns", "turn_scheduler"]),
    ("Images and placement", ["tbf_headers", "flash_walk", "app_placement"]),
    ("The script", ["script_text"]),
    ("What the program promises", [
        "tool_answers/Served", "tool_words/Refusals", "tool_tasks/Causes", "tool_tasks/Comes", "tk_outside"]),
    ("The command line", ["tool_words/Words", "decimal_number"]),
    ("The image tool", ["image_make"]),
    ("The text of a run", [
        "run_text/RunText", "board_report", "kernel_model/Shown", "process_record/Name",
        "process_record/Summary", "process_record/Lines"]),
]

# The law of what the contract names and is not printed with it, which claims.md cites: which two files the generator
# of `soak` makes.
GIVEN = ("tool_tasks/soak.rt", "soak_files_are_generated")

# The type of a board, and the contracts that stand beside the headline: those of the five guarantees, and one more of
# steps that somebody else chooses. Which laws stand after them is what the documents below cite.
BOARD = ("board_core/board.rt", "Board")
GUARANTEES = [
    ("board_core/board.rt", "step"), ("board_opening/certified.rt", "changes_from_boot_have_causes"),
    ("board_opening/laws.rt", "a_process_depends_on_its_own_view_alone"),
    ("board_partitions/laws.rt", "partitions_from_boot_see_themselves_alone"),
    ("kernel_calls/serving.rt", "kernel_call")]
STEPS = [("board_core/play.rt", "play")]
CITING = ["docs/claims.md", "README.md"]

# The ported crates of the kit whose contracts the program uses, and for what.
PORTED = {
    "arrayvec": "lists of bounded length", "byteorder": "numbers in bytes", "circular_buffer": "the ring of input",
    "hex": "bytes in a script", "itoa": "decimal numbers", "thiserror": "traits of two errors"}

# What the page rests on that is no matter of definitions: what is assumed, by what it could fail, and what would show
# that.
ASSUMPTIONS = [
    ("*The checker*: what `rt ci` accepts is proved, of the statements that the checker makes of contracts.",
     "an unsound rule; a goal that is not asked for",
     "an edit of `must-fail/` or a [wrong body](bodies.md) that it accepts; a worked "
     "example that the program answers otherwise"),
    ("*Its logic* has no contradiction: a cubical type theory, which `rt version` names. No crate has an axiom, nor "
     "may have one.",
     "a proof of `⊥`: then any contract has one", "that proof"),
    ("*Numbers*: `ℕ` has no end and an integer of a machine has, so the checker asks of each sum, product, cast and "
     "index that it fits, and takes each value to be in the range of its type.",
     "such a goal that is not asked for; a range of another width",
     "a worked example at a limit, as `2^32 - 1`, the last byte of flash or the twentieth upcall"),
    ("*The compilers*: LLVM, what turns Rattle into its input, the linker; the machine that runs the program.",
     "code that does another thing than its source, as the kit says of some that clang makes",
     "`rt ci`, which compares what each program writes as LLVM builds it and as Rattle's own compiler does; worked "
     "examples"),
    ("*The kit's library*: its functions keep their contracts, and its words mean what [their "
     "sentences](#the-words-of-the-library) say.",
     "a function that does another thing; a sentence that is wrong",
     "worked examples; `checks/evaluate`, whose evaluator has the words by these sentences, and [comes to the same "
     "texts](worked.md); reading its sources in the kit"),
    ("*The ported crates*: the contracts of what is called of %s hold of their code. The kit has them in "
     "`rattle/NAME/src`, and quotes the chief ones in `rattle/NAME/CALLING.md`."
     % ", ".join("`%s` (%s)" % ported for ported in PORTED.items()),
     "the same", "the same"),
    ("*The C library* and the operating system under it.",
     "a read or a write of other bytes", "worked examples, which compare files and what is written"),
    ("*The two adapters*, for the files of the host and its standard output: shelves and sinks in memory tell their "
     "bytes, these tell none, so that what a file holds and what was written through them is the host's to keep.",
     "a file that changes while it is read; a disk that keeps other bytes",
     "tests of the adapters, worked examples; a second run of the same words, whose text is the same"),
    ("*`main`* gives `serve` the two and the words, and ends with its answer: it is proved safe, and has no other "
     "contract.",
     "other words, another status", "its stored run and worked examples, which compare statuses"),
    ("*The stack* is large enough: contracts say nothing of it. No function of `tock` calls itself, nor by way of "
     "others, by its sources and by the machine code of an unproved build; so how much it takes is bounded, whatever "
     "the files and the steps. Of the largest image, the longest script, 64 files and a soak none took more than "
     "88 KiB, and 160 KiB in that build; Linux gives 8 MiB.",
     "`ulimit -s` below that; a compiler with larger frames",
     "a signal that ends the program (status 139), after a front of its text; the check `little-stack` of `tests/run`"),
    ("*Signals, and the host's memory*: nothing ends the program from outside, and memory that it was given is there.",
     "`kill`; a host that is out of memory (status 137)",
     "a status of 128 or more: what was written is a front of the text. A reader of the output that goes is no "
     "signal, but 6"),
    ("*Tables read from manuals*: instructions, system calls, error codes and formats stand here as in [the "
     "standards](#standards), against which they were read.",
     "a row that was read wrongly",
     "`tests/run`, where GNU's assembler and QEMU are there: by the assembler which of all parcels, and of words of 32 "
     "bits with each opcode and function but fences and the system's, are instructions; by QEMU's processor in user "
     "mode what these do, and what a process may access. Comparing a row with its section"),
    ("*Editions* of the standards: sections are cited by title, and no date was recorded. By what they have they are "
     "RV32I 2.1 (without `fence.i` and CSRs), M 2.0 and C 2.0; TRD 104 with yield-wait-for and the userspace-readable "
     "allow; version 2 of the Tock Binary Format.",
     "an edition in which a section says another thing", "comparing the section with the rows that cite it"),
    ("*`./tock`*: the program that it runs is the one that was proved. It has `rt ci` prove and build anew what a "
     "changed source reaches, of copies of the crates that the program stands on, which it compares with these byte "
     "for byte.",
     "a source that was changed and kept its size and time; `tools/proving/prove`, where it copies and compares "
     "otherwise",
     "`rt ci` here, whose program is the same, byte for byte; a first run after `out/` is deleted"),
    ("*`TOCK_PROGRAM`* is not set: where it is, `./tock` runs what it names, proved or not, and does not say so.",
     "an environment that sets it", "`env`"),
    ("*The maker of this page*, `checks/headline`: it leaves out no definition on which a contract here rests, and its "
     "sentences on names are right.",
     "a name that it reads as another one", "`checks/headline --test`; reading a definition where it stands"),
]

PROOFS_ONLY = "Only proofs use this"
