"""The numbers and words that sentences of documents repeat, read from the definitions, from constants, from the runs
that documents show, and from tools."""

import re

from checks import buffers, cost
from facts import computed
from runs import of_first_run, of_runs
from tools import of_tools

IN_WORDS = {1: "one", 2: "two", 3: "three", 4: "four", 5: "five", 6: "six", 7: "seven", 8: "eight", 9: "nine",
            10: "ten", 11: "eleven", 12: "twelve", 13: "thirteen", 14: "fourteen", 15: "fifteen", 16: "sixteen",
            20: "twenty", 32: "thirty-two", 64: "sixty-four"}
ZEROS = {"Alarm": 3, "Console": 5, "Buttons": 1, "Random": 3, "Storage": 3}


class Number(int):
    """A number that is also written in words (`w`, `W` with a capital), and in base 16 as addresses are."""

    def __format__(self, form):
        if form in ("w", "W"):
            word = IN_WORDS[int(self)]
            return word if form == "w" else word.capitalize()
        return "%X" % self if form == "x" else format(int(self), form)


def of_commands(facts):
    """Numbers of the command line, its statuses, and the words of what may be refused."""
    status = facts.numbers("tool_words/Refusals", "status_of")
    faults = facts.words("tool_words/Refusals", "image_fault_text")
    digits = int(re.search(r"length word\) (\d+)", facts.text("decimal_number/Number", "is_number"))[1])
    return dict(DIGITS=digits, LAST_STATUS=max(status.values()), SCRIPT_STATUS=status["Script"],
                MEMORY_STATUS=status["Memory"],
                FAULT=status["Fault"], TOO_LONG=status["TooLong"], IMAGE=status["Image"], USAGE=status["Usage"],
                **faults)


def of_scripts(facts):
    """Numbers of the table of lines."""
    rows, found = dict(facts.clauses("script_text/Table", "row")), {}
    for name in ("Ram", "Storage", "Uart"):
        found[name.lower()] = int(rows[name].split()[-1])
    found["threshold"] = int(re.search(r"from_to 0 (\d+)", rows["Threshold"])[1])
    found["storage-fault"] = int(re.search(r"from_to 1 (\d+)", rows["StorageFault"])[1])
    found["WORD_DIGITS"] = int(re.search(r"digits = Some (\d+)", rows["Random"])[1])
    found["event"] = int(re.search(r"from_to 0 (\d+)", facts.text("script_text/Table", "timed"))[1])
    found["VERBS"] = len(facts.words("tk_base/Verbs", "verb_text"))
    found["FIRST_LINE"] = int(re.search(r"enumerate_from (\d+)", facts.text("script_text/Reading", "faults"))[1])
    return {**found, **facts.words("script_text/Rules", "name_of_rule")}


def of_drivers(facts):
    """Numbers of drivers and grants."""
    numbers = facts.numbers("grant_values/Drivers", "number_of_driver")
    counts = {name: [int(word) for word in given.split()[1:]]
              for name, given in facts.clauses("grant_values/Drivers", "counts_by")}
    commands = facts.rows("driver_model/Alarm", "commands")
    found = {name.upper(): counts[name][4] // 4 - kept for name, kept in ZEROS.items()}
    return dict(found, DRIVERS=len(numbers), FREQUENCY=int(re.search(r"SuccessU32 (\d+)", commands[1])[1]),
                COST_UNIT=int(re.search(r"\* (\d+)$", facts.text("grant_values/Drivers", "cost_of"))[1]),
                ALL_GRANTS=sum(cost(facts, each) for each in counts.values() if any(each)),
                CLOCK_BITS=int(re.search(r"2 \^ (\d+)", facts.text("board_devices/Clock", "clock_at"))[1]), SIZE_0=0)


def of_calls(facts):
    """Numbers and words of system calls."""
    codes = facts.numbers("tk_base/Call", "code_of")
    errors = {rule + "_error": given.split(".")[-1] for rule, given in facts.clauses("tk_base/Call", "error_of")}
    classes, memops = facts.rows("syscall_abi/Call", "class_table"), facts.rows("kernel_model/Calls", "memops")
    words = {**facts.words("board_report/Words", "rule_text"), **facts.words("board_report/Words", "fault_text"),
             **facts.words("board_report/Words", "call_rule_text")}
    yields, exits = (facts.text("kernel_model/Calls", name) for name in ("yielding", "exit"))
    forms = {name: int(re.search(r"== (\d+) then " + then, text)[1]) for name, then, text in (
        ("YIELD_NOW", "yield_now", yields), ("YIELD_WAIT", "comes_to", yields), ("YIELD_FOR", "yield_for", yields),
        ("EXIT_END", r"ended \(record", exits), ("EXIT_AGAIN", r"ended \(restart", exits))}
    upcalls = facts.numbers("driver_model/Storage", "upcall_for")
    forms["MEMOP"] = next(number for number, text in classes.items() if "Memop" in text)
    return dict(codes, **errors, **words, **forms, range=words["Range"], CLASSES=len(classes), LAST_CLASS=max(classes),
                LAST_MEMOP=max(memops), READ_UPCALL=upcalls["Read"], WRITE_UPCALL=upcalls["Write"])


def of_memory(facts, constants):
    """Numbers of images, blocks and shares."""
    block = re.search(r"\+ (\d+) .*\* (\d+)$", facts.text("app_placement/Placement", "block_length"))
    share = re.search(r"slot \* (\(.*\))$", facts.text("app_placement/Placement", "share_start"))[1]
    ram = of_scripts(facts)["ram"]
    limits = {name: constants[name] for name in ("SLOT_COUNT", "RAM_UNIT")}
    ends = facts.text("flash_walk/Image", "ends_at")
    return dict(BLOCK_MORE=int(block[1]), BLOCK_UNIT=int(block[2]), SHARE=computed(share, ram=ram, **limits),
                LEAST_SHARED=limits["SLOT_COUNT"] * limits["RAM_UNIT"], LAST_SLOT=limits["SLOT_COUNT"] - 1,
                WORD=int(re.search(r"\* (\d+)$", facts.text("tk_base/Numbers", "rounded_up"))[1]),
                HEADER=int(re.search(r"length flash - at\) (\d+)", ends)[1]),
                VERSION=int(re.search(r"half flash at == (\d+)", ends)[1]),
                FIXED_UNIT=int(re.search(r"fixed % (\d+)", facts.text("app_placement/Placement", "is_start_taken"))[1]),
                ENTRY=int(re.search(r"2 \+ (\d+) \*", facts.text("tbf_headers/Tlv", "is_bad"))[1]),
                NO_PLACE=int(re.search(r"fixed\.1 == (\d+)", facts.text("flash_walk/Image", "app_verdict"))[1]),
                FLASH_MIB=constants["FLASH_LIMIT"] // 2 ** 20, RAM_KIB=constants["RAM_LIMIT"] // 2 ** 10)


def of_headers(facts):
    """The sizes of the fields of a header and of its elements, by how they are read."""
    widths = facts.numbers("tk_base/Access", "width_bytes")
    sizes = {"half": widths["Half"], "word_at": widths["Word"], "double": 2 * widths["Word"]}

    def size(place, name, pattern):
        return sizes[re.search(pattern, facts.text("tbf_headers/" + place, name))[1]]
    kind, length = size("Tlv", "first_of", r"(\w+) header at =="), size("Tlv", "length_at", r"(\w+) header")
    fields = {name: size("Meaning", "meaning_of", name + r" = (\w+) bytes")
              for name in ("header_size", "total_size", "flags")}
    return dict(fields, TYPE_SIZE=kind, LENGTH_SIZE=length, TLV_HEAD=kind + length, PARCEL_BITS=8 * sizes["half"],
                VERSION_SIZE=size("Meaning", "header_reading", r"not \((\w+) bytes 0 =="),
                CHECKSUM_SIZE=size("Meaning", "header_reading", r"not \((\w+) bytes 12 =="),
                FIELD=size("Meaning", "main_of", r"init = (\w+) c"),
                COUNT_SIZE=size("Permissions", "entries", r"(\w+) content 0"),
                DRIVER_SIZE=size("Permissions", "entry_at", r"driver = (\w+)"),
                OFFSET_SIZE=size("Permissions", "entry_at", r"offset = (\w+)"),
                MASK_SIZE=size("Permissions", "entry_at", r"allowed = (\w+)"),
                MASK_BITS=int(re.search(r"command / (\d+)", facts.text("tbf_headers/Permissions", "permits"))[1]))


def of_texts(facts):
    """How many digits numbers have in a trace, and what a register begins with."""
    digits = {name: int(re.search(r"hex_digits (\d+)", facts.text("board_report/Trace", name))[1])
              for name in ("registers_text", "out_text")}
    start = re.search(r"replicate \d+ (\d+)", facts.text("process_record/Process", "start_regs"))[1]
    return dict(REGISTER_DIGITS=digits["registers_text"], BYTE_DIGITS=digits["out_text"], START_REGISTER=int(start))


def row_with(facts, place, name, text):
    """The number of the row of a table of calls in which a text stands."""
    return next(number for number, row in facts.rows(place, name).items() if text in row)


def of_rows(facts):
    """The numbers of commands and operations that prose names by what they do, and of their buffers and upcalls."""
    def upcall(name, definition):
        return int(re.search(r"scheduling \w+ (\d+)", facts.text("driver_model/" + name, definition))[1])
    memops = {name: row_with(facts, "kernel_model/Calls", "memops", text) for name, text in (
        ("START_MEMOP", "own.layout.start"), ("BREAK_MEMOP", "kernel_break_of"), ("COUNT_MEMOP", "region_count"),
        ("END_MEMOP", "region.0 + region.1"))}
    numbers = sorted(facts.rows("driver_model/Alarm", "commands"))
    held = dict(buffer.split() for buffer in buffers("Storage")(facts))
    return dict(memops, CLOCK_COMMAND=row_with(facts, "driver_model/Alarm", "commands", "showing now"),
                CANCEL_COMMAND=row_with(facts, "driver_model/Console", "commands", "cancelling"),
                CANCEL_UPCALL=upcall("Console", "dropping_read"), FIRED_UPCALL=upcall("Alarm", "fired"),
                LED_COUNT=row_with(facts, "driver_model/Leds", "commands", "SuccessU32 count"),
                SIZE_COMMAND=row_with(facts, "driver_model/Storage", "commands", "SuccessU32 size"),
                NO_ALARM=next(number for number in range(max(numbers)) if number not in numbers),
                NO_BYTES=int(re.search(r"count == (\d+) then refusing Empty",
                                       facts.text("driver_model/Console", "commands"))[1]),
                READ_BUFFER=int(held["read-write"]), WRITE_BUFFER=int(held["read-only"]))


def of_steps(facts):
    """Numbers of turns, functions, flags and answers."""
    def number(place, name, pattern):
        return int(re.search(pattern, facts.text(place, name))[1])
    answer = "\n".join(facts.spec("tool_answers/Served").definitions["Serves"].lines)
    flag = re.search(r"if on then (\d+) else (\d+)", facts.text("tk_base/Bits", "bit_of"))
    widths = facts.numbers("tk_base/Access", "width_bytes")
    return dict(TURN_TICKS=number("kernel_model/World", "after_turn_of", r"clock\.time \+ (\d+)"),
                FUNCTION_BYTES=number("process_model/Handed", "may_share", r"lies_in_ram e \(even pair\.0\) (\d+)"),
                NULL=number("upcall_queue/Pending", "scheduled", r"upcall\.function == (\d+)"),
                TERMINATE_CODE=number("process_record/Operator", "process_operated", r"after_end p (\d+)"),
                WAIT_DIGITS=number("board_report/Report", "wait_text", r"hex_digits (\d+) driver"),
                ADDRESS_DIGITS=number("board_report/Report", "denial_text", r"hex_digits (\d+) d\.address"),
                PRESSED=int(flag[1]), RELEASED=int(flag[2]), HALF=widths["Half"], WORD_BITS=8 * widths["Word"],
                OUTPUT=int(re.search(r"sink : call\.answer ≡ (\d+)", answer)[1]))


def values(facts, pages):
    """All numbers and words, by the names that sentences have for them; those of runs as pages show them."""
    constants = facts.constants()
    found = {**constants, **of_calls(facts), **of_scripts(facts), **of_commands(facts), **of_drivers(facts),
             **of_memory(facts, constants), **of_headers(facts), **of_texts(facts), **of_rows(facts), **of_steps(facts),
             **of_tools()}
    found.update(of_runs(pages, found["uart"]), **of_first_run(pages), TICKS_OF_MS=found["FREQUENCY"] // 1000)
    found.update(WINDOW_LAST=found["WINDOW"] - 1, IDLE_SLOTS=found["SLOT_COUNT"] - found["WINDOWED"])
    return {name: Number(value) if isinstance(value, int) else value for name, value in found.items()}
