"""Sentences of the documents with numbers of the definitions: each has to stand in its page with the numbers that the
sources give. `{NAME:,}` is a number with commas, `{NAME:w}` in words, `{NAME:x}` in base 16."""

import re

from tools import REPEATED

DRIVERS = [
    "{DRIVERS:W} drivers: ", "(`{NoDriver}`)", "A grant is words of {WORD} bytes, the lowest byte first",
    "(bytes 0 to 3), its cost (bytes {WORD} to 7)",
    "zeros up to a multiple of {COST_UNIT}",
    "yields by {YIELD_NOW} or {YIELD_WAIT}, the one", "a wait by {YIELD_WAIT} ends",
    "Up to {PENDING_LIMIT:w} wait; a new one",
    "**One upcall alone.** Yield {YIELD_FOR} takes",
    "| 0 | yield | {YIELD_NOW} no-wait, {YIELD_WAIT} wait, {YIELD_FOR} wait for one upcall alone |",
    "| 6 | exit | {EXIT_END} ends, {EXIT_AGAIN} starts again |", "One more is refused (`{Busy}`)",
    "(`{NoRoom}`) where the grant does not fit",
    "refused by `{Permission}`", "that is not below by `{NoCommand}`", "The clock has {CLOCK_BITS} bits",
    "| 1 ticks a second | | | {FREQUENCY} |", "or {PENDING_LIMIT:w} wait.",
    "at most {PRINT_LIMIT} a step", "{RING_SIZE} bytes at most, the oldest overwritten", "a ring of {RING_SIZE} bytes",
    "| {SIZE_0}, or {SIZE} (SIZE) where", "| {CANCEL} (CANCEL) |", "| {FAIL} (FAIL) | bytes written so far |",
    "| 0 | {FAIL} (FAIL) | 0 |", "(script, {storage} without it), 0x{ERASED:x} at first",
    "| {READ_UPCALL} | where a read is done |", "| {WRITE_UPCALL} | where a write is done |",
    "armed, reference, delta, {ALARM:w} zeros", "a read waits, its length, {CONSOLE:w} zeros",
    "(bit n for button n), {BUTTONS:w} zeros", "bytes so far, {RANDOM:w} zeros", "offset, length, {STORAGE:w} zeros",
    "subscribe and the allows are refused (`{NoNumber}`)", "(exit {EXIT_AGAIN}, a fault under the policy",
    "| address of the flag (no-wait), or the upcall's driver ({YIELD_FOR}) | the upcall's number ({YIELD_FOR}) |",
    "| function, {NULL} for none |", "`now + delta` mod 2^{CLOCK_BITS} |", "`reference + delta` mod 2^{CLOCK_BITS} |",
    "`(now - reference) mod 2^{CLOCK_BITS}` is at least delta", "| readable 0 | command {CLOCK_COMMAND}, and an alarm",
    "into the first {WORD} bytes, or as many", "`{Empty}` ({NO_BYTES} bytes)", "upcall {CANCEL_UPCALL} says CANCEL",
    "| {CANCEL_UPCALL} | where command {CANCEL_COMMAND} dropped the read | {CANCEL} (CANCEL) | 0 | 0 |",
    "| {FIRED_UPCALL} | where `(now", "There is no command {NO_ALARM}.", "| button | {PRESSED}, or {RELEASED} |",
    "| {PRESSED} pressed, {RELEASED} released |",
    "| {READ_UPCALL} or {WRITE_UPCALL} | where the script has it fail | 0 | {FAIL} (FAIL) | 0 |",
]

MANUAL = [
    "N, NUMBER and OFFSET have 1 to {DIGITS} decimal digits", "N is at most {MOST_TURNS:,}, NUMBER and OFFSET at most "
    "{MOST_NUMBER:,}.", "the objects of 1 to {MOST_FILES} files", "Statuses 0 and 2 to {LAST_STATUS} are the program's",
    "of the same length rounded up to {WORD} |", "in ticks, 0 to {event} |",
    "ends it with code {TERMINATE_CODE}, as exit", "as exit {EXIT_AGAIN} does; it counts",
    "is not 1 to {DIGITS} decimal digits |", "of `random`, not {WORD_DIGITS} |",
    "| a turn | {TURN_TICKS} tick |", "| a read of {NO_BYTES} bytes |",
    "ask command {LED_COUNT} (LEDs, buttons) or {SIZE_COMMAND} (storage) |", "ask memop {COUNT_MEMOP} how many |",
    "ask memop {START_MEMOP} and {BREAK_MEMOP};", "(D has {WAIT_DIGITS:w} digits of base 16",
    "with {TERMINATE_CODE} where an operator ended it |", "ADDRESS has {ADDRESS_DIGITS:w} digits of base 16 |",
    "loads or stores {HALF} or {WORD} bytes at no multiple of {HALF} or {WORD}.",
    "| init offset, protected size, minimum RAM ({FIELD} each) |",
    "| pairs of offset and size ({FIELD} each); memop {COUNT_MEMOP} to {END_MEMOP} tell them |",
    "| RAM start, flash start ({FIELD} each);",
    "| as Main, then the binary's end offset and a version ({FIELD} each) |",
    "a count ({COUNT_SIZE}), then for each entry a driver ({DRIVER_SIZE}), an offset ({OFFSET_SIZE}), the permitted "
    "commands ({MASK_SIZE}): bit n is command `{MASK_BITS} * offset + n` |",
    "| a part of the text | {OUTPUT} |", "another number of {WORD}-byte words", "(standard error) | {NO_PROGRAM} | put",
    "where a {WORD_BITS}-bit instruction begins", "at ADDRESS + {HALF}, `{NoRegion}` |",
    "command {CLOCK_COMMAND} to the alarm, inside", "| read-write {READ_BUFFER} of b bytes |",
    "| read-only {WRITE_BUFFER} of b bytes |", "| status {USAGE} | the first word", "| {FAULT}, {TOO_LONG} | the path",
    "Of a run these are {TOLD_LINES:w} lines at most", "by the trace of the run's first {TOLD_STEPS:,} steps",
    "denied up to {NEAR} bytes below RAM", "does not yield in {MANY_TURNS:,} turns",
    "| {SCRIPT_STATUS} | the line itself", "| {OUTPUT} | that the output failed |", "| {IMAGE} | at which offsets",
    "(0 to {threshold}; restarts by exit and by an operator count too)",
    "K rises, up to {storage-fault}; at most {FAULT_LIMIT} lines",
    "each of {WORD_DIGITS} hex digits, the highest first; at most {WORD_LIMIT} in all",
    "that 1 to {INPUT_LIMIT} bytes, in hex, come in on the serial line at time T, in ticks (0 to {event})",
    "there are at most {EVENT_LIMIT} of them", "A number has 1 to {DIGITS} decimal digits.",
    "A directory cannot be read ({FAULT}).", "is no command ({USAGE}).", "before the program is built ({NO_PROGRAM}).",
    "{NO_PROGRAM} is that of the script `./tock`", "and the answer is {NO_PROGRAM}.",
    "its first bad line, counted from {FIRST_LINE}, and", "and a release {TAP} ms later",
    "a delay of 1 ms is {TICKS_OF_MS:w} instruction.", "says `partition {WINDOW}`.",
    "in windows of {WINDOW:w} ticks](#time-partitions)",
    "`hello` has the times 0 to {WINDOW_LAST}, and", " its next window begins; {IDLE_SLOTS:w} windows in which "
    "nobody has anything to do are {IDLE_SLOTS:w} steps between.", "all other registers are {START_REGISTER}.",
    "registers have {REGISTER_DIGITS:w} digits of base 16.", "bytes that were printed, {BYTE_DIGITS:w} digits each",
    "and protected size added, rounded up to {WORD}.", "Each {PARCEL_BITS}-bit parcel of an instruction",
    "at most {MOST_WINDOWS} of them; with more", "where one of {MOST_ROWS:w} rows has room",
    "On four processors this takes {LEAST_MINUTES} to {MOST_MINUTES} minutes",
    "the start with {BENCH_MIB} MiB of flash", "Each run answers {MEMORY_STATUS} and writes `memory` alone",
    "shows it: {GREET_TURNS} turns, two steps of the UART (it takes {GREET_BYTES} bytes at time {GREET_OUT}, and "
    "completes the write at {GREET_DONE}) and one pass from {GREET_WAITS} to {GREET_DONE} make {GREET_STEPS} steps, "
    "and {GREET_TURNS} turns and {GREET_PASSED} ticks passed make the time {GREET_TIME}.",
    "makes its fourth turn at {HELLO_LAST}, where", "`stray` ends at {STRAY_LAST}, and",
    "in the addresses: {SHARE:,} bytes apart, not {BLOCK_UNIT:,}.", "(memop, class {MEMOP})",
    "refuse it ({IMAGE} `{NoObject}`)", "An operator's VERB is one of {VERBS:w}. NAME has 1 to {NAME_LIMIT} bytes",
    "by `script LINE RULE` and status {SCRIPT_STATUS}", "or a name has more than {NAME_LIMIT} bytes",
    "the UART takes up to {PRINT_LIMIT} bytes", "It says that it has {FREQUENCY:,} ticks a second, so a second is "
    "{FREQUENCY:,} turns", "`(t / N) mod {SLOT_COUNT}`", "N ticks in every {SLOT_COUNT} * N",
    "up to {RING_SIZE} that it did not read", "rounded down to a multiple of {RAM_UNIT:,}",
    "`0x{RAM_START:x} + s * share`", "With `ram {ram}` a share is {SHARE:,} bytes; below `ram {LEAST_SHARED}` it is 0",
    "Flash is the file, from 0x{FLASH_START:x}. RAM begins at 0x{RAM_START:x}, all zero.", "in slots 0 to {LAST_SLOT}.",
    "minimum RAM and {BLOCK_MORE} bytes, rounded up to a multiple of {BLOCK_UNIT:,}. The first break is the minimum "
    "RAM, rounded up to {WORD}.", "It is rounded up to {WORD}.", "All grants together cost {ALL_GRANTS} bytes, so the "
    "{BLOCK_MORE} are enough", "memop has 0 to {LAST_MEMOP}, exit 0 and 1", "NAME is the first {NAME_LIMIT} bytes",
    "because {PENDING_LIMIT:w} waited already", "with a class above {LAST_CLASS} in a4", "{SLOT_COUNT:w} were placed",
    "no multiple of {FIXED_UNIT}, or lies below RAM", "a larger `ram` line, up to {RAM_LIMIT}",
    "its header size is below {HEADER}, above",
    "The header, in {HEADER} bytes: version ({VERSION_SIZE} bytes, {VERSION}), header size ({header_size}), "
    "total size ({total_size}), flags ({flags}; bit 0 is 'enabled', no other counts), "
    "checksum ({CHECKSUM_SIZE}), the exclusive or of all other {CHECKSUM_SIZE}-byte words of the header.",
    "type ({TYPE_SIZE}), length ({LENGTH_SIZE}; without these {TLV_HEAD:w} bytes and the padding), content, padded to "
    "{WORD}.",
    "fewer than {HEADER} bytes are left, the version is not {VERSION}, the total size is below {HEADER}, no multiple "
    "of {WORD}, or beyond the rest; and after {OBJECT_LIMIT} objects",
    "| 2 and {ENTRY} for each entry |", "0x{NO_PLACE:x} for none",
    "| flash file, and image of `pack` | {FLASH_LIMIT:,} bytes | {TOO_LONG}; {IMAGE} `{Size}` |",
    "| script | {SCRIPT_LIMIT:,} bytes | {TOO_LONG} |",
    "| objects of an image | {OBJECT_LIMIT} | those after them are not seen; `pack` {IMAGE} `{TooMany}` |",
    "| files of `pack` | {MOST_FILES} | {USAGE} |", "| processes | {SLOT_COUNT} | `unplaced .. {NoSlot}` |",
    "| RAM | {RAM_LIMIT:,} bytes | the script's `{OutOfRange}` |",
    "| upcalls that wait, of a process | {PENDING_LIMIT} |",
    "on that of each slot | {RING_SIZE} bytes |", "| bytes of a step of the UART | {PRINT_LIMIT} |",
    "| `--turns` | {MOST_TURNS:,} | {USAGE} |",
    "| name that `rename` gives | {NAME_LIMIT} bytes | {IMAGE} `{BadName}` |",
    "the file has more than {FLASH_LIMIT:,} bytes: is it a flash image?",
    "the file has more than {SCRIPT_LIMIT:,} bytes: is it a script?",
    "a name has 1 to {NAME_LIMIT} bytes of visible ASCII", "the files have more than {OBJECT_LIMIT} objects together",
    "the image would have more than {FLASH_LIMIT:,} bytes", "(`{range}`) where offset",
    "| {READ_UPCALL} (min(n, b), 0, 0) |", "| {WRITE_UPCALL} (min(n, b), 0, 0) |", "| (0, {FAIL}, 0) |",
]

COMPATIBILITY = [
    "up to {SLOT_COUNT:w} applications of an image in the Tock Binary Format, version {VERSION}",
    "all {CLASSES:w} classes of system calls", "| 5 | memop 0 to {LAST_MEMOP} |", "| above {LAST_CLASS} | |",
    "a fault, `{UnknownClass}`", "another number is refused ({NoOperation_error})", "| refused: {NoDriver_error} |",
    "the break is rounded up to {WORD}", "{NAME_LIMIT} bytes are shown",
    "There are {SLOT_COUNT:w} processes at most, and {PENDING_LIMIT:w} upcalls wait for each.",
    "flash from 0x{FLASH_START:x}, up to {FLASH_MIB} MiB; RAM from 0x{RAM_START:x}, up to {RAM_KIB} KiB",
    "| Time | {FREQUENCY:,} ticks a second", "atomics are `{Illegal}`", "denied, `{Misaligned}`",
    "{NoDriver_error} is what it expects", "{NoRoom}`) |",
    "the function's first {FUNCTION_BYTES} bytes", "this kernel's own | command {NO_ALARM} |",
    "| header, version {VERSION} |",
    "| told by memop {COUNT_MEMOP} to {END_MEMOP} |", "for the {DRIVERS:w} drivers; their bodies",
]
CLAIMS = [
    "({FLASH_LIMIT:,} and {SCRIPT_LIMIT:,})",
    "NAME has not 1 to {NAME_LIMIT} bytes of 0x21 to 0x7E", "more than {OBJECT_LIMIT} objects",
    "more than {FLASH_LIMIT:,} bytes |", "a turn of any of up to {SLOT_COUNT:w} processes",
    "exactly where {PENDING_LIMIT:w} wait (`PENDING_LIMIT`", "while {PENDING_LIMIT:w} waited;",
    "At most {PENDING_LIMIT:w} upcalls wait.", "up to {FLASH_LIMIT:,} bytes and every RAM of up to {RAM_KIB} KiB",
    "at most {SLOT_COUNT:w} are placed", "the queue of {PENDING_LIMIT:w} upcalls", "a class above {LAST_CLASS}"]
README = ["runs up to {SLOT_COUNT:w} applications",
          "[{ASSUMPTIONS:w} assumptions](docs/headline.md#assumptions)", "the statements of {PORTED:w} ported crates",
          "`./tock` itself answers {NO_PROGRAM} where it has no program.",
          "it first proves what it runs and builds it ({LEAST_MINUTES} to {MOST_MINUTES} minutes on four processors)"]

# Numbers that no sentence needs: those of calls, which are compared by name, sizes of nothing, 32 bits; names, and
# examples of lines.
PLAIN = [r"UTF-8", r"Python 3", r"TRD 104", r"`(?:TOCK_\w+|FIXED)=1`", r"`(?:\d+s?|\+50) [^`]*` \([^)0-9]*",
         r"`release 0`", r"50 ticks after the line before", r"with status 0\b", r"status is not 0\b",
         r"command 1, 2 or 3", r"[Cc]ommand \d+", r"class 7", r"size 0\b", r"\b0 bytes", r"\b0, 0 ",
         r"(?:subscribe|upcall|read-only|read-write|readable|memop) \d+", r"2\^32", r"Delta 0",
         r"0 none, 1 a read, 2 a write"]
SENTENCES = {"docs/drivers.md": DRIVERS, "docs/manual.md": MANUAL, "docs/compatibility.md": COMPATIBILITY,
             "docs/claims.md": CLAIMS, "README.md": README, **REPEATED}


def filled(sentence, known):
    """A sentence with its numbers."""
    return re.sub(r"\{([\w-]+)(?::([wWx,]))?\}", lambda found: format(known[found[1]], found[2] or ""), sentence)


def said_otherwise(pages, known, sentences):
    """Sentences that do not stand in their pages with these numbers."""
    return ["%s: does not say: %s" % (page, filled(sentence, known))
            for page, listed in sentences.items() for sentence in listed if filled(sentence, known) not in pages[page]]
