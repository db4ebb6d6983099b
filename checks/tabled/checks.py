"""Each table of the documents that repeats one of the definitions, and how its rows are compared with that."""

import re
from dataclasses import dataclass
from itertools import zip_longest
from typing import Callable

from documents import quoted, table_of
from facts import computed

COMMON, WORDS_OF = "tk_base/Call", "board_report/Words"
# A call by its form, and a swap by the kind of its pairs.
CALLS = {"yield": "Yield", "subscribe": "Upcall", "command": "Command", "read-write allow": "ReadWrite",
         "read-only allow": "ReadOnly", "memop": "Memop", "exit": "Exit", "userspace-readable allow": "Readable"}
KINDS = {"ReadOnly": "read-only", "ReadWrite": "read-write", "Readable": "readable"}
REPLIES = {"failure": "Failure", "failure with two numbers": "FailureU32U32", "success": "Success",
           "success with a number": "SuccessU32", "success with two numbers": "SuccessU32U32"}
ELEMENTS = {"Main": "MAIN", "Writeable Flash Regions": "REGIONS", "Package Name": "NAME", "Fixed Addresses": "FIXED",
            "Permissions": "PERMISSIONS", "Program": "PROGRAM"}
# Of each driver its variant, the file of its definitions, and its heading in drivers.md.
DRIVERS = {"alarm": ("Alarm", "Alarm, 0x0"), "console": ("Console", "Console, 0x1"), "LEDs": ("Leds", "LEDs, 0x2"),
           "buttons": ("Buttons", "Buttons, 0x3"), "random": ("Random", "Random bytes, 0x40001"),
           "storage": ("Storage", "Storage, 0x50001")}


@dataclass
class Check:
    """A table, by its page, its heading and the first words of its head; what is read of its rows, and what that is to
    be. Both are lists."""
    page: str
    heading: str
    head: tuple
    read: Callable
    wanted: Callable

    def fault(self, pages, facts):
        """What is wrong with the table, in words; None where nothing is."""
        table = table_of(pages[self.page], self.heading, *self.head)
        at = "%s, %s, table of %s" % (self.page, self.heading, " and ".join(self.head))
        if table is None:
            return at + ": is not there"
        wanted = self.wanted(facts)
        try:
            said = [read for row in table.rows for read in self.read(table, row)]
        except (AttributeError, IndexError, KeyError, TypeError, ValueError) as unread:
            return "%s: has a row of another form: %r" % (at, unread)
        if said == wanted:
            return None
        pairs = zip_longest(said, wanted)
        return "%s: says %r, and the definitions %r" % (at, *next(pair for pair in pairs if pair[0] != pair[1]))


def first_words(table, row):
    """What is in backquotes first in a row."""
    return [quoted(row[0])[0].split()[0]]


def number_in(cell):
    """The number with which a cell begins, 0 for `none`."""
    found = re.match(r"0x[\dA-Fa-f]+|[\d,]+", cell)
    return int(found[0].replace(",", ""), 0) if found else 0


def numbers_listed(cell):
    """The numbers that a cell lists, as 0, 1 or 0 to 3, without what stands in parentheses."""
    listed = []
    for first, last in re.findall(r"(\d+)(?: to (\d+))?", re.sub(r"\([^)]*\)", "", cell)):
        listed += range(int(first), int(last or first) + 1)
    return listed


# System calls.

def class_rows(table, row):
    """A class and its call."""
    return [(number_in(row[0]), CALLS.get(row[1], row[1]))]


def classes(facts):
    """The classes of calls, in their order, each with its form, or with the kind of pairs that it swaps."""
    rows = facts.rows("syscall_abi/Call", "class_table")
    return [(number, re.match(r"(?:forms\.|swap )(\w+)", text)[1]) for number, text in rows.items()]


def told_class_rows(table, row):
    """Each class once, with its call, by the words with which the rows of calls begin; of the whole table."""
    if row is not table.rows[0]:
        return []
    begins = {**CALLS, "other numbers": "Yield"}
    found = [(int(each[0]), next(call for word, call in begins.items() if each[1].startswith(word)))
             for each in table.rows if each[1]]
    return sorted(set(found))


def memop_rows(table, row):
    """The operations of a row of two, each with whether it answers success alone."""
    return [(number_in(row[at]), "success" in row[at + 1]) for at in (0, 2)]


def memops(facts):
    """The operations in the order of the table, which has two columns."""
    rows = sorted(facts.rows("kernel_model/Calls", "memops").items())
    listed = [(number, "SuccessU32" not in text and "region_end" not in text) for number, text in rows]
    half = len(listed) // 2
    return [each for pair in zip(listed[:half], listed[half:]) for each in pair]


def error_rows(table, row):
    """A rule's word, the number and the name of its error."""
    number, name = row[1].split()
    return [(quoted(row[0])[0], int(number), name)]


def errors(facts):
    """The same by the definitions, in no order."""
    codes, words = facts.numbers(COMMON, "code_of"), facts.words(WORDS_OF, "call_rule_text")
    names = {rule: given.split(".")[-1] for rule, given in facts.clauses(COMMON, "error_of")}
    return sorted((word, codes[names[rule]], names[rule]) for rule, word in words.items())


def reply_rows(table, row):
    """A variant of replies and its number."""
    return [(number_in(row[0]), REPLIES[re.sub(r" \(.*", "", row[1])])]


def replies(facts):
    """The variants that come."""
    numbers = facts.numbers("syscall_abi/Reply", "reply_words")
    return sorted((numbers[name], name) for name in REPLIES.values())


# Drivers.

def grant_rows(table, row):
    """A driver's number, its pairs by kind, and the bytes of its grant; None where it has none."""
    name, number = row[0].rsplit(" ", 1)
    return [(DRIVERS[name][0], int(number, 0), [numbers_listed(cell) for cell in row[1:5]], number_in(row[5]) or None)]


def cost(facts, counts):
    """The bytes of a grant by the definition."""
    upcalls, ro, rw, ur, value = counts
    return computed(facts.text("grant_values/Drivers", "cost_of"), pair_count__counts=upcalls + ro + rw + ur,
                    counts_of_value=value)


def grants(facts):
    """The drivers, in the order of their list."""
    numbers = facts.numbers("grant_values/Drivers", "number_of_driver")
    counts = {name: [int(word) for word in given.split()[1:]]
              for name, given in facts.clauses("grant_values/Drivers", "counts_by")}
    return [(name, number, [list(range(count)) for count in counts[name][:4]],
             cost(facts, counts[name]) if any(counts[name]) else None) for name, number in numbers.items()]


def command_rows(table, row):
    """A command's number, whether it replies with success alone, the rules that refuse it, whether it enters."""
    reply = table.cell(row, "Reply")
    return [(number_in(row[0]), reply.startswith("success"), sorted(quoted(table.cell(row, "Refused"))),
             table.cell(row, "Enters") == "yes")]


def commands(driver):
    """The commands of a driver, as they are read."""
    def found(facts):
        place, words = "driver_model/" + driver, facts.words(WORDS_OF, "call_rule_text")
        listed = []
        for number, text in facts.rows(place, "commands").items():
            below = facts.below(place, text)
            rules = {words[rule] for rule in re.findall(r"refusing ([A-Z]\w*)", below)}
            listed.append((number, "SuccessU32" not in below, sorted(rules), "own_entering" in below))
        return listed
    return found


def upcall_rows(table, row):
    """The upcalls of a row."""
    return [int(number) for number in re.findall(r"\d+", row[0])]


def upcalls(driver):
    """The upcalls that a driver schedules, in their order."""
    def found(facts):
        spec = facts.spec("driver_model/" + driver)
        text = "\n".join(line for each in spec.definitions.values() for line in each.lines)
        numbers = {int(number) for number in re.findall(r"scheduling \w+ (\d+)", text)}
        if "upcall_for" in spec.definitions:
            numbers |= set(facts.numbers("driver_model/" + driver, "upcall_for").values())
        return sorted(numbers)
    return found


def zeros_read(table, row):
    """Of each upcall the arguments that are 0 in all its rows, each as upcall and place; of the whole table."""
    if row is not table.rows[0]:
        return []
    rows = [(number, each[2:5]) for each in table.rows for number in upcall_rows(table, each)]
    return sorted((number, place) for number in {number for number, _ in rows} for place in range(3)
                  if all(cells[place] == "0" for of, cells in rows if of == number))


def zeros(driver):
    """The same of what the driver's definitions schedule."""
    def found(facts):
        spec = facts.spec("driver_model/" + driver)
        text = " ".join(line.strip() for each in spec.definitions.values() for line in each.lines)
        made = []
        for number, arguments in re.findall(r"scheduling \w+ (\d+|\(upcall_for \w+\)) \(([^()]*∷ \[\])\)", text):
            numbers = [int(number)] if number.isdigit() else upcalls(driver)(facts)
            made += [(each, arguments.split(" ∷ ")) for each in numbers]
        return sorted((number, place) for number in {number for number, _ in made} for place in range(3)
                      if all(words[place] == "0" for of, words in made if of == number))
    return found


def each_once(read):
    """What is read of a whole table, each once and in order: rows of the same upcall are several."""
    def found(table, row):
        if row is not table.rows[0]:
            return []
        return sorted({number for each in table.rows for number in read(table, each)})
    return found


def buffer_rows(table, row):
    """A kind of buffer and its number."""
    return [row[0]]


def buffers(driver):
    """The buffers that a driver's definitions read or write."""
    def found(facts):
        spec = facts.spec("driver_model/" + driver)
        text = "\n".join(line for each in spec.definitions.values() for line in each.lines)
        return sorted({"%s %s" % (KINDS[kind], number)
                       for kind, number in re.findall(r"(?:held|with_written) ([A-Z]\w+) \w+ (\d)", text)})
    return found


def driver_checks():
    """The tables of each driver's section."""
    for driver, heading in DRIVERS.values():
        yield Check("docs/drivers.md", heading, ("Command",), command_rows, commands(driver))
        if driver != "Leds":
            yield Check("docs/drivers.md", heading, ("Upcall",), each_once(upcall_rows), upcalls(driver))
            yield Check("docs/drivers.md", heading, ("Upcall",), zeros_read, zeros(driver))
        if driver in ("Alarm", "Console", "Storage"):
            yield Check("docs/drivers.md", heading, ("Buffer",), sorted_rows(buffer_rows), buffers(driver))


def sorted_rows(read):
    """What is read of a whole table, in order."""
    def found(table, row):
        return sorted(each for row in table.rows for each in read(table, row)) if row is table.rows[0] else []
    return found


def there_rows(table, row):
    """A driver's number, and the commands that are there."""
    return [(number_in(row[1]), numbers_listed(re.match(r"commands ([\d, to]+)", row[2])[1]))] if row[1] else []


def there(facts):
    """The same by the definitions."""
    numbers = facts.numbers("grant_values/Drivers", "number_of_driver")
    return [(number, list(facts.rows("driver_model/" + name, "commands"))) for name, number in numbers.items()]


# Scripts, lists and reports.

def rule_words(facts):
    """The words of a script's rules, in the order in which they count."""
    words = facts.words("script_text/Rules", "name_of_rule")
    return [words[rule] for rule in re.findall(r"[A-Z]\w+", facts.text("script_text/Rules", "in_order"))]


def line_rows(table, row):
    """What a row says of a line with a number alone: its name, its range, its default."""
    found = re.fullmatch(r"`([a-z]+) N`", row[0])
    between = re.search(r"(\d+) to (\d+)(?: in multiples of (\d+))?", row[1])
    if not found:
        return []
    return [(found[1], *(int(number or 1) for number in between.groups()), number_in(row[2]))]


def lines(facts):
    """The lines of scripts with a number alone that stand once, in the order of the table."""
    constants, found = facts.constants(), []
    for line, given in facts.clauses("script_text/Table", "row"):
        name = re.match(r'numbered \(codes "([a-z]+)"\)', given)
        if name:
            numbers = [int(constants.get(word, word)) for word in re.findall(r"[A-Z_]+\b|\d+", given)]
            found.append((name[1], *numbers[:2], numbers[2] if len(numbers) > 3 else 1, numbers[-1]))
    return found


def verdicts(facts):
    """The words of verdicts, the first that fits first, without those that stand in no list."""
    bad, words = (facts.words("board_report/FlashList", name) for name in ("bad_text", "verdict_text"))
    faults = re.findall(r"Err \(?(\w+)", facts.text("tbf_headers/Meaning", "header_reading"))
    rest = re.findall(r"then (\w+)|else (App)\b", facts.text("flash_walk/Image", "app_verdict"))
    return ([bad[fault] for fault in faults if fault not in ("Short", "Version")] + [words["Padding"]]
            + [words[a or b] for a, b in rest])


def states(facts):
    """The words of states, in the order of the report's table."""
    text = facts.text("board_report/Report", "state_text")
    own, wait = (facts.words("board_report/Report", name) for name in ("own_state_text", "wait_text"))
    return [re.search(r'codes "(\w+)"', text)[1], own["Running"], *wait.values(), own["Terminated"], own["Faulted"]]


def element_rows(table, row):
    """An element's type, its name, and the least length of its content."""
    return [(int(row[0]), row[1], int(re.match(r"\d+", row[3])[0]))]


def elements(facts):
    """The same by the definitions."""
    constants, text = facts.constants(), facts.text("tbf_headers/Tlv", "least_length")
    least = {int(kind): int(length) for kind, length in re.findall(r"kind == (\d+) then (\d+)", text)}
    return sorted((constants[name], element, least.get(constants[name], 0)) for element, name in ELEMENTS.items())


def place_rows(table, row):
    """Of a place the words of what is denied there, none for what is permitted."""
    return [[(quoted(cell) or [None])[0] for cell in row[1:4]]]


def places(facts):
    """The same by the definitions: flash, RAM, and six places that are neither."""
    words = facts.words(WORDS_OF, "rule_text")
    rows = []
    for name in ("denied_in_flash", "denied_in_ram"):
        rules = {access: words[re.match(r"Some (\w+)", given)[1]]
                 for access, given in facts.clauses("process_layout/Permission", name) if given.startswith("Some")}
        rows.append([rules.get(access) for access in ("Fetch", "Load", "Store")])
    return rows + [[words["NoRegion"]] * 3 for _ in range(5)]


def status_rows(table, row):
    """A line of a refusal and its status, where a row of the table of lines begins with such a line."""
    found = re.match(r"`((?:usage|file|script|image|memory)\b[^`]*)`", row[0])
    return [(found[1].split(":")[0].replace(" LINE RULE", ""), int(row[1]))] if found else []


def statuses(facts):
    """The same by the definitions."""
    status = facts.numbers("tool_words/Refusals", "status_of")
    files, faults = (facts.words("tool_words/Refusals", name) for name in ("file_text", "image_fault_text"))
    found = [("usage", status["Usage"])]
    found += [("file %s fault" % word, status["Fault"]) for word in files.values()]
    found += [("file %s too long" % word, status["TooLong"]) for word in files.values()]
    found += [("script", status["Script"]), ("memory", status["Memory"])]
    return found + [("image " + word, status["Image"]) for word in faults.values()]


def done_rows(table, row):
    """The statuses of rows of lines that are no refusals, each once; of the whole table."""
    if row is not table.rows[0]:
        return []
    return sorted({int(each[1]) for each in table.rows
                   if each[1] and not status_rows(table, each) and "standard error" not in each[0]
                   and not each[0].startswith("a part of the text")})


def done(facts):
    """The answer of a command that is done."""
    return [int(re.search(r"done : call\.answer ≡ (\d+)",
                          "\n".join(facts.spec("tool_answers/Served").definitions["Serves"].lines))[1])]


COMMANDS = {"boot": "Runs", "trace": "Runs", "list": "Lists", "soak": "Soaks", "pack": "Packs", "enable": "Edits",
            "disable": "Edits", "rename": "Edits"}


def answer_rows(table, row):
    """A command and the statuses that it may answer beside 0."""
    command = quoted(row[0])[0].split()[0]
    return [(command, numbers_listed(row[2]))]


def answers(facts):
    """The same by the definitions: 6 where the sink fails, which is no refusal."""
    status, found = facts.numbers("tool_words/Refusals", "status_of"), []
    files = {pattern.split()[0]: given for pattern, given in facts.clauses("tool_tasks/Comes", "files_of")}
    comes = {pattern.split()[0]: given for pattern, given in facts.clauses("tool_tasks/Comes", "comes_to")}
    for command, form in COMMANDS.items():
        listed = {status["Usage"], status["Memory"], 6}
        listed |= {status["Fault"], status["TooLong"]} if files[form] != "[]" else set()
        listed |= {status["Script"]} if "ScriptFile" in files[form] else set()
        listed |= {status["Image"]} if "refused" in comes.get(form, "") else set()
        found.append((command, sorted(listed)))
    return found


def answered_rows(table, row):
    """A status and the first word of the line that is written for it; of README and claims.md."""
    word = re.match(r"[a-z]+", (quoted(row[1]) or [""])[0])
    return [(int(row[0]), word[0])] if word else []


def answered(facts):
    """The same by the definitions: the first words of the lines of refusals."""
    status = facts.numbers("tool_words/Refusals", "status_of")
    lines = {pattern.split()[0]: re.match(r'codes "([a-z]+)', given)
             for pattern, given in facts.clauses("tool_words/Refusals", "refusal_line")}
    return sorted((status[refusal], line[1]) for refusal, line in lines.items() if line)


def words_check(page, heading, head, definition, in_order=True):
    """A table whose first column has the words of a definition, which is given by its file and name."""
    def wanted(facts):
        words = list(facts.words(*definition).values())
        return words if in_order else sorted(words)
    return Check(page, heading, head, first_words if in_order else sorted_rows(first_words), wanted)


MANUAL, TOLD = "docs/manual.md", "docs/compatibility.md"
CHECKS = [
    Check("docs/drivers.md", "What holds for all", ("Class", "Call"), class_rows, classes),
    Check("docs/drivers.md", "What holds for all", ("memop", "Answers"), memop_rows, memops),
    Check("docs/drivers.md", "What holds for all", ("Driver", "Upcalls"), grant_rows, grants),
    *driver_checks(),
    Check(MANUAL, "The script", ("Line", "Says"), line_rows, lines),
    Check(MANUAL, "The script", ("Rule", "Broken where"), first_words, rule_words),
    words_check(MANUAL, "The script", ("VERB",), ("tk_base/Verbs", "verb_text")),
    Check(MANUAL, "The trace", ("Word", "Error"), sorted_rows(error_rows), errors),
    Check(MANUAL, "The trace", ("R0", "Is"), reply_rows, replies),
    Check(MANUAL, "The report", ("STATE",), first_words, states),
    words_check(MANUAL, "The report", ("RULE",), (WORDS_OF, "rule_text"), False),
    words_check(MANUAL, "The report", ("VERDICT of `unplaced`, the first that fits",), (WORDS_OF, "fault_text")),
    Check(MANUAL, "The list", ("Verdict, the first that fits",), first_words, verdicts),
    Check(MANUAL, "Image formats", ("Type", "Element"), element_rows, elements),
    Check(MANUAL, "Rules in tables", ("Place", "Fetch"), place_rows, places),
    Check(MANUAL, "Every line and what to do", ("Line", "Status"), status_rows, statuses),
    Check(MANUAL, "Every line and what to do", ("Line", "Status"), done_rows, done),
    Check(MANUAL, "Commands", ("Command", "Does"), answer_rows, answers),
    Check(TOLD, "System calls", ("Class", "Call"), told_class_rows, classes),
    Check(TOLD, "Drivers", ("Driver", "Number"), there_rows, there),
    Check("README.md", "Exit statuses", ("Status", "Written"), answered_rows, answered),
    Check("docs/claims.md", "The answers of the tool", ("Answer", "Line"), answered_rows, answered),
]
