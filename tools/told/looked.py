"""What the kernel keeps of processes that a person should know of: a stack that has grown over its end, and upcalls
that wait for a process which never yields. tock_look tells it, where that is built."""

from collections import Counter

import places
from calls import times
from debugger.board import Board, Refused, find_look
from debugger.trace import driver_name

# How many times a board is stopped on its way to the first denials.
MOST_STOPS = 2000
# How far below a process's RAM an access is taken to be a stack's, where only the access is known.
NEAR = 512
STACK_POINTER = 2
# In how many turns a process is taken to yield, where only its calls are known.
MANY_TURNS = 10000


def board_of(flash, script):
    """A board of tock_look, or None where that is not built."""
    try:
        return Board(find_look(), flash, script)
    except Refused:
        return None


def steps_of_denials(board, slots, most):
    """After how many steps the first denial of each of these slots was."""
    found = {}
    for _ in range(MOST_STOPS):
        why, _ = board.moved(board.ask("until", 0, most - board.steps, "-", "-"))
        if why[0] == "denied":
            found.setdefault(int(why[1], 16), board.steps)
        if why[0] in ("done", "most") or slots <= found.keys():
            break
    return {slot: steps for slot, steps in found.items() if slot in slots}


def stack_pointers(board, slots, most):
    """The stack pointer of each of these slots' processes where its first access was denied."""
    found = {}
    for slot, steps in sorted(steps_of_denials(board, slots, most).items(), key=lambda each: each[1]):
        board.seek(slot, steps - 1)
        found[slot] = board.place(slot).x[STACK_POINTER]
    return found


def grown_stacks(program, run, board):
    """Says of each process that was denied what lies in no region of its whether its stack had grown over its end;
    where no board tells where it was, whether it may have."""
    denied = {slot: process for slot, process in sorted(run.processes.items())
              if process.denial and process.denial.access != "fetch" and process.denial.rule == "no-region"}
    starts = places.ram_starts(program, *run.files) if denied else {}
    pointers = stack_pointers(board, denied.keys(), run.steps) if denied and board else {}
    for slot, process in denied.items():
        denial, start = process.denial, starts[slot]
        head = "slot %d %s: the %s of %08x was denied" % (slot, process.name, denial.access, denial.address)
        if pointers.get(slot, start) < start:
            yield "%s: the stack has grown over its end, since sp is %08x, and RAM begins at %08x" % (
                head, pointers[slot], start)
        elif board is None and 0 < start - denial.address <= NEAR:
            yield "%s, %d below its RAM: if the stack has grown over its end, tools/where tells so" % (
                head, start - denial.address)


def kept_upcalls(run, board):
    """The upcalls that wait for each process, by driver and number, at the end of a run."""
    board.seek(0, run.steps)
    return {slot: Counter((upcall[0], upcall[1]) for upcall in state.pending)
            for slot, state in board.state().slots.items()}


def named(upcalls):
    """Upcalls by their drivers and numbers, with how often each waits."""
    return ", ".join("%s %d%s" % (driver_name(driver), number, times(count))
                     for (driver, number), count in upcalls.items())


def waiting_upcalls(run, board):
    """Says of each process that runs and never yields which upcalls wait for it; where no board tells them, of one that
    had turns enough, or for which some were dropped, which it subscribed."""
    unheard = {slot: process for slot, process in sorted(run.processes.items())
               if process.state == "running" and not process.has_yielded}
    waiting = kept_upcalls(run, board) if unheard and board else {}
    for slot, process in unheard.items():
        head = "slot %d %s never yields%s" % (slot, process.name, run.part())
        if waiting.get(slot):
            yield "%s, and upcalls wait for it: %s" % (head, named(waiting[slot]))
        elif not board and process.subscribed and (process.dropped or process.turns >= MANY_TURNS):
            yield "%s, so none of its upcalls comes: %s" % (head, named(process.subscribed))


def by_board(program, run, board):
    """What is told of processes by a board, or without one."""
    return [*grown_stacks(program, run, board), *waiting_upcalls(run, board)]


def of_processes(program, run):
    """What is told of processes, by a board where there is one."""
    board = board_of(*run.files)
    try:
        return by_board(program, run, board)
    except Refused:
        # What TOCK_LOOK names does not answer as tock_look does.
        return by_board(program, run, None)
    finally:
        if board:
            board.stop()
