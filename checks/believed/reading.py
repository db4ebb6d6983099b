"""What helps to read the page of the headline: a run in a picture, what is promised of its arrows, and which
definitions to read first."""

# A run. What has two words in one, or begins with a capital, is a name of the page.
PICTURE = """\
    words                  flash file           script
      |                        |                  |
      | command_of             |                  | reading
      v                        |                  v
   Command                     |            ScriptSettings
      |                        |                  |
      |                        +---------+--------+
      |                                  | (1) opening
      |                                  v
      |               +-------------> World
      |               |                  | (2) next
      |               |                  v
      |  round:       |               Choice
      |  n times      |                  | (3) stepped
      |               |                  v
      |               |           an Event, for each process that it is for
      |               |                  | (4) apply
      |               |                  v
      |               +---------- its Record; and a Label of what happened
      |                                  |
      +--------------> (5) run_text <----+
                            |
                            v
                    (6) text, and the answer"""

ARROWS = [
    ("(1) `opening`", "the first record of a process is made of its object, its place and the settings that processes "
                      "see, and of nothing else: `first_alone`, in `IsAccountedRun`, field `alone`", "3"),
    ("(2) `next`", "with `partition` a process has its turns and answers at the same times, whatever else the image "
                   "holds, up to each time that both runs have reached: `IsPartitionedRun`", "3"),
    ("(3) `stepped`", "`IsAccountedFor`: each access of a turn was permitted, and each denial was due, is shown and "
                      "recorded (`accesses`, `denials`, `shown`, `recorded`); each byte that changes has its cause "
                      "(`causes`); a refused call changes of its process the reply, `pc`, the count of turns and the "
                      "recorded refusal, and of the board the clock and whose turn it was (`refused`)", "1, 2, 4"),
    ("(4) `apply`", "a record is changed by the events that are told of its process, each read by itself, and by "
                    "nothing else: `IsAccountedRun`, field `alone`", "3"),
    ("(5) `run_text`", "the text is a function of mode, number of steps and opening world: `task_text`", "5"),
    ("(6)", "at answer 0 exactly that text was written, and each other answer but 7 has its cause: `Serves`, "
            "field `done` and the others", "5"),
]

# The definitions to read first, and what each says.
FIRST = [
    ("process_model/Own:Own", "what the kernel keeps of a process beside its registers"),
    ("kernel_model/Record:Record", "one process, with all that is its own"),
    ("kernel_model/Turn:Event", "all that can happen to a process"),
    ("kernel_model/World:Label", "what a step tells of a process"),
    ("kernel_model/World:World", "the whole board"),
    ("kernel_model/Turn:apply", "what each event makes of a record"),
    ("kernel_model/Turn:turned", "what the turn of a process is, by its state"),
    ("kernel_model/Turn:at_turn_end", "what the end of an instruction asks for: nothing, a call, or a denial"),
    ("process_model/Permission:denied", "which access is denied, and by which rule"),
    ("kernel_model/Calls:served", "what a system call comes to"),
    ("kernel_model/World:stepped", "what a choice makes of the board"),
    ("kernel_model/Run:next", "which choice comes next"),
    ("kernel_model/Run:round", "a run of n steps"),
    ("board_opening/Opening:opening", "the board before the first step"),
    ("run_text/RunText:run_text", "what is written of a run"),
    ("tool_answers/Served:Serves", "each answer with its cause, and what was written"),
    ("kernel_model/Accounts:IsAccountedFor", "what holds of each step"),
    ("kernel_model/Causes:ChangeHasACause", "why a byte of a process may change"),
    ("board_opening/Certified:IsAccountedRun", "what holds of a run: its steps, and each process by itself"),
    ("board_partitions/Boot:IsPartitionedRun", "what time partitions promise beside that"),
]
