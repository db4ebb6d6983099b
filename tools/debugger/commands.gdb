# What a session of tools/debug has beside GDB's own commands.
# The first answer comes when the server has its boards, on a busy machine late.
set remotetimeout 60
define seek
  eval "monitor seek %ld", $arg0
  continue
end
document seek
seek STEP: goes to after so many steps of the board, back or on.
end
define seek-turn
  eval "monitor turn %ld", $arg0
  continue
end
document seek-turn
seek-turn K: goes to after a turn of this slot, back or on.
end
define seek-time
  eval "monitor time %ld", $arg0
  continue
end
document seek-time
seek-time T: goes to a time of the board, back or on.
end
define seek-output
  if $argc == 1
    monitor output $arg0
  end
  if $argc == 2
    monitor output $arg0 $arg1
  end
  if $argc == 1 || $argc == 2
    continue
  else
    echo seek-output TEXT [N]: a text with blanks stands in quotes\n
  end
end
document seek-output
seek-output TEXT [N]: goes to where a process prints a text, for the first or the N-th time. A text with blanks stands
in quotes, with escapes as in C.
end
define slots
  monitor slots
end
document slots
The report: each slot with its process.
end
define events
  if $argc == 0
    monitor events
  else
    monitor events $arg0
  end
end
document events
events [STEPS]: what happened in the last steps: system calls, upcalls, denials, what came in, acts and restarts.
end
# These two would be taken, and then no command would let the run go on.
set confirm off
define rwatch
  echo rwatch is not there: no read is looked for. `watch` stops where a write changes what is watched\n
end
document rwatch
rwatch is not there: no read is looked for. See `watch`.
end
define awatch
  echo awatch is not there: no read is looked for. `watch` stops where a write changes what is watched\n
end
document awatch
awatch is not there: no read is looked for. See `watch`.
end
set confirm on
