"""Words that are no command."""

from .case import no_command

COMMAND_LINES = [
    no_command("too-few-words", "boot wants its words", "boot", "a"),
    no_command("list-with-another-word", "list names one file", "list", "flash", "script"),
    no_command("trace-without-turns", "trace wants all words of boot", "trace", "a", "b"),
    no_command("trace-with-another-flag", "each word as it is", "trace", "a", "b", "--turn", "1"),
    no_command("soak-of-a-file", "soak takes no file", "soak", "flash", "--turns", "1"),
    no_command("soak-of-33-bits", "its number ends at 32 bits", "soak", "4294967296", "--turns", "1"),
    no_command("soak-of-eleven-digits", "and has at most 10 digits", "soak", "00000000001", "--turns", "1"),
    no_command("another-command", "other words are no command", "unpack", "flash"),
    no_command("pack-of-no-file", "pack wants a file", "pack"),
    no_command("pack-of-65-files", "and takes 64 at most", "pack", *["flash"] * 65),
    no_command("enable-without-an-offset", "an edit wants an offset", "enable", "flash"),
    no_command("disable-at-33-bits", "of 32 bits", "disable", "flash", "4294967296"),
    no_command("rename-without-a-new-name", "and a new name, where it gives one", "rename", "flash", "0"),
    no_command("word-that-is-not-utf-8", "a word is UTF-8", b"\xff"),
    no_command("file-that-is-not-utf-8", "so is the name of a file", "list", b"flash\xff"),
    no_command("number-that-is-not-utf-8", "and the number after words that are",
               "boot", "flash", "script", "--turns", b"\xff"),
]
