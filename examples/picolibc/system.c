// What picolibc wants of the system: the console as its files, memory for malloc, and an end.

#include <errno.h>
#include <signal.h>
#include <stdio.h>
#include <unistd.h>
#include <libtock-sync/interface/console.h>

// As many bytes as the serial line takes at a time.
enum { GATHERED = 64 };

static uint8_t written[GATHERED], came[GATHERED];
static uint32_t count_written;
static int count_came, next_came;

static int flush_console(FILE *file)
{
    (void)file;
    int count;
    returncode_t code = libtocksync_console_write(written, count_written, &count);
    count_written = 0;
    return code == RETURNCODE_SUCCESS ? 0 : EOF;
}

// A line goes out at its end, or where no more is gathered.
static int put_letter(char letter, FILE *file)
{
    written[count_written++] = letter;
    int end = letter == '\n' || count_written == GATHERED ? flush_console(file) : 0;
    return end == 0 ? (unsigned char)letter : EOF;
}

// What was printed is out before anything is waited for.
static int get_letter(FILE *file)
{
    if (next_came == count_came) {
        next_came = count_came = 0;
        if (flush_console(file) != 0
            || libtocksync_console_read(came, GATHERED, &count_came) != RETURNCODE_SUCCESS) {
            return _FDEV_ERR;
        }
    }
    return next_came < count_came ? came[next_came++] : _FDEV_EOF;
}

static FILE console = FDEV_SETUP_STREAM(put_letter, get_letter, flush_console, _FDEV_SETUP_RW);

FILE *const stdin = &console;
FILE *const stdout = &console;
FILE *const stderr = &console;

// By application.ld: malloc has what lies between the static variables and the first break.
extern char _bss_end[], _heap_end[];

void *sbrk(ptrdiff_t size)
{
    static char *end = _bss_end;
    if (size > _heap_end - end || size < _bss_end - end) {
        errno = ENOMEM;
        return (void *)-1;
    }
    char *former = end;
    end += size;
    return former;
}

_Noreturn void _exit(int code)
{
    if (count_written > 0) {
        flush_console(NULL);
    }
    tock_exit(code);
}

// A signal that nobody handles, as that of abort and assert, ends the process with a code above 128.
pid_t getpid(void)
{
    return 1;
}

int kill(pid_t process, int signal)
{
    (void)process;
    _exit(128 + signal);
}
