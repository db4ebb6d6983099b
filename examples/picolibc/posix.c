// What libraries want of a POSIX system: there are no files but the console, and the clock is the alarm's. An
// application may have its own function in place of each.

#include <errno.h>
#include <stdio.h>
#include <sys/stat.h>
#include <sys/times.h>
#include <time.h>
#include <unistd.h>
#include <libtock/services/alarm.h>

#define WEAK __attribute__((weak))

// The console's three numbers.
static bool is_console(int file)
{
    return file >= STDIN_FILENO && file <= STDERR_FILENO;
}

static int refuse(int error)
{
    errno = error;
    return -1;
}

WEAK int open(const char *path, int flags, ...)
{
    (void)path, (void)flags;
    return refuse(ENOENT);
}

WEAK int close(int file)
{
    return is_console(file) ? 0 : refuse(EBADF);
}

// A line, or a part of it.
WEAK ssize_t read(int file, void *bytes, size_t size)
{
    if (file != STDIN_FILENO) {
        return refuse(EBADF);
    }
    char *end = bytes;
    for (int letter = 0; size > 0 && letter != '\n' && (letter = getchar()) != EOF; size--) {
        *end++ = letter;
    }
    return end - (char *)bytes;
}

WEAK ssize_t write(int file, const void *bytes, size_t size)
{
    if (file != STDOUT_FILENO && file != STDERR_FILENO) {
        return refuse(EBADF);
    }
    size_t count = fwrite(bytes, 1, size, stdout);
    return fflush(stdout) == 0 ? (ssize_t)count : refuse(EIO);
}

WEAK off_t lseek(int file, off_t offset, int whence)
{
    (void)offset, (void)whence;
    return refuse(is_console(file) ? ESPIPE : EBADF);
}

WEAK int isatty(int file)
{
    return is_console(file) ? 1 : (refuse(EBADF), 0);
}

WEAK int fstat(int file, struct stat *status)
{
    if (!is_console(file)) {
        return refuse(EBADF);
    }
    *status = (struct stat){.st_mode = S_IFCHR};
    return 0;
}

WEAK int stat(const char *restrict path, struct stat *restrict status)
{
    (void)path, (void)status;
    return refuse(ENOENT);
}

WEAK int unlink(const char *path)
{
    (void)path;
    return refuse(ENOENT);
}

WEAK int rename(const char *from, const char *to)
{
    (void)from, (void)to;
    return refuse(ENOENT);
}

WEAK clock_t times(struct tms *times)
{
    clock_t now = libtock_alarm_milliseconds() * (CLOCKS_PER_SEC / 1000);
    *times = (struct tms){.tms_utime = now};
    return now;
}
