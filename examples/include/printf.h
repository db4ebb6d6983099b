// Formatted print to the console: as C's stdio.h has it, but for floating point numbers (%f, %e, %g), %n and files.
// With picolibc (FIXED=1) it is that library's whole stdio.h.

#ifndef PRINTF_H
#define PRINTF_H

#if __has_include(<picolibc.h>)
#include <stdio.h>
#else

#include <stdarg.h>
#include <stddef.h>

// These wait until what they print is out, and return how many bytes that is; below 0 where the console refused.
int printf(const char *format, ...) __attribute__((format(printf, 1, 2)));
int vprintf(const char *format, va_list arguments) __attribute__((format(printf, 1, 0)));
int puts(const char *text);
int putchar(int letter);

// These write at most so many bytes, the last of them a zero, and return how many the whole text has without it.
int snprintf(char *to, size_t size, const char *format, ...) __attribute__((format(printf, 3, 4)));
int vsnprintf(char *to, size_t size, const char *format, va_list arguments) __attribute__((format(printf, 3, 0)));

#endif
#endif
