// What there is of C's stdlib.h. There is no malloc: picolibc has one (FIXED=1).

#ifndef LIBC_STDLIB_H
#define LIBC_STDLIB_H

#include <stddef.h>

enum { EXIT_SUCCESS = 0, EXIT_FAILURE = 1 };

// The process has ended, with a completion code; by abort with 134.
_Noreturn void exit(int code);
_Noreturn void abort(void);

int abs(int number);
long labs(long number);

// The number with which a text begins, in a base from 2 to 36; in base 0 as C writes it. Where it is too large, the
// largest.
int atoi(const char *text);
long atol(const char *text);
long strtol(const char *restrict text, char **restrict end, int base);
unsigned long strtoul(const char *restrict text, char **restrict end, int base);

// Sorts in place, by about n * log n comparisons whatever the order; equal ones may change places.
void qsort(void *items, size_t count, size_t size, int (*compare)(const void *, const void *));
void *bsearch(const void *key, const void *items, size_t count, size_t size,
              int (*compare)(const void *, const void *));

#endif
