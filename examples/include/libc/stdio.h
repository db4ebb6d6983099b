// What there is of C's stdio.h.

#ifndef LIBC_STDIO_H
#define LIBC_STDIO_H

#include <printf.h>

enum { EOF = -1 };

#endif
