// What there is of sys/time.h.

#ifndef LIBC_SYS_TIME_H
#define LIBC_SYS_TIME_H

struct timeval {
    long tv_sec, tv_usec;
};

// How long the alarm's clock has been going: it is not known what day it is.
int gettimeofday(struct timeval *restrict time, void *restrict zone);

#endif
