// The system calls.

#ifndef TOCK_H
#define TOCK_H

#include <libtock/tock.h>

#endif
