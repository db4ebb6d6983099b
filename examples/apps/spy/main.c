// Tries what a hostile application can try at the victim, whose memory ends where this one's begins, and whose secret
// lies 1,024 bytes before that: to lend it to the console, to have the console's input written over it, to move its own
// memory there, to run the victim's code. Each is refused, with the rule in the trace. Last it reads there, which is
// denied and ends it.

#include "console.h"

int main(void)
{
    char *theirs = (char *)tock_app_memory_begins_at() - 1024;
    subscribe_upcall *their_code = (subscribe_upcall *)0x20000040;
    bool is_in = tock_is_success(tock_allow_readonly(DRIVER_NUM_CONSOLE, TOCK_CONSOLE_BUFFER, theirs, 16))
        || tock_is_success(tock_allow_readwrite(DRIVER_NUM_CONSOLE, TOCK_CONSOLE_BUFFER, theirs, 16))
        || tock_is_success(memop(TOCK_MEMOP_BRK, (uint32_t)theirs))
        || tock_is_success(tock_subscribe(DRIVER_NUM_CONSOLE, TOCK_CONSOLE_WRITE, their_code, NULL));
    console_print(is_in ? "I am in\n" : "refused four times\n");
    console_print(*(volatile char *)theirs == 't' ? "I know the secret\n" : "I have read something\n");
    return 0; // it never comes to this
}
