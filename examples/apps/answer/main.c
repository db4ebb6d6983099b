// Asks for a number, waits for it without being idle, and answers; in the form of libtock-c's tests of the console. The
// read does not wait: a function is called once something came in, and an alarm comes where it takes too long.

#include <stdio.h>
#include <stdlib.h>

#include <libtock-sync/services/alarm.h>
#include <libtock/interface/console.h>

static uint8_t line[16];
static bool has_come;
static int length;

static void came(returncode_t ret, uint32_t count)
{
    length = ret == RETURNCODE_SUCCESS ? (int)count : 0;
    has_come = true;
}

int main(void)
{
    printf("a number? ");
    returncode_t ret = libtock_console_read(line, sizeof line - 1, came);
    if (ret == RETURNCODE_SUCCESS) {
        ret = libtocksync_alarm_yield_for_with_timeout(&has_come, 5000);
    }
    if (ret != RETURNCODE_SUCCESS) {
        printf("none came: %s\n", tock_strrcode(ret));
        return -ret;
    }
    line[length] = 0;
    int number = atoi((const char *)line);
    printf("%d times %d is %d\n", number, number, number * number);
    return 0;
}
