// In the form of libtock-c's test hello_loop: a line each half a second, without an end.

#include <stdio.h>

#include <libtock-sync/services/alarm.h>

int main(void)
{
    for (int i = 0; ; i++) {
        printf("%d: Hello World!\n", i);
        libtocksync_alarm_delay_ms(500);
    }
}
