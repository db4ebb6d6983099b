// What alarms do that are set, cancelled and waited for inside the functions of others. Prints a letter for each that
// comes; each letter's time is far from that of the next.

#include <stdio.h>
#include <libtock-sync/services/alarm.h>

static libtock_alarm_repeating_t often, stopped_by_itself;
static libtock_alarm_t once, cancelled, inner, late;
static int times_often;
static bool is_over, never;

static void letter(uint32_t now, uint32_t scheduled, void *text)
{
    // It comes at its time, or not long after it: another function may have run meanwhile.
    printf("%s%s", (const char *)text, now - scheduled < 2000 ? "" : "?");
}

// Comes at 10,000, 20,000, 30,000 and so on.
static void count(uint32_t now, uint32_t scheduled, void *start)
{
    times_often++;
    printf("%d%s", times_often, scheduled - *(uint32_t *)start == 10000u * times_often && now >= scheduled ? "" : "?");
    if (times_often == 1) {
        libtock_alarm_in_ms(4000, letter, "a", &inner); // at 14,000
        libtock_alarm_cancel(&cancelled);
    } else if (times_often == 2) {
        libtocksync_alarm_delay_ms(12000);              // to 32,000; the third comes late, and `b` meanwhile
        printf("c");
    } else if (times_often == 4) {
        libtock_alarm_repeating_cancel(&often);
        libtock_alarm_in_ms(2000, letter, "e", &inner); // at 42,000
        is_over = true;
    }
}

// Comes at 35,000, and not at 70,000.
static void stop_itself(uint32_t now, uint32_t scheduled, void *opaque)
{
    (void)now, (void)scheduled, (void)opaque;
    printf("d");
    libtock_alarm_repeating_cancel(&stopped_by_itself);
}

int main(void)
{
    uint32_t start;
    libtock_alarm_command_read(&start);
    libtock_alarm_repeat_every_ms(10000, count, &start, &often);
    start = often.alarm.reference;
    libtock_alarm_repeat_every_ms(35000, stop_itself, NULL, &stopped_by_itself);
    libtock_alarm_in_ms(25000, letter, "b", &once);
    libtock_alarm_in_ms(15000, letter, "x", &cancelled);
    libtock_alarm_in_ms(99000, letter, "z", &late);
    printf("%d", libtocksync_alarm_yield_for_with_timeout(&is_over, 60000));
    printf("%d", libtocksync_alarm_yield_for_with_timeout(&never, 10000));
    libtock_alarm_in_ms(5000, letter, "g", &late);      // in place of 99,000
    libtocksync_alarm_delay_ms(60000);
    printf("\n");
    return 0;
}
