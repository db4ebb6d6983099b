// Two alarms with periods of their own, by the one that the kernel has for a process, and one that comes once and stops
// the first; in the form of libtock-c's tests of several alarms. Each prints which it is, and how often it came.

#include <stdio.h>

#include <libtock/services/alarm.h>

struct alarm {
    const char *name;
    int times;
};

static libtock_alarm_repeating_t fast_alarm, slow_alarm;
static libtock_alarm_t last_alarm;
static struct alarm fast, slow;

static void tell(uint32_t now, uint32_t scheduled, void *opaque)
{
    (void)now, (void)scheduled;
    struct alarm *alarm = opaque;
    alarm->times++;
    printf("%s %d\n", alarm->name, alarm->times);
}

static void stop(uint32_t now, uint32_t scheduled, void *opaque)
{
    (void)now, (void)scheduled;
    libtock_alarm_repeating_cancel(opaque);
    printf("fast is over\n");
}

int main(void)
{
    fast.name = "fast";
    slow.name = "slow";
    libtock_alarm_repeat_every_ms(2000, tell, &fast, &fast_alarm);
    libtock_alarm_repeat_every_ms(5000, tell, &slow, &slow_alarm);
    libtock_alarm_in_ms(9000, stop, &fast_alarm, &last_alarm);

    while (slow.times < 2) {
        yield();
    }
    return fast.times;
}
