// The alarms of libtock/services/alarm.h: as many as the application wants, by the one that the kernel has for it.

#include <libtock-sync/services/alarm.h>

// Those that are to come, the next one first.
static libtock_alarm_t *next_alarm;

// How many ticks are left until an alarm, at a tick; 0 where its time has come.
static uint32_t ticks_left(const libtock_alarm_t *alarm, uint32_t now)
{
    uint32_t gone = now - alarm->reference;
    return gone < alarm->ticks ? alarm->ticks - gone : 0;
}

// Where an alarm stands among those to come, or where it would.
static libtock_alarm_t **place_of(const libtock_alarm_t *alarm)
{
    libtock_alarm_t **place = &next_alarm;
    while (*place != NULL && *place != alarm) {
        place = &(*place)->next;
    }
    return place;
}

static void take_out(const libtock_alarm_t *alarm)
{
    libtock_alarm_t **place = place_of(alarm);
    if (*place != NULL) {
        *place = alarm->next;
    }
}

// Puts an alarm behind all that come no later.
static void put_in(libtock_alarm_t *alarm, uint32_t now)
{
    libtock_alarm_t **place = &next_alarm;
    while (*place != NULL && ticks_left(*place, now) <= ticks_left(alarm, now)) {
        place = &(*place)->next;
    }
    alarm->next = *place;
    *place = alarm;
}

static int arm(void);

// Calls all whose time has come, also where it came while another was called.
static void come(int first, int scheduled, int unused, void *unused_too)
{
    (void)first, (void)scheduled, (void)unused, (void)unused_too;
    uint32_t now;
    while (next_alarm != NULL && libtock_alarm_command_read(&now) == RETURNCODE_SUCCESS
        && ticks_left(next_alarm, now) == 0) {
        libtock_alarm_t *alarm = next_alarm;
        next_alarm = alarm->next;
        alarm->callback(now, alarm->reference + alarm->ticks, alarm->opaque);
    }
    if (next_alarm != NULL) {
        arm();
    }
}

// Arms the kernel's alarm for the next one.
static int arm(void)
{
    if (next_alarm == NULL) {
        libtock_alarm_command_stop();
        return RETURNCODE_SUCCESS;
    }
    returncode_t code = libtock_alarm_set_upcall(come, NULL);
    return code == RETURNCODE_SUCCESS ? libtock_alarm_command_set_absolute(next_alarm->reference, next_alarm->ticks)
        : code;
}

// Has an alarm come so many ticks after a reference, or after the tick that it is where there is none.
static int set(libtock_alarm_t *alarm, const uint32_t *reference, uint32_t ticks)
{
    uint32_t now;
    returncode_t code = libtock_alarm_command_read(&now);
    if (code != RETURNCODE_SUCCESS) {
        return code;
    }
    take_out(alarm);
    alarm->reference = reference != NULL ? *reference : now;
    alarm->ticks = ticks;
    put_in(alarm, now);
    return arm();
}

int libtock_alarm_in_ms(uint32_t milliseconds, libtock_alarm_callback callback, void *opaque, libtock_alarm_t *alarm)
{
    alarm->callback = callback;
    alarm->opaque = opaque;
    return set(alarm, NULL, libtock_alarm_ms_to_ticks(milliseconds));
}

int libtock_alarm_at(uint32_t reference, uint32_t ticks, libtock_alarm_callback callback, void *opaque,
                     libtock_alarm_ticks_t *alarm)
{
    alarm->callback = callback;
    alarm->opaque = opaque;
    return set(alarm, &reference, ticks);
}

void libtock_alarm_cancel(libtock_alarm_t *alarm)
{
    take_out(alarm);
    arm();
}

// The next one counts from the time for which this one was set, so that the period is fixed. It is set once the
// function is done, which may have cancelled it, or set it anew.
static void repeat(uint32_t now, uint32_t scheduled, void *opaque)
{
    libtock_alarm_repeating_t *alarm = opaque;
    alarm->callback(now, scheduled, alarm->opaque);
    if (alarm->interval > 0 && *place_of(&alarm->alarm) == NULL) {
        set(&alarm->alarm, &scheduled, alarm->interval);
    }
}

void libtock_alarm_repeat_every_ms(uint32_t milliseconds, libtock_alarm_callback callback, void *opaque,
                                   libtock_alarm_repeating_t *alarm)
{
    uint32_t ticks = libtock_alarm_ms_to_ticks(milliseconds);
    alarm->interval = ticks > 0 ? ticks : 1;
    alarm->callback = callback;
    alarm->opaque = opaque;
    alarm->alarm.callback = repeat;
    alarm->alarm.opaque = alarm;
    set(&alarm->alarm, NULL, alarm->interval);
}

void libtock_alarm_repeating_cancel(libtock_alarm_repeating_t *alarm)
{
    alarm->interval = 0;
    libtock_alarm_cancel(&alarm->alarm);
}

static void note(uint32_t now, uint32_t scheduled, void *has_come)
{
    (void)now, (void)scheduled;
    *(bool *)has_come = true;
}

int libtocksync_alarm_delay_ms(uint32_t milliseconds)
{
    bool has_come = false;
    libtock_alarm_t alarm;
    int code = libtock_alarm_in_ms(milliseconds, note, &has_come, &alarm);
    if (code == RETURNCODE_SUCCESS) {
        yield_for(&has_come);
    }
    return code;
}

int libtocksync_alarm_yield_for_with_timeout(bool *condition, uint32_t milliseconds)
{
    bool has_come = false;
    libtock_alarm_t alarm;
    int code = libtock_alarm_in_ms(milliseconds, note, &has_come, &alarm);
    while (code == RETURNCODE_SUCCESS && !*condition) {
        yield();
        if (has_come && !*condition) {
            return RETURNCODE_FAIL;
        }
    }
    libtock_alarm_cancel(&alarm);
    return code;
}
