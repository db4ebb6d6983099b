// Waits by the alarms of libtock/services/alarm.h; others come meanwhile.

#ifndef LIBTOCK_SYNC_SERVICES_ALARM_H
#define LIBTOCK_SYNC_SERVICES_ALARM_H

#include <libtock/services/alarm.h>

// Waits so many milliseconds.
int libtocksync_alarm_delay_ms(uint32_t milliseconds);

// Waits until an upcall has made the condition true, and RETURNCODE_FAIL where that takes longer.
int libtocksync_alarm_yield_for_with_timeout(bool *condition, uint32_t milliseconds);

#endif
