// Turns an LED on and off, seven changes in all with a tenth of a second in between by the alarm. It is lit at the end.

#include "alarm.h"
#include "led.h"

int main(void)
{
    for (int change = 0; change < 7; change++) {
        returncode_t code = libtock_led_toggle(0);
        if (code == RETURNCODE_SUCCESS) {
            code = alarm_wait(100);
        }
        if (code != RETURNCODE_SUCCESS) {
            return -code;
        }
    }
    return 0;
}
