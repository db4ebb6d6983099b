// Counts on the LEDs, in binary, without an end; in the form of libtock-c's blink.

#include <libtock-sync/services/alarm.h>
#include <libtock/interface/led.h>

int main(void)
{
    int num_leds;
    int err = libtock_led_count(&num_leds);
    if (err < 0) {
        return err;
    }

    for (int count = 0;; count++) {
        for (int i = 0; i < num_leds; i++) {
            if (count & (1 << i)) {
                libtock_led_on(i);
            } else {
                libtock_led_off(i);
            }
        }
        libtocksync_alarm_delay_ms(250);
    }
}
