// Each press of a button toggles the LED of its number, without an end; in the form of libtock-c's buttons.

#include <libtock/interface/button.h>
#include <libtock/interface/led.h>

static void button_callback(returncode_t ret, int btn_num, bool pressed)
{
    if (ret == RETURNCODE_SUCCESS && pressed) {
        libtock_led_toggle(btn_num);
    }
}

int main(void)
{
    int count;
    int err = libtock_button_count(&count);
    if (err < 0) {
        return err;
    }

    for (int i = 0; i < count; i++) {
        libtock_button_notify_on_press(i, button_callback);
    }

    while (1) {
        yield();
    }
}
