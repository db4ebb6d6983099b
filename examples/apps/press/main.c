// LED 0 is on while button 0 is pressed. The application ends once button 1 is pressed.

#include "button.h"
#include "led.h"

enum { LIGHT = 0, END = 1 };

static void tell(int button, int pressed, int unused, void *userdata)
{
    (void)unused;
    if (button == END) {
        *(bool *)userdata = true;
    } else if (pressed) {
        libtock_led_on(0);
    } else {
        libtock_led_off(0);
    }
}

int main(void)
{
    bool is_over = false;
    if (libtock_button_set_upcall(tell, &is_over) != RETURNCODE_SUCCESS
        || libtock_button_command_enable_interrupt(LIGHT) != RETURNCODE_SUCCESS
        || libtock_button_command_enable_interrupt(END) != RETURNCODE_SUCCESS) {
        return TOCK_STATUSCODE_FAIL;
    }
    yield_for(&is_over);
    return 0;
}
