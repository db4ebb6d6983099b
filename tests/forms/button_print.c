// In the form of libtock-c's button_print: each edge of a button is told by a line, without an end.

#include <stdint.h>
#include <stdio.h>

#include <libtock/interface/button.h>

static void button_callback(returncode_t ret, int btn_num, bool val)
{
    if (ret == RETURNCODE_SUCCESS) {
        printf("Button Press! Button: %d Status: %d\n", btn_num, val);
    }
}

int main(void)
{
    int num_buttons;
    int err = libtock_button_count(&num_buttons);
    if (err < 0) {
        printf("Error detecting buttons: %i\n", err);
        return -1;
    }
    printf("[TEST] Button Press\nThere are %d buttons on this board.\n", num_buttons);

    for (int i = 0; i < num_buttons; i++) {
        err = libtock_button_notify_on_press(i, button_callback);
        if (err < 0) {
            printf("Error setting up button: %i\n", err);
            return -1;
        }
    }

    for (;;) {
        yield();
    }
}
