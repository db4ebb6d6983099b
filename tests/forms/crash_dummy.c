// In the form of libtock-c's crash_dummy: a button that is pressed crashes it.

#include <stdio.h>

#include <libtock-sync/services/alarm.h>
#include <libtock/interface/button.h>

static volatile int *nullptr_address = NULL;

static void button_callback(__attribute__ ((unused)) returncode_t ret, __attribute__ ((unused)) int btn_num, bool val)
{
    if (val) {
        printf("crashes\n");
        *nullptr_address = 42;
    }
}

int main(void)
{
    int count;
    if (libtock_button_count(&count) < 0) {
        return -1;
    }
    for (int i = 0; i < count; i++) {
        libtock_button_notify_on_press(i, button_callback);
    }

    while (1) {
        yield();
    }
}
