// May write on the console and nothing else. It tries to light an LED, tells what came of it, and exits with 0.

#include "console.h"
#include "led.h"

int main(void)
{
    returncode_t code = libtock_led_on(2);
    return -console_print(code == RETURNCODE_ENODEVICE ? "no LED for me\n" : "an LED is on\n");
}
