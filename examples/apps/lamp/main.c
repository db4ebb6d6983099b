// May use the LEDs and nothing else: the file `permissions` says so, and the header of its object. It lights one, and
// then tries to print. The kernel refuses that, and it exits with the error, 11: as if there was no console.

#include "console.h"
#include "led.h"

int main(void)
{
    returncode_t code = libtock_led_on(1);
    return code == RETURNCODE_SUCCESS ? -console_print("never printed\n") : 0;
}
