// The LEDs.

#ifndef LED_H
#define LED_H

#include <libtock/interface/led.h>

#endif
