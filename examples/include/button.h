// The buttons.

#ifndef BUTTON_H
#define BUTTON_H

#include <libtock/interface/button.h>

#endif
