#ifndef LAMPS_H
#define LAMPS_H

#include "units.h"

#ifndef FLASH_MS
#define FLASH_MS 800
#endif

/* A road user must see each lamp of the pair lit at least so often in a minute. */
#define FLASHES_A_MINUTE_MIN 35

int lamp_left(int on, int clock_ms);
int lamp_right(int on, int clock_ms);

#endif
