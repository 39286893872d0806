/* The pair of red lamps, lit in turn. A supplier's file: nobody else is to see its results. */
#include "lamps.h"

_Static_assert(60 * MS_PER_SECOND / (2 * FLASH_MS) >= FLASHES_A_MINUTE_MIN, "each lamp flashes often enough");

static int first_half(int clock_ms)
{
    return clock_ms / FLASH_MS % 2 == 0;
}

int lamp_left(int on, int clock_ms)
{
    return on && first_half(clock_ms);
}

int lamp_right(int on, int clock_ms)
{
    return on && !first_half(clock_ms);
}
