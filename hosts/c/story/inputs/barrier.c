/* One barrier's motor: lower when told, hold for an obstacle on the exit side, raise when nothing is ordered. */
#include "barrier.h"
#include "timing.h"

_Static_assert(EXIT_DELAY_MS < LOWERING_MS, "the exit side starts before the entry side is down");
_Static_assert(BARRIERS == 2 || BARRIERS == 4, "a crossing has two barriers or four");

enum barrier_order barrier_step(int order_lower, int obstacle, int down_ms)
{
    if (!order_lower) {
        return BARRIER_RAISE;
    }
#if BARRIERS == 4
    if (obstacle && down_ms >= EXIT_DELAY_MS) {
        return BARRIER_HOLD;
    }
#else
    (void)obstacle;
#endif
    return down_ms < LOWERING_MS + EXIT_DELAY_MS ? BARRIER_LOWER : BARRIER_HOLD;
}
