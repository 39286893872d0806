/* The level crossing's sequence: amber, red, barriers down, and up again when the train is through. */
#include "timing.h"
#include "barrier.h"
#include "lamps.h"

_Static_assert(STRIKE_IN_METRES * SECONDS_PER_HOUR >= WARNING_SECONDS * LINE_SPEED_KMH * METRES_PER_KM,
               "a train at line speed leaves the warning time");
_Static_assert(AMBER_MS + RED_BEFORE_LOWERING_MS + LOWERING_MS + EXIT_DELAY_MS <= WARNING_SECONDS * MS_PER_SECOND,
               "the barriers are down within the warning time");

struct crossing {
    int since_strike_in_ms;
    int train_seen;
    int train_through;
};

enum aspect { DARK, AMBER, RED };

enum aspect aspect_of(const struct crossing *c)
{
    if (!c->train_seen) {
        return DARK;
    }
    if (c->since_strike_in_ms < AMBER_MS) {
        return AMBER;
    }
    return c->train_through ? DARK : RED;
}

int lamps_of(const struct crossing *c)
{
    int on = aspect_of(c) == RED;
    return lamp_left(on, c->since_strike_in_ms) || lamp_right(on, c->since_strike_in_ms);
}

enum barrier_order order_of(const struct crossing *c, int obstacle)
{
    int lower = aspect_of(c) == RED && c->since_strike_in_ms >= AMBER_MS + RED_BEFORE_LOWERING_MS;
    return barrier_step(lower, obstacle, c->since_strike_in_ms - AMBER_MS - RED_BEFORE_LOWERING_MS);
}
