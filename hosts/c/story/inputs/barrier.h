#ifndef BARRIER_H
#define BARRIER_H

#ifndef BARRIERS
#define BARRIERS 2
#endif

#define LOWERING_MS 8000

/* The exit side is lowered later, so that nobody is shut in. */
#if BARRIERS == 4
#include "exit_side.h"
#else
#define EXIT_DELAY_MS 0
#endif

enum barrier_order { BARRIER_HOLD, BARRIER_LOWER, BARRIER_RAISE };

enum barrier_order barrier_step(int order_lower, int obstacle, int down_ms);

#endif
