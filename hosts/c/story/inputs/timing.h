#ifndef TIMING_H
#define TIMING_H

#include "units.h"

#ifndef LINE_SPEED_KMH
#define LINE_SPEED_KMH 100
#endif

/* Where the approaching train is first seen, and how long before it the road must be warned. */
#define STRIKE_IN_METRES 1100
#define WARNING_SECONDS 27

#define AMBER_MS (3 * MS_PER_SECOND)
#define RED_BEFORE_LOWERING_MS (5 * MS_PER_SECOND)

#endif
