#ifndef UNITS_H
#define UNITS_H

#define MS_PER_SECOND 1000
#define METRES_PER_KM 1000
#define SECONDS_PER_HOUR 3600

#endif
