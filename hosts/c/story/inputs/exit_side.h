#ifndef EXIT_SIDE_H
#define EXIT_SIDE_H

#define EXIT_DELAY_MS 6000

#endif
