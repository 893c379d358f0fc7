/* A forward frame in Manchester code, as a table of half bits: a start bit, and 16 or 24 bits, the highest first. A bit
 * of 1 is active and then idle, and a bit of 0 idle and then active. Behind the last half bit the bus is idle. */
#ifndef HALVES_H
#define HALVES_H

#include <stdbool.h>
#include <stdint.h>

enum { HALVES_MOST = 2 * (1 + 24) };

struct halves {
    bool is_active[HALVES_MOST];
    uint8_t count;
};

void halves_of_frame(struct halves *halves, uint32_t frame, uint8_t bits);

#endif
