/* Frames out of the edges of the bus, each with its time in microseconds (times.h). The count of microseconds may begin
 * again at 0: only differences are used. */
#ifndef RECEIVER_H
#define RECEIVER_H

#include <stdbool.h>
#include <stdint.h>

enum received { RECEIVED_NOTHING, RECEIVED_FRAME, RECEIVED_DAMAGED };

struct receiver {
    uint32_t edge_at; /* the time of the last edge */
    bool is_active;   /* the bus behind it */
    bool is_begun;    /* a frame has begun */
    bool is_damaged;
    bool is_inside; /* the last edge was in the middle of a bit */
    bool has_start; /* the start bit was read */
    uint8_t bits;
    uint32_t frame;
};

void receiver_begin(struct receiver *receiver, uint32_t now, bool is_active);

/* The bus became active or idle. */
void receiver_edge(struct receiver *receiver, uint32_t now, bool is_active);

/* Is called each half bit. It says once of each frame that it came to its end; `bits` and `frame` are what came. */
enum received receiver_tick(struct receiver *receiver, uint32_t now);

#endif
