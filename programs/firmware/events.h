/* The 24-bit frames of other devices that wait to be heard. Where there are more than the table has, the oldest go. */
#ifndef EVENTS_H
#define EVENTS_H

#include <stdbool.h>
#include <stdint.h>

enum { EVENTS_KEPT = 256 };

struct events {
    uint32_t frames[EVENTS_KEPT];
    uint16_t first, count;
};

void events_forget(struct events *events);
void events_add(struct events *events, uint32_t frame);

/* Takes the oldest. Returns whether one waited. */
bool events_take(struct events *events, uint32_t *frame);

#endif
