#include "events.h"

void events_forget(struct events *events)
{
    events->first = 0;
    events->count = 0;
}

void events_add(struct events *events, uint32_t frame)
{
    uint32_t dropped;
    if (events->count == EVENTS_KEPT)
        events_take(events, &dropped);
    events->frames[(events->first + events->count) % EVENTS_KEPT] = frame;
    events->count++;
}

bool events_take(struct events *events, uint32_t *frame)
{
    if (events->count == 0)
        return false;
    *frame = events->frames[events->first];
    events->first = (uint16_t)((events->first + 1) % EVENTS_KEPT);
    events->count--;
    return true;
}
