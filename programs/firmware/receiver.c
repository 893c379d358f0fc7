#include "receiver.h"

#include "times.h"

enum { BITS_MOST = 24 };

void receiver_begin(struct receiver *receiver, uint32_t now, bool is_active)
{
    *receiver = (struct receiver){.edge_at = now - LONG_AGO, .is_active = is_active};
    if (is_active)
        receiver->edge_at = now;
}

static void begin_frame(struct receiver *receiver)
{
    receiver->is_begun = true;
    receiver->is_damaged = false;
    receiver->is_inside = false;
    receiver->has_start = false;
    receiver->bits = 0;
    receiver->frame = 0;
}

/* An edge in the middle of a bit says what the bit is: 1 where the bus becomes idle. */
static void read_bit(struct receiver *receiver, bool is_active)
{
    receiver->is_inside = true;
    if (!receiver->has_start) {
        receiver->has_start = true;
    } else if (receiver->bits == BITS_MOST) {
        receiver->is_damaged = true;
    } else {
        receiver->frame = receiver->frame << 1 | !is_active;
        receiver->bits++;
    }
}

/* One half bit leads from the edge of a bit to its middle, or from its middle to its end; two lead from a middle to the
 * next one. */
static void read_half_bits(struct receiver *receiver, uint32_t length, bool is_active)
{
    const bool is_one = length >= HALF_BIT_LEAST && length <= HALF_BIT_MOST;
    const bool are_two = length >= DOUBLE_HALF_BIT_LEAST && length <= DOUBLE_HALF_BIT_MOST;
    if (receiver->is_inside ? are_two : is_one)
        read_bit(receiver, is_active);
    else if (receiver->is_inside && is_one)
        receiver->is_inside = false;
    else
        receiver->is_damaged = true;
}

void receiver_edge(struct receiver *receiver, uint32_t now, bool is_active)
{
    const uint32_t length = now - receiver->edge_at;
    const bool is_missed = receiver->is_active == is_active;
    receiver->edge_at = now;
    receiver->is_active = is_active;
    if (!receiver->is_begun && is_active)
        begin_frame(receiver);
    else if (receiver->is_begun && !receiver->is_damaged)
        read_half_bits(receiver, length, is_active);
    if (is_missed)
        receiver->is_damaged = true;
}

enum received receiver_tick(struct receiver *receiver, uint32_t now)
{
    if (now - receiver->edge_at > LONG_AGO)
        receiver->edge_at = now - LONG_AGO;
    if (!receiver->is_begun || receiver->is_active || now - receiver->edge_at < STOP)
        return RECEIVED_NOTHING;
    receiver->is_begun = false;
    return receiver->is_damaged || receiver->bits == 0 ? RECEIVED_DAMAGED : RECEIVED_FRAME;
}
