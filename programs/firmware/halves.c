#include "halves.h"

static void add_bit(struct halves *halves, bool is_one)
{
    halves->is_active[halves->count++] = is_one;
    halves->is_active[halves->count++] = !is_one;
}

void halves_of_frame(struct halves *halves, uint32_t frame, uint8_t bits)
{
    halves->count = 0;
    add_bit(halves, true);
    while (bits > 0) {
        bits--;
        add_bit(halves, frame >> bits & 1);
    }
}
