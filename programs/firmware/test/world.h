/* A simulated board at a simulated bus: the functions of board.h, on a clock of the simulation alone.
 *
 * Its time counts thirds of a microsecond, of which a half bit has exactly 1250. On the bus are the interface, two
 * others who send what a test tells them to, and a lamp with the short address 5. The lamp decodes frames by itself,
 * from samples of the bus, and knows nothing of the firmware's own receiver. */
#ifndef WORLD_H
#define WORLD_H

#include <stdbool.h>
#include <stdint.h>

enum { THIRDS = 3, HALF_BIT = 1250, OTHERS = 2, CHANGES_MOST = 512, TRACE_MOST = 4096 };

struct change {
    uint64_t at; /* thirds of a microsecond */
    bool is_active;
};

struct lamp_frame {
    uint64_t begun, ended; /* its first and last edge */
    uint32_t frame;
    int bits;
};

/* Begins anew, with a bus that was idle for long, and a clock of the board that stands at this many microseconds. */
void world_begin(uint32_t microseconds);
void world_run(uint64_t microseconds);
uint64_t world_now(void); /* thirds */
void world_power(bool is_powered);

/* Another one sends a frame, or makes the bus active for a while, at a time from now on, in microseconds. */
void world_other_sends(int other, uint64_t from_now, uint32_t frame, int bits, uint64_t half_bit);
void world_other_pulls(int other, uint64_t from_now, uint64_t microseconds);

/* From now on each edge of a frame of others is early or late by up to this many microseconds, by chance. */
void world_jitter(int microseconds);

/* What the controller writes, and what came back since the last world_forget_said. */
void world_say(const char *words);
const char *world_said(void);
void world_forget_said(void);

/* The serial port of desk.c. Returns whether there was a byte. */
bool world_take_said(uint8_t *byte);
void world_say_byte(uint8_t byte);

/* The frames that the lamp saw since the beginning, the oldest first. */
int world_frames(void);
const struct lamp_frame *world_frame(int number);

/* Each edge of the bus since the beginning. */
int world_edges(void);
const struct change *world_edge(int number);

/* How the lamp answers: -1 not at all, else after this many microseconds; and whether a second lamp has its address and
 * another level, and answers a little later. */
void world_lamp_answers_after(int microseconds);
void world_two_lamps(bool are_two);
int world_lamp_level(void);

#endif
