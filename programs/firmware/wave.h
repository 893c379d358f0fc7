/* The bus: sends a forward frame and waits for its backward frame, and collects the 24-bit frames of others.
 *
 * It touches no pin. Whoever calls it says what the time is and what the pin reads, and sets the pin to what wave_tick
 * returns. No call of it may interrupt another one. */
#ifndef WAVE_H
#define WAVE_H

#include <stdbool.h>
#include <stdint.h>

#include "events.h"
#include "halves.h"
#include "receiver.h"

enum wave_phase {
    WAVE_IDLE,     /* nothing is to be sent */
    WAVE_WAITS,    /* a frame waits for the settling time of its priority */
    WAVE_SENDS,    /* it is being sent */
    WAVE_ENDS,     /* it was sent, and is read back at its stop condition */
    WAVE_LISTENS,  /* a backward frame may come */
    WAVE_COLLIDED, /* what was read is not what was sent; the bus is left to the others */
    WAVE_DONE      /* the result waits to be taken */
};

enum wave_result { WAVE_QUIET, WAVE_ANSWER, WAVE_DAMAGED, WAVE_LOST, WAVE_FAULT };

struct wave {
    struct events *events; /* where the frames of others go */
    struct receiver receiver;
    enum wave_phase phase;
    uint32_t since; /* the time at which waiting or listening began */
    uint32_t frame;
    uint8_t bits, priority;
    struct halves halves;
    uint8_t half; /* the one that the pin shows now */
    enum wave_result result;
    uint8_t answer;
};

void wave_begin(struct wave *wave, struct events *events, uint32_t now, bool is_active);

/* Begins to send a frame of 16 or 24 bits with a priority of 1 to 5, once the bus is free. */
void wave_send(struct wave *wave, uint32_t frame, uint8_t bits, uint8_t priority, uint32_t now);

/* Whether the frame came to its end, and how. */
bool wave_take_result(struct wave *wave, enum wave_result *result, uint8_t *answer);

/* The bus became active or idle. */
void wave_edge(struct wave *wave, uint32_t now, bool is_active);

/* Is called each half bit with what the pin reads; returns whether the pin is to be active from now on. */
bool wave_tick(struct wave *wave, uint32_t now, bool is_active);

#endif
