#include "wave.h"

#include "times.h"

enum { BACKWARD_BITS = 8, EVENT_BITS = 24 };

/* The least time since the last edge before a frame of each priority. The timer adds up to half a bit. */
static const uint32_t SETTLING[] = {0, 14000, 15400, 16850, 18450, 20100};

void wave_begin(struct wave *wave, struct events *events, uint32_t now, bool is_active)
{
    *wave = (struct wave){.events = events, .phase = WAVE_IDLE};
    receiver_begin(&wave->receiver, now, is_active);
}

void wave_send(struct wave *wave, uint32_t frame, uint8_t bits, uint8_t priority, uint32_t now)
{
    wave->frame = frame;
    wave->bits = bits;
    wave->priority = priority;
    wave->since = now;
    wave->phase = WAVE_WAITS;
    halves_of_frame(&wave->halves, frame, bits);
}

bool wave_take_result(struct wave *wave, enum wave_result *result, uint8_t *answer)
{
    if (wave->phase != WAVE_DONE)
        return false;
    *result = wave->result;
    *answer = wave->answer;
    wave->phase = WAVE_IDLE;
    return true;
}

void wave_edge(struct wave *wave, uint32_t now, bool is_active)
{
    receiver_edge(&wave->receiver, now, is_active);
}

static void end(struct wave *wave, enum wave_result result)
{
    wave->result = result;
    wave->phase = WAVE_DONE;
}

/* The own frame came to its stop condition: it has to read as it was sent. */
static void read_back(struct wave *wave, enum received received)
{
    const struct receiver *read = &wave->receiver;
    if (received != RECEIVED_FRAME || read->bits != wave->bits || read->frame != wave->frame) {
        end(wave, WAVE_LOST);
        return;
    }
    wave->since = read->edge_at;
    wave->phase = WAVE_LISTENS;
}

static void read_backward(struct wave *wave, enum received received)
{
    if (received == RECEIVED_FRAME && wave->receiver.bits == BACKWARD_BITS) {
        wave->answer = (uint8_t)wave->receiver.frame;
        end(wave, WAVE_ANSWER);
    } else {
        end(wave, WAVE_DAMAGED);
    }
}

static void meet_frame(struct wave *wave, enum received received)
{
    if (wave->phase == WAVE_ENDS) {
        read_back(wave, received);
        return;
    }
    if (received == RECEIVED_FRAME && wave->receiver.bits == EVENT_BITS)
        events_add(wave->events, wave->receiver.frame);
    if (wave->phase == WAVE_LISTENS)
        read_backward(wave, received);
}

static bool is_powerless(const struct wave *wave, uint32_t now)
{
    return wave->receiver.is_active && now - wave->receiver.edge_at >= POWERLESS;
}

/* Begins to send where the bus is free; returns whether the pin is to be active. */
static bool wait(struct wave *wave, uint32_t now, bool is_active)
{
    const bool is_idle = !is_active && !wave->receiver.is_active;
    if (is_idle && now - wave->receiver.edge_at >= SETTLING[wave->priority]) {
        wave->phase = WAVE_SENDS;
        wave->half = 0;
        return wave->halves.is_active[0];
    }
    if (now - wave->since >= WAIT_MOST)
        end(wave, WAVE_LOST);
    return false;
}

/* Compares what was sent with what is read, and goes on to the next half bit. */
static bool send(struct wave *wave, uint32_t now, bool is_active)
{
    if (wave->halves.is_active[wave->half] != is_active) {
        wave->phase = WAVE_COLLIDED;
        wave->since = now;
        return false;
    }
    wave->half++;
    if (wave->half < wave->halves.count)
        return wave->halves.is_active[wave->half];
    wave->phase = WAVE_ENDS;
    wave->since = now;
    return false;
}

static void listen(struct wave *wave, uint32_t now)
{
    if (!wave->receiver.is_begun && now - wave->since >= BACKWARD_MOST)
        end(wave, WAVE_QUIET);
    else if (now - wave->since >= FRAME_MOST)
        end(wave, WAVE_DAMAGED);
}

/* A collision is known as one, and not as a bus that lost its power, once the bus is idle. */
static void leave(struct wave *wave, uint32_t now)
{
    if (!wave->receiver.is_begun || now - wave->since >= FRAME_MOST)
        end(wave, WAVE_LOST);
}

bool wave_tick(struct wave *wave, uint32_t now, bool is_active)
{
    const enum received received = receiver_tick(&wave->receiver, now);
    if (received != RECEIVED_NOTHING)
        meet_frame(wave, received);
    if (wave->phase == WAVE_IDLE || wave->phase == WAVE_DONE)
        return false;
    if (is_powerless(wave, now)) {
        end(wave, WAVE_FAULT);
        return false;
    }
    if (wave->phase == WAVE_WAITS)
        return wait(wave, now, is_active);
    if (wave->phase == WAVE_SENDS)
        return send(wave, now, is_active);
    if (wave->phase == WAVE_LISTENS)
        listen(wave, now);
    else
        leave(wave, now);
    return false;
}
