#include "world.h"

#include <stdio.h>
#include <stdlib.h>
#include <string.h>

#include "../board.h"
#include "../interface.h"

enum { PLAYERS = OTHERS + 2, LAMP = OTHERS, SECOND_LAMP = OTHERS + 1 };
enum { FRAMES_MOST = 1024, BYTES_MOST = 65536, BITS_MOST = 30 };

struct player {
    struct change changes[CHANGES_MOST];
    int count, at;
    bool is_active;
};

static struct {
    uint64_t now, next_tick, offset;
    bool is_powered, drives, is_active;
    struct player players[PLAYERS];
    struct change trace[TRACE_MOST];
    int traced;
    struct lamp_frame frames[FRAMES_MOST];
    int frame_count, frame_from; /* the edge at which the frame that comes now began, or -1 */
    int answers_after, level;
    bool are_two;
    int jitter;
    uint32_t chance;
    uint8_t heard[BYTES_MOST];
    int heard_count, heard_at;
    char said[BYTES_MOST];
    int said_count, said_at;
} world;

static void need(bool is_so, const char *what)
{
    if (!is_so) {
        fprintf(stderr, "the simulation has no room for %s\n", what);
        exit(2);
    }
}

/* The board. */

void board_set_active(bool is_active)
{
    world.drives = is_active;
}

bool board_reads_active(void)
{
    return world.is_active;
}

uint32_t board_microseconds(void)
{
    return (uint32_t)((world.now + world.offset) / THIRDS);
}

void board_lock(void)
{
}

void board_unlock(void)
{
}

bool board_take_byte(uint8_t *byte)
{
    if (world.heard_at == world.heard_count)
        return false;
    *byte = world.heard[world.heard_at++];
    return true;
}

bool board_give_byte(uint8_t byte)
{
    need(world.said_count < BYTES_MOST - 1, "what was said");
    world.said[world.said_count++] = (char)byte;
    return true;
}

/* The serial port. */

void world_say_byte(uint8_t byte)
{
    if (world.heard_at == world.heard_count)
        world.heard_at = world.heard_count = 0;
    need(world.heard_count < BYTES_MOST, "what the controller writes");
    world.heard[world.heard_count++] = byte;
}

void world_say(const char *words)
{
    while (*words)
        world_say_byte((uint8_t)*words++);
}

const char *world_said(void)
{
    world.said[world.said_count] = 0;
    return world.said;
}

void world_forget_said(void)
{
    world.said_count = world.said_at = 0;
}

bool world_take_said(uint8_t *byte)
{
    if (world.said_at == world.said_count) {
        world_forget_said();
        return false;
    }
    *byte = (uint8_t)world.said[world.said_at++];
    return true;
}

/* Others on the bus. */

static void add_change(int player, uint64_t at, bool is_active)
{
    struct player *it = &world.players[player];
    if (it->at == it->count)
        it->at = it->count = 0;
    need(it->count < CHANGES_MOST, "what another one sends");
    it->changes[it->count++] = (struct change){.at = at, .is_active = is_active};
}

/* The same chances at each run. */
static int64_t jitter(void)
{
    world.chance = world.chance * 1103515245 + 12345;
    return world.jitter ? (int64_t)(world.chance >> 8) % (2 * world.jitter + 1) - world.jitter : 0;
}

static uint64_t moved(uint64_t at)
{
    return (uint64_t)((int64_t)at + jitter());
}

static void add_frame(int player, uint64_t at, uint32_t frame, int bits, uint64_t half_bit)
{
    for (int bit = bits; bit >= 0; bit--) {
        const bool is_one = bit == bits || (frame >> bit & 1);
        add_change(player, moved(at), is_one);
        add_change(player, moved(at + half_bit), !is_one);
        at += 2 * half_bit;
    }
    add_change(player, moved(at), false);
}

void world_jitter(int microseconds)
{
    world.jitter = microseconds * THIRDS;
}

void world_other_sends(int other, uint64_t from_now, uint32_t frame, int bits, uint64_t half_bit)
{
    add_frame(other, world.now + from_now * THIRDS, frame, bits, half_bit);
}

void world_other_pulls(int other, uint64_t from_now, uint64_t microseconds)
{
    const uint64_t at = world.now + from_now * THIRDS;
    add_change(other, at, true);
    add_change(other, at + microseconds * THIRDS, false);
}

/* The lamp: it samples each half bit in its middle. */

static bool level_at(uint64_t at, int from)
{
    bool is_active = false;
    for (int edge = from; edge < world.traced && world.trace[edge].at <= at; edge++)
        is_active = world.trace[edge].is_active;
    return is_active;
}

static void obey(const struct lamp_frame *frame)
{
    if (frame->bits != 16 || frame->frame >> 9 != 5)
        return;
    if (!(frame->frame & 0x100)) {
        world.level = frame->frame & 0xFF;
    } else if ((frame->frame & 0xFF) == 0xA0 && world.answers_after >= 0) {
        const uint64_t at = frame->ended + (uint64_t)world.answers_after * THIRDS;
        add_frame(LAMP, at, (uint32_t)world.level, 8, HALF_BIT);
        if (world.are_two)
            add_frame(SECOND_LAMP, at + 900, (uint32_t)world.level ^ 0x55, 8, HALF_BIT);
    }
}

static void end_frame(void)
{
    struct lamp_frame frame = {.begun = world.trace[world.frame_from].at, .ended = world.trace[world.traced - 1].at};
    uint64_t at = frame.begun;
    while (frame.bits < BITS_MOST &&
           level_at(at + HALF_BIT / 2, world.frame_from) != level_at(at + HALF_BIT + HALF_BIT / 2, world.frame_from)) {
        frame.frame = frame.frame << 1 | level_at(at + HALF_BIT / 2, world.frame_from);
        frame.bits++;
        at += 2 * HALF_BIT;
    }
    world.frame_from = -1;
    if (frame.bits < 2)
        return;
    frame.bits--;
    frame.frame &= (1U << frame.bits) - 1;
    if (world.frame_count == FRAMES_MOST) /* a desk runs for long, and looks at none of them */
        world.frame_count = 0;
    world.frames[world.frame_count++] = frame;
    obey(&frame);
}

static void watch_stop(void)
{
    if (world.frame_from >= 0 && !world.is_active && world.now - world.trace[world.traced - 1].at >= 2400 * THIRDS)
        end_frame();
}

/* Time. */

static void settle_level(void)
{
    bool is_active = !world.is_powered || world.drives;
    for (int player = 0; player < PLAYERS; player++)
        is_active = is_active || world.players[player].is_active;
    if (is_active == world.is_active)
        return;
    world.is_active = is_active;
    if (world.traced == TRACE_MOST) { /* a desk runs for long: what is over is forgotten */
        need(world.frame_from != 0, "edges");
        const int from = world.frame_from < 0 ? world.traced : world.frame_from;
        memmove(world.trace, world.trace + from, sizeof world.trace[0] * (size_t)(world.traced - from));
        world.traced -= from;
        world.frame_from = world.frame_from < 0 ? -1 : 0;
    }
    if (world.frame_from < 0 && is_active)
        world.frame_from = world.traced;
    world.trace[world.traced++] = (struct change){.at = world.now, .is_active = is_active};
    interface_edge();
}

static uint64_t next_time(uint64_t until)
{
    uint64_t next = world.next_tick < until ? world.next_tick : until;
    for (int player = 0; player < PLAYERS; player++) {
        const struct player *it = &world.players[player];
        if (it->at < it->count && it->changes[it->at].at < next)
            next = it->changes[it->at].at;
    }
    return next;
}

static void play_others(void)
{
    for (int player = 0; player < PLAYERS; player++) {
        struct player *it = &world.players[player];
        while (it->at < it->count && it->changes[it->at].at <= world.now)
            it->is_active = it->changes[it->at++].is_active;
    }
}

void world_run(uint64_t microseconds)
{
    const uint64_t until = world.now + microseconds * THIRDS;
    interface_poll();
    while (world.now < until) {
        world.now = next_time(until);
        play_others();
        settle_level();
        if (world.now == world.next_tick) {
            world.next_tick += HALF_BIT;
            interface_tick();
            settle_level();
            watch_stop();
        }
        interface_poll();
    }
}

void world_begin(uint32_t microseconds)
{
    memset(&world, 0, sizeof world);
    world.is_powered = true;
    world.offset = (uint64_t)microseconds * THIRDS;
    world.next_tick = HALF_BIT;
    world.frame_from = -1;
    world.answers_after = 7000;
    world.level = 254;
    interface_begin();
}

void world_power(bool is_powered)
{
    world.is_powered = is_powered;
    settle_level();
}

uint64_t world_now(void)
{
    return world.now;
}

/* What was seen. */

int world_frames(void)
{
    return world.frame_count;
}

const struct lamp_frame *world_frame(int number)
{
    return &world.frames[number];
}

int world_edges(void)
{
    return world.traced;
}

const struct change *world_edge(int number)
{
    return &world.trace[number];
}

void world_lamp_answers_after(int microseconds)
{
    world.answers_after = microseconds;
}

void world_two_lamps(bool are_two)
{
    world.are_two = are_two;
}

int world_lamp_level(void)
{
    return world.level;
}
