/* The firmware behind a pseudo terminal, at the simulated bus of world.h, in real time.
 *
 *   desk LINK [EVENT SECONDS]
 *
 * LINK becomes a link to the pseudo terminal. Another device sends EVENT, six hexadecimal digits, each so many
 * SECONDS, and behind it an event of another instance whose information is one more each time. It waits for a free bus,
 * as a device does. */
#define _DEFAULT_SOURCE
#define _XOPEN_SOURCE 600
#include <fcntl.h>
#include <poll.h>
#include <stdio.h>
#include <stdlib.h>
#include <termios.h>
#include <time.h>
#include <unistd.h>

#include "../board.h"
#include "world.h"

enum { BYTES = 256, MILLISECOND = 1, FREE = 14000, INSTANCE = 0x400, INFORMATION = 0x3FF };

static void need(bool is_so, const char *what)
{
    if (is_so)
        return;
    perror(what);
    exit(1);
}

/* Makes the terminal raw, and keeps its other end open, so that it outlives each controller. */
static int open_terminal(const char *link)
{
    struct termios settings;
    const int own = posix_openpt(O_RDWR | O_NOCTTY | O_NONBLOCK);
    need(own >= 0 && grantpt(own) == 0 && unlockpt(own) == 0, "pseudo terminal");
    const int other = open(ptsname(own), O_RDWR | O_NOCTTY);
    need(other >= 0 && tcgetattr(other, &settings) == 0, "pseudo terminal");
    cfmakeraw(&settings);
    need(tcsetattr(other, TCSANOW, &settings) == 0, "pseudo terminal");
    need(symlink(ptsname(own), link) == 0, link);
    return own;
}

static uint64_t microseconds(void)
{
    struct timespec now;
    clock_gettime(CLOCK_MONOTONIC, &now);
    return (uint64_t)now.tv_sec * 1000000 + (uint64_t)now.tv_nsec / 1000;
}

static void take_bytes(int terminal)
{
    uint8_t bytes[BYTES];
    struct pollfd wait = {.fd = terminal, .events = POLLIN};
    if (poll(&wait, 1, MILLISECOND) <= 0)
        return;
    const ssize_t count = read(terminal, bytes, sizeof bytes);
    for (ssize_t at = 0; at < count; at++)
        world_say_byte(bytes[at]);
}

/* What nobody reads is gone, as at a serial port. */
static void give_bytes(int terminal)
{
    uint8_t byte;
    while (world_take_said(&byte))
        if (write(terminal, &byte, 1) != 1)
            continue;
}

/* Whether the bus was idle for the settling time of a device. */
static bool is_free(void)
{
    const int edges = world_edges();
    return !board_reads_active() && (edges == 0 || world_now() - world_edge(edges - 1)->at >= FREE * THIRDS);
}

int main(int count, char **words)
{
    if (count != 2 && count != 4) {
        fprintf(stderr, "desk LINK [EVENT SECONDS]\n");
        return 2;
    }
    const uint32_t event = count == 4 ? (uint32_t)strtoul(words[2], NULL, 16) : 0;
    const uint64_t pause = count == 4 ? (uint64_t)(strtod(words[3], NULL) * 1e6) : 0;
    const int terminal = open_terminal(words[1]);
    const uint64_t begun = microseconds();
    uint64_t ran = 0, next_event = pause;
    uint32_t counter = (event ^ INSTANCE) & ~(uint32_t)INFORMATION;
    int waiting = 0; /* of the two events, those that wait for a free bus */
    world_begin(0);
    for (;;) {
        take_bytes(terminal);
        const uint64_t now = microseconds() - begun;
        world_run(now - ran);
        ran = now;
        give_bytes(terminal);
        if (pause && ran >= next_event) {
            waiting = 2;
            next_event = ran + pause;
        }
        if (waiting && is_free()) {
            world_other_sends(0, 0, waiting == 2 ? event : counter, 24, HALF_BIT);
            if (waiting == 1)
                counter = (counter & ~(uint32_t)INFORMATION) | ((counter + 1) & INFORMATION);
            waiting--;
        }
    }
}
