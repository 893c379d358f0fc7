/* When and how long the bus is active. */
#include <stdio.h>
#include <string.h>

#include "../halves.h"
#include "../receiver.h"
#include "tests.h"
#include "world.h"

static int64_t microseconds(uint64_t thirds)
{
    return (int64_t)(thirds / THIRDS);
}

/* From the last edge of one frame to the first of the next one. */
static int64_t time_before(int number)
{
    return microseconds(world_frame(number)->begun - world_frame(number - 1)->ended);
}

/* By each count of IEC 62386-101: from the last edge, and from the end of the last bit. */
static void settling_times_go_by_priority(void)
{
    static const int least[] = {13500, 14900, 16300, 17900, 19500}, most[] = {14700, 16100, 17700, 19300, 21100};
    static const uint32_t last[] = {0x0A8808, 0x0A8809};
    for (int priority = 0; priority < 5; priority++) {
        for (int step = 0; step < 40; step++) {
            char request[] = "send 1 0A80\n";
            request[5] = (char)('1' + priority);
            begin();
            world_run((uint64_t)step * 11);
            world_other_sends(0, 0, last[step % 2], 24, HALF_BIT);
            world_run(21000);
            exchange(request, "quiet\n");
            expect_within(time_before(1), least[priority] + 417, most[priority], "from the last edge");
        }
    }
}

static void settling_times_hold_behind_an_answer(void)
{
    begin();
    exchange("send 4 0BA0\nsend 2 0BA0\n", "answer 254\nanswer 254\n");
    expect_number(world_frames(), 4, "frames");
    expect_number(world_frame(1)->bits, 8, "bits of the answer");
    expect_within(time_before(2), 14900 + 417, 16100, "from the answer's last edge");
}

static void answers_come_in_their_time(void)
{
    static const int times[] = {5500, 5900, 8000, 10500, 10900};
    for (size_t number = 0; number < sizeof times / sizeof *times; number++) {
        begin();
        world_lamp_answers_after(times[number]);
        exchange("send 4 0BA0\n", "answer 254\n");
    }
    begin();
    world_lamp_answers_after(13300);
    exchange("send 4 0BA0\n", "quiet\n");
}

static void no_answer_is_waited_for(void)
{
    begin();
    world_forget_said();
    world_say("send 4 0CA1\n");
    while (world_frames() == 0 || strlen(world_said()) == 0)
        world_run(100);
    expect_within(microseconds(world_now() - world_frame(0)->ended), 10917, 13500, "from the frame to 'quiet'");
}

static void a_pair_is_sent_within_100_ms(void)
{
    begin();
    exchange("send 1 0520\nsend 1 0520\n", "quiet\nquiet\n");
    exchange("send 4 A355FF\nsend 1 A355FF\n", "quiet\nquiet\n");
    expect_within(microseconds(world_frame(1)->ended - world_frame(0)->begun), 0, 94000, "two frames of 16 bits");
    expect_within(microseconds(world_frame(3)->ended - world_frame(2)->begun), 0, 94000, "two frames of 24 bits");
    expect_number(world_frames(), 4, "frames");
}

static void a_frame_is_a_table_of_half_bits(void)
{
    struct halves halves;
    char row[HALVES_MOST + 1] = {0};
    halves_of_frame(&halves, 0x0A81, 16);
    for (int half = 0; half < halves.count; half++)
        row[half] = halves.is_active[half] ? 'A' : '-';
    expect(strcmp(row, "A--A-A-A-AA--AA--AA--A-A-A-A-A-AA-") == 0, row);
    halves_of_frame(&halves, 0xFFFFFF, 24);
    expect_number(halves.count, 50, "half bits of 24 bits");
}

static void half_bits_last_their_time(void)
{
    begin();
    exchange("send 4 0A81\n", "quiet\n");
    for (int edge = 1; edge < world_edges(); edge++) {
        const uint64_t length = world_edge(edge)->at - world_edge(edge - 1)->at;
        expect(length == HALF_BIT || length == 2 * HALF_BIT, "one or two half bits of 416.67 microseconds");
    }
    expect_number(world_edges(), 26, "edges");
}

static void jitter_within_the_tolerance_is_read(void)
{
    for (uint64_t half_bit = 1002; half_bit <= 1497; half_bit += 15) {
        begin();
        world_other_sends(0, 0, 0x0A8809, 24, half_bit);
        world_run(100000);
        exchange("hear\n", "event 0A8809\n");
    }
}

static void jitter_beyond_the_tolerance_is_dropped(void)
{
    static const uint64_t half_bits[] = {500, 800, 960, 990, 1510, 1560, 1800, 1950, 2500};
    for (size_t number = 0; number < sizeof half_bits / sizeof *half_bits; number++) {
        begin();
        world_other_sends(0, 0, 0x0A8809, 24, half_bits[number]);
        world_run(200000);
        exchange("hear\n", "none\n");
        world_other_sends(0, 0, 0xFFFFFF, 24, half_bits[number]); /* no two half bits without an edge between them */
        world_run(200000);
        exchange("hear\n", "none\n");
        world_other_sends(0, 22000, 0xA5, 8, half_bits[number]);
        exchange("send 4 0CA0\n", "damaged\n");
    }
}

/* Two edges that are moved by 40 microseconds each change a half bit by 80 at most. */
static void each_edge_may_be_early_or_late(void)
{
    begin();
    world_jitter(40);
    for (uint32_t number = 0; number < 200; number++) {
        char wanted[32];
        world_other_sends(0, 1000, 0x5A0000 + number * 77, 24, HALF_BIT);
        world_run(60000);
        snprintf(wanted, sizeof wanted, "event %06X\n", (unsigned)(0x5A0000 + number * 77));
        exchange("hear\n", wanted);
        exchange("send 4 0BA0\n", "answer 254\n");
    }
}

static void an_edge_that_is_too_early_or_late_damages_its_frame(void)
{
    begin();
    world_jitter(130);
    int heard = 0;
    for (uint32_t number = 0; number < 200; number++) {
        world_forget_said();
        world_other_sends(0, 1000, 0x5A0000 + number * 77, 24, HALF_BIT);
        world_run(60000);
        world_say("hear\n");
        world_run(1000);
        heard += strcmp(world_said(), "none\n") != 0;
    }
    expect_within(heard, 0, 10, "frames that were heard of 200");
}

static void the_clock_may_begin_again(void)
{
    for (uint32_t before = 0; before < 80000; before += 1700) {
        world_begin(UINT32_MAX - before);
        world_other_sends(0, 0, 0x0A8809, 24, HALF_BIT);
        world_run(22000);
        exchange("send 4 0BA0\nhear\n", "answer 254\nevent 0A8809\n");
        expect_within(time_before(1), 17900, 19300, "from the last edge");
    }
}

static void a_bus_that_was_idle_for_hours_is_free(void)
{
    begin();
    exchange("send 4 0A80\n", "quiet\n");
    for (int minute = 0; minute < 3; minute++)
        world_run(60000000);
    const int edges = world_edges();
    world_say("send 5 0CA0\n");
    world_run(500);
    expect_number(world_edges(), edges + 1, "a frame begins at once");
    world_run(100000);
}

/* The count of microseconds comes to the time of the last edge again. */
static void a_bus_that_was_idle_for_71_minutes_is_idle(void)
{
    struct receiver receiver;
    receiver_begin(&receiver, 0, true);
    receiver_edge(&receiver, 5000, false);
    uint32_t now = 5000;
    for (int second = 0; second < 4400; second++) {
        now += 1000000;
        receiver_tick(&receiver, now);
        expect(now - receiver.edge_at >= 900000, "the last edge was long ago");
    }
}

const struct test TIMES_TESTS[] = {
    {true, "the settling time before a frame, by its priority", settling_times_go_by_priority},
    {true, "the time in which a backward frame may come, 5.5 to 10.5 ms after the forward frame",
        answers_come_in_their_time},
    {true, "Only then it answers.", no_answer_is_waited_for},
    {true,
        "Frames of one transaction follow each other without a frame of the interface's own between them, "
        "and a pair within 100 ms.",
        a_pair_is_sent_within_100_ms},
    {false, "The settling time holds behind an answer", settling_times_hold_behind_an_answer},
    {false, "A frame is a table of half bits", a_frame_is_a_table_of_half_bits},
    {false, "Each half bit lasts 416.67 microseconds", half_bits_last_their_time},
    {false, "Half bits of 334 to 499 microseconds are read", jitter_within_the_tolerance_is_read},
    {false, "Half bits beyond the tolerance are no frame", jitter_beyond_the_tolerance_is_dropped},
    {false, "Each edge may be early or late by 40 microseconds", each_edge_may_be_early_or_late},
    {false, "An edge that is too early or late damages its frame", an_edge_that_is_too_early_or_late_damages_its_frame},
    {false, "The count of microseconds may begin again at 0", the_clock_may_begin_again},
    {false, "A bus that was idle for 71 minutes is idle", a_bus_that_was_idle_for_71_minutes_is_idle},
    {false, "A frame begins at once where the bus was idle for long", a_bus_that_was_idle_for_hours_is_free},
};
const int TIMES_TEST_COUNT = sizeof TIMES_TESTS / sizeof *TIMES_TESTS;
