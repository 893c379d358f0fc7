/* What comes of a request on the bus. */
#include <stdio.h>
#include <string.h>

#include "tests.h"
#include "world.h"

enum { FRAME_24 = 20833 }; /* microseconds */

static void frames_of_16_bits_are_sent(void)
{
    begin();
    for (char priority = '1'; priority <= '5'; priority++) {
        char request[] = "send 1 0A80\n";
        request[5] = priority;
        exchange(request, "quiet\n");
    }
    expect_number(world_frames(), 5, "frames");
    expect_number(world_frame(4)->bits, 16, "bits");
    expect_number(world_frame(4)->frame, 0x0A80, "the frame");
    expect_number(world_lamp_level(), 128, "the level");
}

static void frames_of_24_bits_are_sent(void)
{
    begin();
    exchange("send 4 7FFE30\n", "quiet\n");
    expect_number(world_frames(), 1, "frames");
    expect_number(world_frame(0)->bits, 24, "bits");
    expect_number(world_frame(0)->frame, 0x7FFE30, "the frame");
}

static void silence_is_quiet(void)
{
    begin();
    exchange("send 4 0CA0\n", "quiet\n");
    world_lamp_answers_after(-1);
    exchange("send 4 0BA0\n", "quiet\n");
}

static void each_byte_is_an_answer(void)
{
    begin();
    for (int level = 0; level < 256; level++) {
        char request[16], wanted[32];
        snprintf(request, sizeof request, "send 4 0A%02X\n", (unsigned)level);
        exchange(request, "quiet\n");
        snprintf(wanted, sizeof wanted, "answer %d\n", level);
        exchange("send 5 0BA0\n", wanted);
    }
}

static void two_answers_are_damaged(void)
{
    begin();
    world_two_lamps(true);
    exchange("send 4 0BA0\n", "damaged\n");
    expect_number(world_frame(0)->frame, 0x0BA0, "the frame that was sent");
    world_two_lamps(false);
    exchange("send 4 0BA0\n", "answer 254\n");
}

static void anything_else_is_damaged(void)
{
    begin();
    world_other_pulls(0, 25000, 100);
    exchange("send 4 0CA0\n", "damaged\n");
    world_other_sends(0, 22000, 0x7F91, 16, HALF_BIT);
    exchange("send 4 0CA0\n", "damaged\n");
    world_other_pulls(0, 25000, 20000);
    exchange("send 4 0CA0\n", "damaged\n");
    world_other_sends(0, 22000, 0xA5, 8, HALF_BIT);
    world_other_pulls(0, 30500, 400); /* behind eight good bits, before their stop condition */
    exchange("send 4 0CA0\n", "damaged\n");
}

/* The other one begins at the same time. At the first bit that differs, the idle one loses, and the other frame is
 * whole. */
static void a_collision_is_lost(void)
{
    begin();
    world_other_sends(0, 417, 0x0A8809, 24, HALF_BIT);
    exchange("send 4 0A80\n", "lost\n");
    exchange("hear\n", "event 0A8809\n");
    exchange("send 4 0A80\n", "quiet\n");
    world_other_pulls(0, 5000, 2000);
    exchange("send 4 0A80\n", "lost\n");
}

/* Two half bits that begin a quarter of a bit apart. */
static void a_collision_out_of_step_is_lost(void)
{
    begin();
    world_other_sends(0, 600, 0x345678, 24, HALF_BIT);
    exchange("send 4 7FFE30\n", "lost\n");
    exchange("hear\n", "none\n");
}

/* The other one lengthens the last edge alone, between the half bits that are compared. */
static void a_frame_that_reads_otherwise_is_lost(void)
{
    begin();
    world_other_pulls(0, 417 + 15417, 200);
    exchange("send 4 0A80\n", "lost\n");
}

static void a_bus_without_power_is_a_fault(void)
{
    begin();
    world_power(false);
    exchange("send 4 0A80\n", "fault\n");
    exchange("send 4 0A80\n", "fault\n");
    exchange("hear\n", "none\n");
    world_power(true);
    exchange("gushewa 2 2\n", "gushewa 2 hears 2\n");
    exchange("send 4 0A80\n", "quiet\n");
    expect_number(world_lamp_level(), 128, "the level");
}

static void power_may_fail_at_any_time(void)
{
    for (int after = 0; after < 40000; after += 700) {
        begin();
        world_forget_said();
        world_say("send 4 0BA0\n");
        world_run((uint64_t)after);
        const bool is_answered = strlen(world_said()) > 0;
        world_power(false);
        world_run(300000);
        expect(strcmp(world_said(), is_answered ? "answer 254\n" : "fault\n") == 0, "power failed while it was sent");
        world_power(true);
        world_run(100000);
        exchange("gushewa 2 2\nsend 4 0BA0\nhear\n", "gushewa 2 hears 2\nanswer 254\nnone\n");
    }
}

static void a_frame_waits_for_a_pair_of_others(void)
{
    begin();
    world_other_sends(0, 0, 0xFE1234, 24, HALF_BIT);
    world_other_sends(0, FRAME_24 + 14000, 0xFE1234, 24, HALF_BIT);
    world_run(5000);
    exchange("send 5 0A80\n", "quiet\n");
    expect_number(world_frames(), 3, "frames");
    expect_number(world_frame(2)->frame, 0x0A80, "the last one");
    exchange("hear\nhear\nhear\n", "event FE1234\nevent FE1234\nnone\n");
}

static void a_bus_that_is_not_free_is_lost(void)
{
    begin();
    for (int pull = 0; pull < 30; pull++)
        world_other_pulls(0, (uint64_t)pull * 10000, 400);
    world_forget_said();
    world_say("send 1 0A80\n");
    world_run(199000);
    expect(strlen(world_said()) == 0, "no answer before 200 ms");
    world_run(2000);
    expect(strcmp(world_said(), "lost\n") == 0, "'lost' at 200 ms");
    world_run(300000);
    expect_number(world_lamp_level(), 254, "the level of before");
}

static void events_are_heard_once(void)
{
    begin();
    exchange("hear\n", "none\n");
    world_other_sends(0, 0, 0x0A8809, 24, HALF_BIT);
    world_run(100000);
    world_other_sends(1, 0, 0x0C8801, 24, HALF_BIT);
    world_run(100000);
    exchange("hear\n", "event 0A8809\n");
    exchange("hear\n", "event 0C8801\n");
    exchange("hear\n", "none\n");
}

static void events_wait(void)
{
    begin();
    for (uint32_t number = 0; number < 300; number++) {
        world_other_sends(0, 0, 0x800000 + number, 24, HALF_BIT);
        world_run(40000);
    }
    for (uint32_t number = 300 - 256; number < 300; number++) {
        char wanted[16];
        snprintf(wanted, sizeof wanted, "event %06X\n", (unsigned)(0x800000 + number));
        exchange("hear\n", wanted);
    }
    exchange("hear\n", "none\n");
}

static void greet_in_version_3(void)
{
    begin();
    exchange("gushewa 3 2\n", "gushewa 3 hears 2\n");
}

static void events_are_said_at_once(void)
{
    greet_in_version_3();
    world_other_sends(0, 0, 0x0A8809, 24, HALF_BIT);
    world_forget_said();
    world_run(FRAME_24);
    expect(strlen(world_said()) == 0, "nothing before the frame has come");
    world_run(5000);
    expect(strcmp(world_said(), "event 0A8809\n") == 0, "an event within 5 ms of its frame");
    exchange("", "");
    exchange("hear\n", "none\n");
}

static void events_are_said_in_their_order(void)
{
    greet_in_version_3();
    world_forget_said();
    for (uint32_t number = 0; number < 8; number++)
        world_other_sends(0, number * 40000, 0x800000 + number, 24, HALF_BIT);
    world_run(500000);
    expect(strcmp(world_said(),
               "event 800000\nevent 800001\nevent 800002\nevent 800003\n"
               "event 800004\nevent 800005\nevent 800006\nevent 800007\n") == 0,
        "each event once, in order");
}

/* Ten events come, and nothing is said. */
static void events_come_unsaid(void)
{
    world_forget_said();
    for (uint32_t number = 0; number < 10; number++) {
        world_other_sends(0, 0, 0x800000 + number, 24, HALF_BIT);
        world_run(40000);
    }
    expect(strlen(world_said()) == 0, "nothing is said of the events");
}

static void nothing_is_said_before_a_greeting(void)
{
    world_begin(0);
    events_come_unsaid();
}

static void a_greeting_forgets_events(void)
{
    world_begin(0);
    events_come_unsaid();
    exchange("gushewa 3 2\n", "gushewa 3 hears 2\n");
    exchange("gushewa 2 3\n", "gushewa 2 hears 3\n");
    events_come_unsaid();
    exchange("gushewa 3 4\nhear\n", "gushewa 3 hears 4\nnone\n");
    exchange("gushewa 1\n", "gushewa 1\n");
    events_come_unsaid();
    exchange("gushewa 2 5\nhear\n", "gushewa 2 hears 5\nnone\n");
    events_come_unsaid();
    exchange("gushewa 1\nhear\n", "gushewa 1\nnone\n");
}

static void events_are_said_behind_a_greeting(void)
{
    greet_in_version_3();
    world_forget_said();
    world_other_sends(0, 0, 0x0A8809, 24, HALF_BIT);
    world_run(500000);
    expect(strcmp(world_said(), "event 0A8809\n") == 0, "the event");
}

static void events_are_said_while_a_frame_is_sent(void)
{
    greet_in_version_3();
    world_other_sends(0, 0, 0xFE1234, 24, HALF_BIT);
    world_other_sends(0, FRAME_24 + 14000, 0xFE1235, 24, HALF_BIT);
    world_run(5000);
    exchange("send 5 0BA0\nhear\n", "event FE1234\nevent FE1235\nanswer 254\nnone\n");
}

static void a_collision_may_be_both(void)
{
    greet_in_version_3();
    world_other_sends(0, 417, 0x0A8809, 24, HALF_BIT);
    exchange("send 4 0A80\n", "lost\nevent 0A8809\n");
}

static void hear_ends_with_none(void)
{
    greet_in_version_3();
    world_forget_said();
    for (uint32_t number = 0; number < 4; number++)
        world_other_sends(0, number * 40000, 0x800000 + number, 24, HALF_BIT);
    for (int hear = 0; hear < 20; hear++) {
        world_say("hear\n");
        world_run(10000);
    }
    const char *at = world_said();
    int events = 0, nones = 0;
    for (const char *end; (end = strchr(at, '\n')); at = end + 1) {
        events += strncmp(at, "event ", 6) == 0;
        nones += strncmp(at, "none\n", 5) == 0;
    }
    expect_number(events, 4, "events");
    expect_number(nones, 20, "answers to hear");
}

static void nothing_is_said_unasked_in_old_versions(void)
{
    static const char *const greetings[] = {"gushewa 2 3\n", "gushewa 1\n"};
    static const char *const answers[] = {"gushewa 2 hears 3\n", "gushewa 1\n"};
    for (int version = 0; version < 2; version++) {
        greet_in_version_3();
        exchange(greetings[version], answers[version]);
        world_other_sends(0, 0, 0x0A8809, 24, HALF_BIT);
        exchange("", "");
        exchange("hear\nhear\n", "event 0A8809\nnone\n");
    }
}

static void own_frames_and_those_of_16_bits_are_no_events(void)
{
    greet_in_version_3();
    exchange("send 4 7FFE30\n", "quiet\n");
    exchange("send 4 0A80\n", "quiet\n");
    world_other_sends(0, 0, 0x0A80, 16, HALF_BIT);
    exchange("hear\n", "none\n");
    begin();
    exchange("send 4 7FFE30\n", "quiet\n");
    exchange("send 4 0A80\n", "quiet\n");
    world_other_sends(0, 0, 0x0A80, 16, HALF_BIT);
    exchange("hear\n", "none\n");
    exchange("hear\n", "none\n");
}

static void damaged_events_are_dropped(void)
{
    begin();
    world_other_sends(0, 0, 0x0A8809, 24, HALF_BIT);
    world_other_pulls(1, 6400, 150);
    world_run(100000);
    world_other_sends(0, 0, 0x0A8809, 23, HALF_BIT);
    world_run(100000);
    world_other_sends(0, 0, 0x0A8809, 25, HALF_BIT);
    world_run(100000);
    world_other_sends(0, 0, 0x0A, 8, HALF_BIT);
    world_run(100000);
    exchange("hear\n", "none\n");
}

static void a_greeting_lets_a_frame_be_sent_to_its_end(void)
{
    begin();
    world_forget_said();
    world_say("send 4 7FFE30\n");
    world_run(5000);
    world_say("gushewa 2 4\n");
    world_run(500000);
    expect(strcmp(world_said(), "quiet\ngushewa 2 hears 4\n") == 0, "the answers");
    expect_number(world_frames(), 1, "frames");
    expect_number(world_frame(0)->frame, 0x7FFE30, "the frame");
}

static void each_frame_is_sent_once(void)
{
    begin();
    exchange("send 4 0520\n", "quiet\n");
    expect_number(world_frames(), 1, "frames");
    exchange("send 1 0520\nsend 1 0520\n", "quiet\nquiet\n");
    expect_number(world_frames(), 3, "frames");
}

static void requests_are_answered_in_time(void)
{
    begin();
    world_forget_said();
    for (int pull = 0; pull < 18; pull++)
        world_other_pulls(0, (uint64_t)pull * 10000, 400);
    world_say("send 5 0BA0\n");
    world_run(300000);
    expect(strcmp(world_said(), "answer 254\n") == 0, "an answer within 300 ms, the longest wait included");
}

const struct test BUS_TESTS[] = {
    {true, "send this 16-bit frame with priority P, 1 (the highest) to 5", frames_of_16_bits_are_sent},
    {true, "send this 24-bit frame", frames_of_24_bits_are_sent},
    {true, "no backward frame came", silence_is_quiet},
    {true, "a backward frame came, the byte B, 0 to 255", each_byte_is_an_answer},
    {true, "something came that is no backward frame, as where two devices answer at once", two_answers_are_damaged},
    {true, "After `damaged` it does not: the frame was sent, and only its answer is unknown.",
        anything_else_is_damaged},
    {true, "the frame met a collision, or could not be sent in its time", a_collision_is_lost},
    {true, "no 24-bit frame of another device waits", events_are_heard_once},
    {true, "this is the oldest that waits. It waits no longer", events_are_heard_once},
    {true, "It sends each frame once.", each_frame_is_sent_once},
    {true, "It keeps at least 256 of them, and drops the oldest where there are more.", events_wait},
    {true, "Nothing is said unasked before the line was greeted in version 3", nothing_is_said_before_a_greeting},
    {true, "An event that came before it is not said any more, in any version", a_greeting_forgets_events},
    {true, "What comes behind its answer is said as it comes.", events_are_said_behind_a_greeting},
    {true, "Events are said at once.", events_are_said_at_once},
    {true, "Each 24-bit frame of another device is said once, within 100 ms, in the order in which they came.",
        events_are_said_in_their_order},
    {true, "An event does not wait for the answer.", events_are_said_while_a_frame_is_sent},
    {true, "A collision may be both.", a_collision_may_be_both},
    {true, "only once each event that came since the greeting was said", hear_ends_with_none},
    {true, "Nothing is said unasked: each request gets one line, and events wait until they are heard.",
        nothing_is_said_unasked_in_old_versions},
    {true, "Its own frames are not among them, and neither are 16-bit frames.",
        own_frames_and_those_of_16_bits_are_no_events},
    {true, "Any other request is answered within the patience of the controller", requests_are_answered_in_time},
    {true, "A bus without power is `fault`, and a collision is `lost`.", a_bus_without_power_is_a_fault},
    {true, "a pair of frames of another device takes half of that", a_frame_waits_for_a_pair_of_others},
    {true, "Where the bus is not free then, it is `lost`.", a_bus_that_is_not_free_is_lost},
    {true, "A damaged frame of 24 bits", damaged_events_are_dropped},
    {true, "So are frames of 16 bits of another controller", own_frames_and_those_of_16_bits_are_no_events},
    {true, "The frame is sent to its end, since half a frame disturbs the others.",
        a_greeting_lets_a_frame_be_sent_to_its_end},
    {false, "A collision of frames that are out of step is lost", a_collision_out_of_step_is_lost},
    {false, "A frame that reads otherwise than it was sent is lost", a_frame_that_reads_otherwise_is_lost},
    {false, "A bus that loses its power at any time of a frame is a fault", power_may_fail_at_any_time},
};
const int BUS_TEST_COUNT = sizeof BUS_TESTS / sizeof *BUS_TESTS;
