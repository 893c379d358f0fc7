/* What a controller reads and writes: the bytes of the line. */
#include <stdio.h>
#include <string.h>

#include "tests.h"
#include "world.h"

static void greetings_have_up_to_20_digits(void)
{
    begin();
    exchange("gushewa 2 1\n", "gushewa 2 hears 1\n");
    exchange("gushewa 2 12345678901234567890\n", "gushewa 2 hears 12345678901234567890\n");
    exchange("gushewa 2 123456789012345678901\n", "fault\n");
    exchange("gushewa 2 \n", "fault\n");
    exchange("gushewa 2 1x\n", "fault\n");
    exchange("gushewa 3 12345678901234567890\n", "gushewa 3 hears 12345678901234567890\n");
    exchange("gushewa 3 123456789012345678901\n", "fault\n");
    exchange("gushewa 4 1\n", "fault\n");
}

static void an_echo_is_told_from_an_interface(void)
{
    begin();
    exchange("gushewa 2 hears 5\n", "fault\n");
    exchange("gushewa 3 hears 5\n", "fault\n");
}

static void the_number_comes_back_as_it_was_written(void)
{
    begin();
    exchange("gushewa 2 0007\n", "gushewa 2 hears 0007\n");
    exchange("gushewa 3 0007\n", "gushewa 3 hears 0007\n");
}

static void the_longest_requests_are_read(void)
{
    begin();
    exchange("gushewa 2 98765432109876543210\n", "gushewa 2 hears 98765432109876543210\n");
    exchange("send 4 7FFE30\n", "quiet\n");
}

static void unknown_requests_are_faults(void)
{
    static const char *const unknown[] = {"nonsense\n", "\n", "hear \n", "hear 1\n", "HEAR\n", "hears\n", "send\n",
        "send 0 0A80\n", "send 6 0A80\n", "send 4 0A8\n", "send 4 0A800\n", "send 4 0A80112\n", "send 4 0a80\n",
        "send 4 0G80\n", "send 44 0A80\n", "send 4 0A80 \n", "gushewa\n", "gushewa 4\n",
        "a line that is longer than any request of the controller\n", "a line that is longer than any request hear\n"};
    begin();
    for (size_t number = 0; number < sizeof unknown / sizeof *unknown; number++)
        exchange(unknown[number], "fault\n");
    expect_number(world_frames(), 0, "frames for requests that nobody knows");
    exchange("hear\n", "none\n");
}

static void lines_are_plain(void)
{
    begin();
    exchange("send  4 0A80\n", "fault\n");
    exchange("send 4  0A80\n", "fault\n");
    exchange("hear\nhear\n", "none\nnone\n");
    exchange("hea", "");
    exchange("r\n", "none\n");
}

static void a_carriage_return_is_no_part_of_a_request(void)
{
    begin();
    exchange("hear\r\n", "fault\n");
    exchange("gushewa 2 5\r\n", "fault\n");
}

static void answers_are_short(void)
{
    begin();
    world_say("gushewa 2 98765432109876543210\nsend 4 0A80\nsend 4 0BA0\nhear\nnonsense\n");
    world_forget_said();
    world_run(500000);
    const char *from = world_said();
    int lines = 0;
    for (const char *end; (end = strchr(from, '\n')); from = end + 1, lines++)
        expect(end - from <= 63, "an answer of 63 bytes at most");
    expect_number(lines, 5, "answers");
}

static void each_request_has_one_answer(void)
{
    begin();
    exchange("send 4 0A80\nhear\nsend 4 0BA0\nnonsense\nhear\n", "quiet\nnone\nanswer 128\nfault\nnone\n");
    world_other_sends(0, 0, 0x0A8809, 24, HALF_BIT);
    exchange("", "");
    exchange("hear\n", "event 0A8809\n");
}

static void each_request_has_one_answer_beside_events(void)
{
    begin();
    exchange("gushewa 3 2\n", "gushewa 3 hears 2\n");
    exchange("send 4 0A80\nhear\nsend 4 0BA0\nnonsense\nhear\n", "quiet\nnone\nanswer 128\nfault\nnone\n");
    exchange("", "");
}

static void a_greeting_may_come_while_a_request_is_under_way(void)
{
    begin();
    exchange("send 4 0A80\ngushewa 2 8\n", "quiet\ngushewa 2 hears 8\n");
    exchange("hear\ngushewa 2 9\n", "none\ngushewa 2 hears 9\n");
}

static void half_a_request_is_forgotten(void)
{
    begin();
    exchange("send 4 0Agushewa 2 7\n", "gushewa 2 hears 7\n");
    exchange("gushewa 2 1gushewa 2 7\n", "gushewa 2 hears 7\n");
    exchange("send 4 0Agushewa 3 7\n", "gushewa 3 hears 7\n");
    exchange("gushewa 3 12345678901234567890gushewa 3 98765432109876543210\n",
        "gushewa 3 hears 98765432109876543210\n");
    exchange("gushewa 2 8\n", "gushewa 2 hears 8\n");
    exchange("gushewa 2 12345678901234567890gushewa 2 98765432109876543210\n",
        "gushewa 2 hears 98765432109876543210\n");
    exchange("hear\n", "none\n");
    expect_number(world_frames(), 0, "frames of half a request");
}

static void a_greeting_is_answered_last(void)
{
    begin();
    exchange("send 4 0BA0\nhear\nhear\ngushewa 2 10\n", "answer 254\nnone\nnone\ngushewa 2 hears 10\n");
    exchange("", "");
    exchange("send 4 0BA0\nhear\nhear\ngushewa 3 10\n", "answer 254\nnone\nnone\ngushewa 3 hears 10\n");
    exchange("send 4 0BA0\nhear\nhear\ngushewa 3 11\n", "answer 254\nnone\nnone\ngushewa 3 hears 11\n");
    exchange("", "");
}

static void a_greeting_behind_a_flood_is_answered(void)
{
    begin();
    world_forget_said();
    world_say("send 4 0A80\n");
    world_run(1000);
    for (int line = 0; line < 100; line++)
        world_say("a line that nobody knows\n");
    world_say("gushewa 2 11\n");
    world_run(500000);
    const char *greeting = strstr(world_said(), "gushewa 2 hears 11\n");
    expect(strncmp(world_said(), "quiet\n", 6) == 0, "the answer of before comes first");
    expect(greeting && strlen(greeting) == strlen("gushewa 2 hears 11\n"), "the greeting is answered last");
}

static void a_greeting_is_answered_in_half_a_second(void)
{
    begin();
    world_power(false);
    world_run(1000);
    world_power(true);
    world_other_pulls(0, 10000, 30000);
    world_other_sends(1, 60000, 0x123456, 24, HALF_BIT);
    exchange("send 5 0BA0\ngushewa 2 12\n", "answer 254\ngushewa 2 hears 12\n");
}

static void version_1_is_answered(void)
{
    begin();
    world_other_sends(0, 0, 0x0A8809, 24, HALF_BIT);
    world_run(100000);
    exchange("gushewa 1\n", "gushewa 1\n");
    exchange("hear\n", "none\n");
    exchange("send 4 0Agushewa 1\n", "gushewa 1\n");
}

const struct test LINE_TESTS[] = {
    {true, "N is a decimal number of at most 20 digits.", greetings_have_up_to_20_digits},
    {true, "The word `hears` shows that an interface answers, and not an echo", an_echo_is_told_from_an_interface},
    {true, "Only N is to come back as it was written.", the_number_comes_back_as_it_was_written},
    {true, "No greeting has more than 31 bytes, its line feed included, and no other request more than 14.",
        the_longest_requests_are_read},
    {true, "the interface does not know this request", unknown_requests_are_faults},
    {true, "Exactly one space stands between two words, and a line feed (10) ends the line.", lines_are_plain},
    {true, "There is no carriage return.", a_carriage_return_is_no_part_of_a_request},
    {true, "An answer has at most 63 bytes before its line feed.", answers_are_short},
    {true, "One answer to each request, and nothing else.", each_request_has_one_answer},
    {true, "One answer to each request.", each_request_has_one_answer_beside_events},
    {true, "It may come at any time, also while a request is under way",
        a_greeting_may_come_while_a_request_is_under_way},
    {true, "It also forgets half a request: a line that ends with `gushewa 3 N` is this greeting",
        half_a_request_is_forgotten},
    {true,
        "The answer to a greeting comes after all answers to what was asked before it, "
        "and nothing of before comes after it.",
        a_greeting_is_answered_last},
    {true, "A greeting is answered within half a second, since no frame has to be sent for it.",
        a_greeting_is_answered_in_half_a_second},
    {true, "It also answers a line that ends with `gushewa 1` by `gushewa 1`", version_1_is_answered},
    {false, "A greeting behind more bytes than the line keeps is answered", a_greeting_behind_a_flood_is_answered},
};
const int LINE_TEST_COUNT = sizeof LINE_TESTS / sizeof *LINE_TESTS;
