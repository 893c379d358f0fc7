#include "interface.h"

#include "board.h"
#include "line.h"
#include "wave.h"

static struct line line;
static struct wave wave;
static struct events events;
static bool is_sending;
static bool is_hearing; /* in version 3: `none` is still to be said */

void interface_begin(void)
{
    board_set_active(false);
    line_begin(&line);
    events_forget(&events);
    wave_begin(&wave, &events, board_microseconds(), board_reads_active());
    is_sending = false;
    is_hearing = false;
}

void interface_tick(void)
{
    board_set_active(wave_tick(&wave, board_microseconds(), board_reads_active()));
}

void interface_edge(void)
{
    wave_edge(&wave, board_microseconds(), board_reads_active());
}

static void answer_result(enum wave_result result, uint8_t answer)
{
    static const char *const words[] = {
        [WAVE_QUIET] = "quiet", [WAVE_DAMAGED] = "damaged", [WAVE_LOST] = "lost", [WAVE_FAULT] = "fault"};
    if (result == WAVE_ANSWER)
        line_answer_byte(&line, answer);
    else
        line_answer(&line, words[result]);
}

static void end_sending(void)
{
    enum wave_result result;
    uint8_t answer;
    board_lock();
    const bool is_done = wave_take_result(&wave, &result, &answer);
    board_unlock();
    if (!is_done)
        return;
    is_sending = false;
    answer_result(result, answer);
}

static void begin_sending(const struct line_frame *frame)
{
    board_lock();
    wave_send(&wave, frame->frame, frame->bits, frame->priority, board_microseconds());
    board_unlock();
    is_sending = true;
}

static bool take_event(uint32_t *frame)
{
    board_lock();
    const bool has_event = events_take(&events, frame);
    board_unlock();
    return has_event;
}

static void hear(void)
{
    uint32_t frame;
    if (line.version == 3)
        is_hearing = true;
    else if (take_event(&frame))
        line_answer_event(&line, frame);
    else
        line_answer(&line, "none");
}

/* In version 3 says an event as soon as it has come, whether or not something is asked, and `none` once nothing waits.
 */
static void say_events(void)
{
    uint32_t frame;
    if (!line_may_say_event(&line))
        return;
    if (take_event(&frame)) {
        line_say_event(&line, frame);
    } else if (is_hearing) {
        is_hearing = false;
        line_answer(&line, "none");
    }
}

/* A press of some minutes ago must not switch a light now. */
static void forget(void)
{
    board_lock();
    events_forget(&events);
    board_unlock();
}

static void meet_request(void)
{
    struct line_frame frame;
    switch (line_next(&line, &frame)) {
    case LINE_GREETED:
        forget();
        break;
    case LINE_HEAR:
        hear();
        break;
    case LINE_SEND:
        begin_sending(&frame);
        break;
    case LINE_NOTHING:
        break;
    }
}

void interface_poll(void)
{
    uint8_t byte;
    for (int bytes = 0; bytes < LINE_WAITING && board_take_byte(&byte); bytes++)
        line_take_byte(&line, byte);
    if (is_sending)
        end_sending();
    else
        meet_request();
    say_events();
    while (line_give_byte(&line, &byte) && board_give_byte(byte))
        line_byte_is_given(&line);
}
