#include "line.h"

#include <string.h>

enum { DIGITS_MOST = 20, LINE_FEED = 10 };

static const char GREETING[] = "gushewa 2 ";
static const char THIRD_GREETING[] = "gushewa 3 ";
static const char FIRST_GREETING[] = "gushewa 1";

void line_begin(struct line *line)
{
    memset(line, 0, sizeof *line);
}

/* What goes out. */

static void add(struct line *line, const char *words, uint8_t length)
{
    for (uint8_t at = 0; at < length && line->answer_length < LINE_ANSWER - 1; at++)
        line->answer[line->answer_length++] = words[at];
}

static void add_words(struct line *line, const char *words)
{
    add(line, words, (uint8_t)strlen(words));
}

static void end_line(struct line *line)
{
    line->answer[line->answer_length++] = LINE_FEED;
}

static void end_answer(struct line *line)
{
    end_line(line);
    line->is_asked = false;
}

void line_answer(struct line *line, const char *words)
{
    add_words(line, words);
    end_answer(line);
}

void line_answer_byte(struct line *line, uint8_t byte)
{
    const char digits[3] = {(char)('0' + byte / 100), (char)('0' + byte / 10 % 10), (char)('0' + byte % 10)};
    const uint8_t from = byte >= 100 ? 0 : byte >= 10 ? 1 : 2;
    add_words(line, "answer ");
    add(line, digits + from, (uint8_t)(3 - from));
    end_answer(line);
}

bool line_may_say_event(const struct line *line)
{
    return line->version == 3 && line->answer_length == 0;
}

/* What was asked is still to be answered. */
void line_say_event(struct line *line, uint32_t frame)
{
    add_words(line, "event ");
    for (int shift = 20; shift >= 0; shift -= 4)
        add(line, &"0123456789ABCDEF"[frame >> shift & 15], 1);
    end_line(line);
}

void line_answer_event(struct line *line, uint32_t frame)
{
    line_say_event(line, frame);
    line->is_asked = false;
}

bool line_give_byte(const struct line *line, uint8_t *byte)
{
    if (line->given == line->answer_length)
        return false;
    *byte = (uint8_t)line->answer[line->given];
    return true;
}

void line_byte_is_given(struct line *line)
{
    line->given++;
    if (line->given == line->answer_length)
        line->given = line->answer_length = 0;
}

/* What comes in. */

void line_take_byte(struct line *line, uint8_t byte)
{
    if (line->count == LINE_WAITING) {
        line->first = (uint16_t)((line->first + 1) % LINE_WAITING);
        line->count--;
    }
    line->waiting[(line->first + line->count) % LINE_WAITING] = byte;
    line->count++;
}

static uint8_t next_byte(struct line *line)
{
    const uint8_t byte = line->waiting[line->first];
    line->first = (uint16_t)((line->first + 1) % LINE_WAITING);
    line->count--;
    return byte;
}

/* Keeps the last bytes of a line, since only a greeting may have something before it. */
static void keep(struct line *line, uint8_t byte)
{
    if (line->length == LINE_REQUEST) {
        memmove(line->request, line->request + 1, LINE_REQUEST - 1);
        line->length--;
        line->is_longer = true;
    }
    line->request[line->length++] = (char)byte;
}

static bool ends_with(const struct line *line, uint8_t length, const char *words)
{
    const size_t size = strlen(words);
    return length >= size && memcmp(line->request + length - size, words, size) == 0;
}

/* How many digits stand at the end of a greeting of version 2 or 3; 0 where it is none. */
static uint8_t digits_of_greeting(const struct line *line, const char *greeting)
{
    uint8_t digits = 0;
    while (digits < line->length && line->request[line->length - 1 - digits] >= '0' &&
           line->request[line->length - 1 - digits] <= '9')
        digits++;
    if (digits > DIGITS_MOST || !ends_with(line, (uint8_t)(line->length - digits), greeting))
        return 0;
    return digits;
}

static bool answer_numbered(struct line *line, const char *greeting)
{
    const uint8_t digits = digits_of_greeting(line, greeting);
    if (!digits)
        return false;
    add_words(line, greeting);
    add_words(line, "hears ");
    add(line, line->request + line->length - digits, digits);
    return true;
}

static bool is_greeting(struct line *line)
{
    if (answer_numbered(line, THIRD_GREETING)) {
        line->version = 3;
    } else if (answer_numbered(line, GREETING)) {
        line->version = 2;
    } else if (ends_with(line, line->length, FIRST_GREETING)) {
        add_words(line, FIRST_GREETING);
        line->version = 1;
    } else {
        return false;
    }
    end_answer(line);
    return true;
}

static int digit(char sign)
{
    if (sign >= '0' && sign <= '9')
        return sign - '0';
    return sign >= 'A' && sign <= 'F' ? sign - 'A' + 10 : -1;
}

/* Whether the request is `send P HHHH` or `send P HHHHHH`. */
static bool is_send(const struct line *line, struct line_frame *frame)
{
    const uint8_t digits = (uint8_t)(line->length - 7);
    if ((line->length != 11 && line->length != 13) || memcmp(line->request, "send ", 5) != 0)
        return false;
    if (line->request[5] < '1' || line->request[5] > '5' || line->request[6] != ' ')
        return false;
    frame->priority = (uint8_t)(line->request[5] - '0');
    frame->bits = (uint8_t)(4 * digits);
    frame->frame = 0;
    for (uint8_t at = 7; at < line->length; at++) {
        const int value = digit(line->request[at]);
        if (value < 0)
            return false;
        frame->frame = frame->frame << 4 | (uint32_t)value;
    }
    return true;
}

static enum line_wish wish(struct line *line, struct line_frame *frame)
{
    if (is_greeting(line))
        return LINE_GREETED;
    line->is_asked = true;
    if (!line->is_longer && is_send(line, frame))
        return LINE_SEND;
    if (!line->is_longer && line->length == 4 && memcmp(line->request, "hear", 4) == 0)
        return LINE_HEAR;
    line_answer(line, "fault");
    return LINE_NOTHING;
}

enum line_wish line_next(struct line *line, struct line_frame *frame)
{
    while (!line->is_asked && line->answer_length == 0 && line->count > 0) {
        const uint8_t byte = next_byte(line);
        if (byte == LINE_FEED) {
            const enum line_wish wished = wish(line, frame);
            line->length = 0;
            line->is_longer = false;
            return wished;
        }
        keep(line, byte);
    }
    return LINE_NOTHING;
}
