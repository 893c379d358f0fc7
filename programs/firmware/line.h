/* The line of docs/LINES.md, version 3, as bytes in and bytes out. It knows no bus and no serial port.
 *
 *   line_take_byte    for each byte that the controller wrote
 *   line_next         the next request that something has to be done for
 *   line_answer, ..   what came of it
 *   line_say_event    an event of version 3, before an answer or where nobody asks
 *   line_give_byte    each byte that goes back to the controller
 *
 * A request is read once the one before it was answered and its answer was given away. Bytes wait until then. Where
 * more wait than the table has, the oldest go, so that a greeting behind them is still read. */
#ifndef LINE_H
#define LINE_H

#include <stdbool.h>
#include <stdint.h>

enum {
    LINE_WAITING = 256, /* bytes that wait */
    LINE_REQUEST = 30,  /* the bytes of the longest request, a greeting with 20 digits */
    LINE_ANSWER = 64    /* the bytes of the longest answer, with its line feed */
};

enum line_wish {
    LINE_NOTHING, /* no whole request, or one that the line answered itself */
    LINE_GREETED, /* the line answered it; the events that wait are to be forgotten */
    LINE_HEAR,    /* line_answer_event, or line_answer of "none"; in version 3 the second, behind all events */
    LINE_SEND     /* line_answer_byte, or line_answer of "quiet", "damaged", "lost" or "fault" */
};

struct line_frame {
    uint32_t frame;
    uint8_t bits;     /* 16 or 24 */
    uint8_t priority; /* 1 to 5 */
};

struct line {
    uint8_t waiting[LINE_WAITING];
    uint16_t first, count;
    char request[LINE_REQUEST]; /* the last bytes of the line that is being read */
    uint8_t length;
    bool is_longer; /* than `request`: it is a greeting at its end, or nothing */
    char answer[LINE_ANSWER];
    uint8_t answer_length, given;
    bool is_asked; /* a wish was handed out, and its answer is still to come */
    uint8_t version; /* of the last greeting; 0 where nobody has greeted */
};

void line_begin(struct line *line);
void line_take_byte(struct line *line, uint8_t byte);
enum line_wish line_next(struct line *line, struct line_frame *frame);
void line_answer(struct line *line, const char *words);
void line_answer_byte(struct line *line, uint8_t byte);
void line_answer_event(struct line *line, uint32_t frame);

/* Whether an event may be said now by itself: the line was greeted in version 3, and no other line is being given. */
bool line_may_say_event(const struct line *line);
void line_say_event(struct line *line, uint32_t frame);

/* The next byte of an answer, or false where there is none. It is given once line_byte_is_given says so. */
bool line_give_byte(const struct line *line, uint8_t *byte);
void line_byte_is_given(struct line *line);

#endif
