/* The times of the bus in microseconds, after IEC 62386-101, as far as the writer of this sketch knows them.
 *
 * A time between two frames is counted from the last edge of the first one. Some count it from the end of the last bit,
 * which is up to half a bit later. The settling times below are in the range of their priority by either count, with
 * the half bit that passes at most until the timer calls. */
#ifndef TIMES_H
#define TIMES_H

enum {
    /* A timer calls 2400 times a second, each 416.67 microseconds. */
    HALF_BITS_A_SECOND = 2400,

    /* What a receiver takes for one half bit and for two; between and beyond them a frame is damaged. */
    HALF_BIT_LEAST = 333,
    HALF_BIT_MOST = 500,
    DOUBLE_HALF_BIT_LEAST = 666,
    DOUBLE_HALF_BIT_MOST = 1000,

    /* A bus that is idle for so long has ended its frame. */
    STOP = 2400,

    /* A backward frame begins within this time; 12.4 ms, and the half bit of the other count. */
    BACKWARD_MOST = 12817,

    /* A bus that is active for so long has no power. */
    POWERLESS = 45000,

    /* So long a frame waits for a free bus (docs/LINES.md), and no frame of others takes longer. */
    WAIT_MOST = 200000,
    FRAME_MOST = 100000,

    /* Times since the last edge are known up to here. */
    LONG_AGO = 1000000
};

#endif
