/* What a board gives. Each function returns at once.
 *
 * A board also calls: interface_begin once; interface_tick 2400 times a second, from a timer; interface_edge at each
 * change of the pin, from its interrupt; interface_poll without end from its main loop. Neither of the two interrupts
 * may interrupt the other one. */
#ifndef BOARD_H
#define BOARD_H

#include <stdbool.h>
#include <stdint.h>

/* Makes the bus active (its wires are joined, the voltage is low), or leaves it alone. */
void board_set_active(bool is_active);

/* Whether the bus is active now, whoever makes it so; a bus without power reads as active. */
bool board_reads_active(void);

/* A count of microseconds that begins again at 0 behind 4294967295. */
uint32_t board_microseconds(void);

/* Keeps the two interrupts away, and lets them come again. */
void board_lock(void);
void board_unlock(void);

/* The serial port. Returns whether a byte had come, and whether there was room for one. */
bool board_take_byte(uint8_t *byte);
bool board_give_byte(uint8_t byte);

#endif
