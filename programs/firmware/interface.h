/* An interface of the line on a board: joins line.h and wave.h by what board.h gives. */
#ifndef INTERFACE_H
#define INTERFACE_H

void interface_begin(void);
void interface_tick(void);
void interface_edge(void);
void interface_poll(void);

#endif
