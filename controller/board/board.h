/* What a program of examples/ wants of the board. mps2.c and virt.c have it for the emulated ones; yours has it for your own. */
#ifndef BOARD_H
#define BOARD_H

#include <stdint.h>

#define BOARD_INPUT_BYTES 8u

/* Milliseconds since the start, which go on from 0xFFFFFFFF to 0. */
uint32_t board_milliseconds(void);

/* The 64 inputs as the card delivers them: eight bits to a byte, the lowest first. */
void board_read_inputs(uint8_t inputs[BOARD_INPUT_BYTES]);

/* A text to the service port. */
void board_write(const char *text);

/* Ends the emulation; a box in the field would start again. */
void board_end(int status);

#endif
