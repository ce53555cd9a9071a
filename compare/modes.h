/* The modes: their codes, which of them agree, and which can lend which. */
#ifndef MODES_H
#define MODES_H

#include <stdint.h>

/* "Stronger" means the larger code. */
enum { NONE, IR, R, U, IW, W, MODES };

/* Whether a and b, both codes of 0 to 5, do not conflict. None agrees with all. */
int agree(uint8_t a, uint8_t b);

/* Whether a can lend m: "a and m agree and m is not stronger than a", m from 1 to 5. */
int can_lend(uint8_t a, uint8_t m);

#endif
