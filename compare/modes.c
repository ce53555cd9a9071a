#include "modes.h"

/* "The table of conflicts is constant and symmetric." */
static const uint8_t conflict[MODES][MODES] = {
    {0, 0, 0, 0, 0, 0}, /* none */
    {0, 0, 0, 0, 0, 1}, /* IR */
    {0, 0, 0, 0, 1, 1}, /* R */
    {0, 0, 0, 1, 1, 1}, /* U */
    {0, 0, 1, 1, 0, 1}, /* IW */
    {0, 1, 1, 1, 1, 1}, /* W */
};

int agree(uint8_t a, uint8_t b) { return !conflict[a][b]; }

int can_lend(uint8_t a, uint8_t m) { return m != NONE && m <= a && agree(a, m); }
