/* What a room does in a step with its loans and the token: lend, settle, serve, pass. Each rule stands as a
   comment at its function. x is the acting room; the ones that give a number give 0, or 10 where a link
   number above 4294967295 is needed, and then leave a table that is of no more use. */
#ifndef LENDING_H
#define LENDING_H

#include "table.h"

/* The entry for y becomes mode with link, or none with zero. */
void set_entry(struct room *r, uint8_t y, uint8_t mode, uint32_t link);

/* The lender is nobody, credit none, the link number zero. */
void no_lender(struct room *r);

/* The room holds the mode and wants none. */
void hold(struct room *r, uint8_t mode);

/* The room's lender is sent REDUCE to mode under the room's link number. */
void reduce(struct table *t, uint8_t x, uint8_t mode);

int lend(struct table *t, uint8_t x, uint8_t y, uint8_t mode);

/* Without the token. */
void settle(struct table *t, uint8_t x);

/* With the token. */
int serve(struct table *t, uint8_t x);

int settle_or_serve(struct table *t, uint8_t x);

#endif
