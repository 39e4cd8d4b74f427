/* What the tests in C share. */
#ifndef CHECK_H
#define CHECK_H

#include "cobalnis.h"

#include <math.h>
#include <stdio.h>

extern int failures;

#define CHECK(what)                                                   \
    do {                                                              \
        if (!(what)) {                                                \
            printf("%s:%d: not so: %s\n", __FILE__, __LINE__, #what); \
            failures++;                                               \
        }                                                             \
    } while (0)

/* Refusal 1 of this code. */
#define DOMAIN_OF(code) (COBALNIS_DOMAIN + 256u * (code))

static const uint64_t SHOWN_NAN = 0x7ff8000000000000u;

/* What a call is lent of the arrays `cells` and `marks`: so many of either. */
#define LENT(count) cells, (count), marks, (count)

/* The rows of a sheet of one finish. */
enum { FRICTION = COBALNIS_PLACES, BASE, TOTAL, ROWS };

/* The part of docs/REFERENCE.md, Example. */
static const cobalnis_part FACE = {.shape = COBALNIS_CONICAL, .aft_diameter = 1};

/* The tests of sheets.c, burning.c, finishes.c and marks.c. */
void sheets_and_cards(void);
void burning(void);
void finishes(void);
void marked_sheets(void);

#endif
