/* Part of cobalnis.h: statuses, the bits of a number, and what the typed functions
 * share. */
#ifndef COBALNIS_STATUS_H
#define COBALNIS_STATUS_H

#include "raw.h"
#include <assert.h>
#include <string.h>

#ifdef __cplusplus
extern "C" {
#endif

static_assert(sizeof(double) == 8 && sizeof(size_t) == 8, "a word has 8 bytes");

/* Whether the archive is the one that this header is for. Ask once at the start:
 * with another one, any call may read and write past what it is lent. */
static inline bool cobalnis_fits_header(void)
{
    return cobalnis_version() == COBALNIS_VERSION && cobalnis_layout() == COBALNIS_LAYOUT;
}

/* The refusal's number, COBALNIS_OK where there is none. */
static inline uint32_t cobalnis_number(uint32_t status)
{
    return status & 255u;
}

/* Refusal 1's code, else 0. */
static inline uint32_t cobalnis_code(uint32_t status)
{
    return status >> 8;
}

/* What a status says, in the words of the table in README.md. */
static inline const char *cobalnis_message(uint32_t status)
{
    if (status == COBALNIS_NO_SUCH)
        return "a number that names no formula, shape, nose or quantity";
    switch (cobalnis_number(status)) {
    case COBALNIS_OK:
        return "accepted";
    case COBALNIS_DOMAIN:
        return "a number that no formula takes";
    case COBALNIS_OGIVE_RATIO:
        return "an ogive's radius ratio is not a finite number of at least 1";
    case COBALNIS_HAACK_ABOVE:
        return "a Haack parameter is above 1/3";
    case COBALNIS_ENDED:
        return "the card is cut short";
    case COBALNIS_RESERVED:
        return "a bit or a shape that no card has";
    case COBALNIS_FIELD:
        return "the reference diameter or the body fineness is missing, a shape parameter is "
               "missing "
               "or not wanted, or the roughness is given twice, alone and by finish";
    case COBALNIS_MANY_COLUMNS:
        return "more than 32 columns";
    case COBALNIS_NO_PLACE:
        return "no such place in the design, no such column, or no such point of a nose";
    case COBALNIS_MANY_PARTS:
        return "a 17th part";
    case COBALNIS_FEW_CELLS:
        return "too few cells or marks were lent, or more than 256 Mach numbers asked in one walk";
    case COBALNIS_HOUSE_INTERVAL:
        return "a size outside what the clubs allow: D in 0.001 to 100, roughness 0 to 1 (a part's "
               "own "
               "too), L and d 0 to 100, w 0 to 10000; a nozzle diameter 0 to 100";
    case COBALNIS_FALLING_MACH:
        return "a Mach number of a walk is below the one before";
    case COBALNIS_FINISH_COUNT:
        return "no finish, or more than 4";
    default:
        return "no status of this library";
    }
}

/* The number of these bits. */
static inline double cobalnis_double(uint64_t bits)
{
    double x;
    memcpy(&x, &bits, sizeof x);
    return x;
}

/* The bits of a number, 7ff8000000000000 for every NaN: so a cell is handed
 * out. */
static inline uint64_t cobalnis_bits(double x)
{
    uint64_t bits;
    memcpy(&bits, &x, sizeof bits);
    return cobalnis_classify(bits) == COBALNIS_CLASS_NAN ? 0x7ff8000000000000u : bits;
}

/* A status, with the value for whoever asked for it. */
static inline uint32_t cobalnis_detail_answer(uint32_t status, uint64_t bits, double *value)
{
    if (value != NULL && status != COBALNIS_NO_SUCH)
        *value = cobalnis_double(bits);
    return status;
}

/* The library is compiled apart and sees memory, not types: a struct is its
 * words there, a double its bits. */
static inline uint64_t *cobalnis_detail_words_of(void *memory)
{
    return (uint64_t *)memory;
}

#ifdef __cplusplus
}
#endif

#endif
