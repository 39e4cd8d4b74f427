/* The drag of a model rocket's noses, skin and base, and the sheet that adds
 * them: the C interface of libcobalnis.a (`tools/build.sh cobalnis`), for
 * C11 and C++11.
 *
 * A program includes this file, tests cobalnis_fits_header() once at its start,
 * and calls the typed functions. The archive's own functions are on words; their
 * names end in _raw. Names that begin with cobalnis_detail_ are of this header
 * alone and may change.
 *
 * Answers. A function answers a status: COBALNIS_OK, else the refusal's number
 * plus 256 times the code of refusal 1 (cobalnis_number, cobalnis_code,
 * cobalnis_message); COBALNIS_NO_SUCH is for a number that names no formula, shape,
 * nose or quantity, and then nothing is written. The functions that can't be
 * refused answer what they are named for. No function asks anything of its
 * numbers: every input has an answer, and a refused call leaves sheet, cells and
 * marks as they were.
 *
 * Memory. No two of the memory areas passed to one call may overlap, and no
 * pointer may be null or unaligned (an empty area has any aligned pointer), but
 * for the `value`, `beyond` and `compared` of the typed functions, which may be
 * null. The library allocates nothing and keeps nothing: what a call knows is in
 * what it is passed.
 *
 * Threads. Calls may run on any number of threads at once, so long as no call
 * writes memory that another one is passed. There is nothing to initialise and no
 * lock.
 *
 * Platforms. The archive is for Linux on x86-64, version 2 of it (SSE4.2) and
 * later; a word, a size_t and a pointer have 8 bytes. It reckons in the processor's default mode: rounding to
 * nearest, subnormals kept. A program that changes the mode, or is linked with
 * -ffast-math, which makes subnormals 0 at its start, gets other numbers.
 *
 * NaN. Any NaN is taken. Floats are handed out by their bits, 7ff8000000000000
 * for every NaN; only the cells of a sheet are written as doubles, and a NaN's
 * bits are any there: ask cobalnis_bits for them.
 *
 * A mark is a byte, 0 or 1. A curve's mark at a Mach number is 1 where any of
 * Stoney's tables that was read for its coefficient there, with whatever
 * weight, was asked above its last Mach number, so that its last drag was held.
 * Beside the cells of a sheet lie as many marks. A part that widens has its
 * curve's; the other parts, friction and base have 0; a total has 1 where a
 * part's mark of its column, as it lies there, isn't 0. */
#ifndef COBALNIS_H
#define COBALNIS_H

#include "cobalnis/numbers.h"
#include "cobalnis/raw.h"
#include "cobalnis/status.h"
#include "cobalnis/formulas.h"
#include "cobalnis/curves.h"
#include "cobalnis/sheet.h"

#endif
