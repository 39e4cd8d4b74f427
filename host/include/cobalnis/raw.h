/* Part of cobalnis.h: the functions of the archive, on numbers, bytes and words. Those
 * whose names end in _raw have a typed function beside them; a program that calls
 * the typed ones never counts words. */
#ifndef COBALNIS_RAW_H
#define COBALNIS_RAW_H

#include "numbers.h"
#include <stdbool.h>
#include <stddef.h>
#include <stdint.h>

#ifdef __cplusplus
extern "C" {
#endif

/* The archive's COBALNIS_VERSION and COBALNIS_LAYOUT; cobalnis_fits_header tests
 * both. */
uint32_t cobalnis_version(void);
uint32_t cobalnis_layout(void);

/* The formula of a number, COBALNIS_FORMULA_..; bits: its value, or the value
 * refused. Arguments that it has no use for are not looked at. */
uint32_t cobalnis_formula_raw(uint32_t which, double a, double b, double c, double d, double e,
                              uint64_t *bits);

/* Passes a finite value above 0, and a zero where allowed. */
uint32_t cobalnis_check_dimension_raw(uint32_t what, double value, bool allow_zero, uint64_t *bits);

/* Whether a shape takes any of the closed form for cones; takes: 1 yes, 0 no. */
uint32_t cobalnis_takes_cone_formula_raw(uint64_t shape, double parameter, uint64_t *takes);

/* The class of a double's bits, COBALNIS_CLASS_..; any 64 bits have one. */
uint32_t cobalnis_classify(uint64_t bits);

/* Mach number and drag of a nose's measured point. */
uint32_t cobalnis_nose_point_raw(uint32_t nose, size_t place, uint64_t out[2]);

/* Value and slope in a nose's table, the table's first Mach number, and 1 where
 * mach is above its last one, else 0. */
uint32_t cobalnis_nose_lookup_raw(uint32_t nose, double mach, uint64_t out[4]);

/* A nose's value at each of n Mach numbers, up to COBALNIS_QUERIES, each at or
 * above the one before, in one walk along the table: each is the value that
 * cobalnis_nose_lookup_raw gives. Of the m cells only the first n are written.
 * compared: how many times a Mach number was set against a point, at most n
 * plus the table's points. Refused: cells and compared are untouched, and bits
 * is the value refused. */
uint32_t cobalnis_nose_walk_raw(uint32_t nose, const double *machs, size_t n, double *values,
                                size_t m, size_t *compared, uint64_t *bits);

/* Builds a curve and answers its coefficient at each Mach number, and its mark;
 * about: the value refused, the drag at rest, the transonic lower bound.
 * Refused: out and marks are untouched. */
uint32_t cobalnis_curve_raw(uint64_t shape, double parameter, double fineness_ratio,
                            double joint_angle, const double *machs, size_t n, uint64_t *out,
                            size_t m, uint8_t *marks, size_t mark_count, uint64_t about[3]);

/* The sheet's calls. Accepted: the words are the sheet handed back. Refused:
 * words, cells and marks are untouched, and bits is the value refused. A mark
 * is written only when its cell is. Open looks at the settings' words only,
 * empties the design and starts coasting. Ignite takes the nozzle diameter,
 * from 0 to 100, and burnout puts it back to 0: these two write the base row
 * and the total rows and no other. */
uint32_t cobalnis_open_raw(uint64_t sheet[COBALNIS_SHEET_WORDS], double *cells, size_t cell_count,
                           uint8_t *marks, size_t mark_count, uint64_t *bits);
uint32_t cobalnis_insert_raw(uint64_t sheet[COBALNIS_SHEET_WORDS], size_t place,
                             const uint64_t part[COBALNIS_PART_WORDS], double *cells,
                             size_t cell_count, uint8_t *marks, size_t mark_count, uint64_t *bits);
uint32_t cobalnis_replace_raw(uint64_t sheet[COBALNIS_SHEET_WORDS], size_t place,
                              const uint64_t part[COBALNIS_PART_WORDS], double *cells,
                              size_t cell_count, uint8_t *marks, size_t mark_count, uint64_t *bits);
uint32_t cobalnis_remove_raw(uint64_t sheet[COBALNIS_SHEET_WORDS], size_t place, double *cells,
                             size_t cell_count, uint8_t *marks, size_t mark_count, uint64_t *bits);
uint32_t cobalnis_set_column_raw(uint64_t sheet[COBALNIS_SHEET_WORDS], size_t column, double mach,
                                 double reynolds, double *cells, size_t cell_count, uint8_t *marks,
                                 size_t mark_count, uint64_t *bits);

uint32_t cobalnis_ignite_raw(uint64_t sheet[COBALNIS_SHEET_WORDS], double nozzle_diameter,
                             double *cells, size_t cell_count, uint8_t *marks, size_t mark_count,
                             uint64_t *bits);
uint32_t cobalnis_burnout_raw(uint64_t sheet[COBALNIS_SHEET_WORDS], double *cells,
                              size_t cell_count, uint8_t *marks, size_t mark_count, uint64_t *bits);

/* Reads a card from the byte `at` on; next: where it ends. A settings card
 * fills the words of a sheet's settings. Where no byte is left there is no
 * card: COBALNIS_ENDED. Refused: nothing is written. */
uint32_t cobalnis_read_settings_raw(const uint8_t *bytes, size_t n, size_t at,
                                    uint64_t sheet[COBALNIS_SHEET_WORDS], size_t *next);
uint32_t cobalnis_read_part_raw(const uint8_t *bytes, size_t n, size_t at,
                                uint64_t part[COBALNIS_PART_WORDS], size_t *next);

/* What the program `sheet` prints for these bytes, a `+` right after each
 * marked cell, and how many bytes that is; 0 where out has fewer than
 * COBALNIS_LONGEST_TEXT. No bytes (n = 0, the pointer as always not null) print
 * the names of a sheet with no columns and no parts. */
size_t cobalnis_print(const uint8_t *bytes, size_t n, uint8_t *out, size_t m);

#ifdef __cplusplus
}
#endif

#endif
