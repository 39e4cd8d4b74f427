/* Part of cobalnis.h: the sheet as structs that lie in memory as its words do, its
 * calls, its rows, and cards. */
#ifndef COBALNIS_SHEET_H
#define COBALNIS_SHEET_H

#include "status.h"

#ifdef __cplusplus
extern "C" {
#endif

/* Where own_roughness is 0, roughness is not looked at; any other number makes
 * it the part's own in every finish. Handed back: 0 and 0, or 1 and the part's
 * own. */
typedef struct {
    uint64_t shape;
    double parameter; /* 0 for a conical and an elliptical one */
    double length;
    double aft_diameter;
    double joint_angle;
    double wetted_ratio;
    uint64_t own_roughness; /* 0: the settings' roughness */
    double roughness;
} cobalnis_part;

/* The finishes are as many roughnesses, each with a friction row and a total
 * row; those past them are not looked at. */
typedef struct {
    double reference_diameter;
    uint64_t finishes; /* 1 to COBALNIS_FINISHES */
    double roughnesses[COBALNIS_FINISHES];
    double body_fineness;
    uint64_t columns;
    double mach[COBALNIS_COLUMNS];
    double reynolds[COBALNIS_COLUMNS];
    double nozzle_diameter; /* 0 when coasting */
    uint64_t parts;
    cobalnis_part part[COBALNIS_PLACES];
} cobalnis_sheet;

static_assert(sizeof(cobalnis_part) == 8 * COBALNIS_PART_WORDS, "a part's words");
static_assert(offsetof(cobalnis_part, wetted_ratio) == 8 * 5, "the wetted ratio");
static_assert(offsetof(cobalnis_part, own_roughness) == 8 * 6, "its own roughness or not");
static_assert(offsetof(cobalnis_part, roughness) == 8 * 7, "the last word of a part");
static_assert(sizeof(cobalnis_sheet) == 8 * COBALNIS_SHEET_WORDS, "a sheet's words");
static_assert(offsetof(cobalnis_sheet, finishes) == 8 * COBALNIS_FINISHES_AT, "finishes");
static_assert(offsetof(cobalnis_sheet, roughnesses) == 8 * COBALNIS_ROUGHNESSES_AT, "roughnesses");
static_assert(offsetof(cobalnis_sheet, body_fineness) == 8 * COBALNIS_FINENESS_AT, "the fineness");
static_assert(offsetof(cobalnis_sheet, columns) == 8 * COBALNIS_COLUMNS_AT, "how many columns");
static_assert(offsetof(cobalnis_sheet, mach) == 8 * COBALNIS_MACHS_AT, "Machs");
static_assert(offsetof(cobalnis_sheet, reynolds) == 8 * COBALNIS_REYNOLDS_AT, "Reynolds numbers");
static_assert(offsetof(cobalnis_sheet, nozzle_diameter) == 8 * COBALNIS_NOZZLE_AT, "the nozzle");
static_assert(offsetof(cobalnis_sheet, parts) == 8 * COBALNIS_PARTS_AT, "the number of parts");
static_assert(offsetof(cobalnis_sheet, part) == 8 * COBALNIS_FIRST_PART, "the parts");

/* ---- the sheet; value is the value refused */

static inline uint32_t cobalnis_sheet_open(cobalnis_sheet *sheet, double *cells, size_t cell_count,
                                           uint8_t *marks, size_t mark_count, double *value)
{
    uint64_t bits = 0;
    uint32_t status = cobalnis_open_raw(cobalnis_detail_words_of(sheet), cells, cell_count, marks,
                                        mark_count, &bits);
    return cobalnis_detail_answer(status, bits, value);
}

static inline uint32_t cobalnis_sheet_insert(cobalnis_sheet *sheet, size_t place,
                                             cobalnis_part part, double *cells, size_t cell_count,
                                             uint8_t *marks, size_t mark_count, double *value)
{
    uint64_t bits = 0;
    uint32_t status =
        cobalnis_insert_raw(cobalnis_detail_words_of(sheet), place, cobalnis_detail_words_of(&part),
                            cells, cell_count, marks, mark_count, &bits);
    return cobalnis_detail_answer(status, bits, value);
}

static inline uint32_t cobalnis_sheet_replace(cobalnis_sheet *sheet, size_t place,
                                              cobalnis_part part, double *cells, size_t cell_count,
                                              uint8_t *marks, size_t mark_count, double *value)
{
    uint64_t bits = 0;
    uint32_t status = cobalnis_replace_raw(cobalnis_detail_words_of(sheet), place,
                                           cobalnis_detail_words_of(&part), cells, cell_count,
                                           marks, mark_count, &bits);
    return cobalnis_detail_answer(status, bits, value);
}

static inline uint32_t cobalnis_sheet_remove(cobalnis_sheet *sheet, size_t place, double *cells,
                                             size_t cell_count, uint8_t *marks, size_t mark_count,
                                             double *value)
{
    uint64_t bits = 0;
    uint32_t status = cobalnis_remove_raw(cobalnis_detail_words_of(sheet), place, cells, cell_count,
                                          marks, mark_count, &bits);
    return cobalnis_detail_answer(status, bits, value);
}

static inline uint32_t cobalnis_sheet_set_column(cobalnis_sheet *sheet, size_t column, double mach,
                                                 double reynolds, double *cells, size_t cell_count,
                                                 uint8_t *marks, size_t mark_count, double *value)
{
    uint64_t bits = 0;
    uint32_t status =
        cobalnis_set_column_raw(cobalnis_detail_words_of(sheet), column, mach, reynolds, cells,
                                cell_count, marks, mark_count, &bits);
    return cobalnis_detail_answer(status, bits, value);
}

static inline uint32_t cobalnis_sheet_ignite(cobalnis_sheet *sheet, double nozzle_diameter,
                                             double *cells, size_t cell_count, uint8_t *marks,
                                             size_t mark_count, double *value)
{
    uint64_t bits = 0;
    uint32_t status = cobalnis_ignite_raw(cobalnis_detail_words_of(sheet), nozzle_diameter, cells,
                                          cell_count, marks, mark_count, &bits);
    return cobalnis_detail_answer(status, bits, value);
}

static inline uint32_t cobalnis_sheet_burnout(cobalnis_sheet *sheet, double *cells,
                                              size_t cell_count, uint8_t *marks, size_t mark_count,
                                              double *value)
{
    uint64_t bits = 0;
    uint32_t status = cobalnis_burnout_raw(cobalnis_detail_words_of(sheet), cells, cell_count,
                                           marks, mark_count, &bits);
    return cobalnis_detail_answer(status, bits, value);
}

/* ---- rows of cells, one cell a column, and of marks
 *
 * First a row for each place, then the friction rows, one a finish, the base,
 * the total rows, one a finish. A place is to be below COBALNIS_PLACES, a finish
 * below the sheet's finishes. */

/* The rows and the cells that a sheet of these finishes and columns needs; it
 * needs as many marks. */
static inline size_t cobalnis_sheet_rows(const cobalnis_sheet *sheet)
{
    return COBALNIS_PLACES + 1 + 2 * (size_t)sheet->finishes;
}

static inline size_t cobalnis_sheet_cells(const cobalnis_sheet *sheet)
{
    return cobalnis_sheet_rows(sheet) * (size_t)sheet->columns;
}

/* Where the base row and a finish's total row stand. */
static inline size_t cobalnis_detail_base_row(const cobalnis_sheet *sheet)
{
    return COBALNIS_PLACES + (size_t)sheet->finishes;
}

static inline size_t cobalnis_detail_total_row(const cobalnis_sheet *sheet, size_t finish)
{
    return cobalnis_detail_base_row(sheet) + 1 + finish;
}

/* The cells of a row by its number. */
static inline const double *cobalnis_sheet_row(const cobalnis_sheet *sheet, size_t row,
                                               const double *cells)
{
    return cells + row * (size_t)sheet->columns;
}

/* Pressure drag of the part at a place. */
static inline const double *cobalnis_sheet_part_row(const cobalnis_sheet *sheet, size_t place,
                                                    const double *cells)
{
    return cobalnis_sheet_row(sheet, place, cells);
}

/* Skin friction of the whole body in a finish, the first being 0. */
static inline const double *cobalnis_sheet_friction(const cobalnis_sheet *sheet, size_t finish,
                                                    const double *cells)
{
    return cobalnis_sheet_row(sheet, COBALNIS_PLACES + finish, cells);
}

/* Drag of the blunt end, less what the nozzle fills of it. */
static inline const double *cobalnis_sheet_base(const cobalnis_sheet *sheet, const double *cells)
{
    return cobalnis_sheet_row(sheet, cobalnis_detail_base_row(sheet), cells);
}

/* All part rows, a finish's friction, and the base. */
static inline const double *cobalnis_sheet_total(const cobalnis_sheet *sheet, size_t finish,
                                                 const double *cells)
{
    return cobalnis_sheet_row(sheet, cobalnis_detail_total_row(sheet, finish), cells);
}

/* The marks of a row by its number, and of the rows that have any: a part's,
 * and the totals', which are the same in every finish. */
static inline const uint8_t *cobalnis_sheet_row_marks(const cobalnis_sheet *sheet, size_t row,
                                                      const uint8_t *marks)
{
    return marks + row * (size_t)sheet->columns;
}

static inline const uint8_t *cobalnis_sheet_part_marks(const cobalnis_sheet *sheet, size_t place,
                                                       const uint8_t *marks)
{
    return cobalnis_sheet_row_marks(sheet, place, marks);
}

static inline const uint8_t *cobalnis_sheet_total_marks(const cobalnis_sheet *sheet, size_t finish,
                                                        const uint8_t *marks)
{
    return cobalnis_sheet_row_marks(sheet, cobalnis_detail_total_row(sheet, finish), marks);
}

/* ---- cards */

/* Settings into a sheet, which is then to be opened. */
static inline uint32_t cobalnis_sheet_read_settings(const uint8_t *bytes, size_t n, size_t at,
                                                    cobalnis_sheet *sheet, size_t *next)
{
    return cobalnis_read_settings_raw(bytes, n, at, cobalnis_detail_words_of(sheet), next);
}

static inline uint32_t cobalnis_part_read(const uint8_t *bytes, size_t n, size_t at,
                                          cobalnis_part *part, size_t *next)
{
    return cobalnis_read_part_raw(bytes, n, at, cobalnis_detail_words_of(part), next);
}

#ifdef __cplusplus
}
#endif

#endif
