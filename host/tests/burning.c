/* Ignite and burnout, accepted and refused: which rows they write, and that
 * edits keep the nozzle. */
#include "check.h"

enum { PAIR = 2, PAIR_CELLS = ROWS * PAIR };

/* A flat face of diameter 1 and a boattail down to 0.5, at rest and at Mach 1. */
static cobalnis_sheet boattailed(double *cells, uint8_t *marks)
{
    cobalnis_sheet sheet = {.reference_diameter = 1, .finishes = 1, .body_fineness = 10,
                            .columns = PAIR, .mach = {0, 1}, .reynolds = {1e6, 3e6},
                            .nozzle_diameter = NAN};
    const cobalnis_part tail = {.length = 1, .aft_diameter = 0.5, .wetted_ratio = 2};
    CHECK(cobalnis_sheet_open(&sheet, LENT(PAIR_CELLS), NULL) == 0);
    CHECK(cobalnis_bits(sheet.nozzle_diameter) == 0);
    CHECK(cobalnis_sheet_insert(&sheet, 0, FACE, LENT(PAIR_CELLS), NULL) == 0);
    CHECK(cobalnis_sheet_insert(&sheet, 1, tail, LENT(PAIR_CELLS), NULL) == 0);
    return sheet;
}

/* The rows before the base are as they were, the base is that of this area,
 * and the total adds them all. */
static void has_base(const double *cells, const double *before, double area)
{
    static const double DRAG[PAIR] = {0.12, 0.25};
    CHECK(memcmp(cells, before, BASE * PAIR * sizeof *cells) == 0);
    for (size_t i = 0; i < PAIR; i++) {
        double total = 0;
        for (size_t row = 0; row < TOTAL; row++)
            total += cells[row * PAIR + i];
        CHECK(cobalnis_bits(cells[BASE * PAIR + i]) == cobalnis_bits(DRAG[i] * area));
        CHECK(cells[TOTAL * PAIR + i] == total);
    }
}

/* Below the last diameter, at it, above it; -0 passes and is handed back. */
static void ignited_and_burnt_out(void)
{
    double cells[PAIR_CELLS], coasting[PAIR_CELLS], x = 7;
    uint8_t marks[PAIR_CELLS];
    cobalnis_sheet sheet = boattailed(cells, marks);
    memcpy(coasting, cells, sizeof cells);
    has_base(cells, coasting, 0.25);
    CHECK(cobalnis_sheet_ignite(&sheet, 0.25, LENT(PAIR_CELLS), &x) == 0);
    CHECK(sheet.nozzle_diameter == 0.25 && sheet.parts == 2);
    has_base(cells, coasting, 0.1875);
    CHECK(cobalnis_sheet_ignite(&sheet, 0.5, LENT(PAIR_CELLS), &x) == 0);
    has_base(cells, coasting, 0);
    CHECK(cobalnis_sheet_ignite(&sheet, 100, LENT(PAIR_CELLS), &x) == 0);
    has_base(cells, coasting, 0);
    CHECK(cobalnis_sheet_burnout(&sheet, LENT(PAIR_CELLS), &x) == 0);
    CHECK(cobalnis_bits(sheet.nozzle_diameter) == 0 && sheet.parts == 2);
    CHECK(memcmp(cells, coasting, sizeof cells) == 0);
    CHECK(cobalnis_sheet_ignite(&sheet, -0.0, LENT(PAIR_CELLS), &x) == 0);
    CHECK(cobalnis_bits(sheet.nozzle_diameter) == 0x8000000000000000u);
    CHECK(memcmp(cells, coasting, sizeof cells) == 0);

    /* The cells that are there are added, whoever wrote them. */
    cells[7 * PAIR] = coasting[7 * PAIR] = 3;
    cells[FRICTION * PAIR + 1] = coasting[FRICTION * PAIR + 1] = -2;
    CHECK(cobalnis_sheet_ignite(&sheet, 0.25, LENT(PAIR_CELLS), &x) == 0);
    has_base(cells, coasting, 0.1875);
}

/* The nozzle stays through edits; without a part it leaves no base. */
static void edits_while_burning(void)
{
    double cells[PAIR_CELLS], coasting[PAIR_CELLS], x = 7;
    uint8_t marks[PAIR_CELLS];
    cobalnis_sheet sheet = boattailed(cells, marks);
    const cobalnis_part tail = sheet.part[1];
    memcpy(coasting, cells, sizeof cells);
    CHECK(cobalnis_sheet_ignite(&sheet, 0.25, LENT(PAIR_CELLS), &x) == 0);
    CHECK(cobalnis_sheet_remove(&sheet, 1, LENT(PAIR_CELLS), &x) == 0);
    has_base(cells, cells, 0.9375);
    CHECK(cobalnis_sheet_remove(&sheet, 0, LENT(PAIR_CELLS), &x) == 0);
    has_base(cells, cells, 0);
    CHECK(cobalnis_sheet_insert(&sheet, 0, tail, LENT(PAIR_CELLS), &x) == 0);
    CHECK(cobalnis_sheet_insert(&sheet, 1, tail, LENT(PAIR_CELLS), &x) == 0);
    CHECK(cobalnis_sheet_set_column(&sheet, 0, 0, 1e6, LENT(PAIR_CELLS), &x) == 0);
    has_base(cells, cells, 0.1875);
    CHECK(cobalnis_sheet_replace(&sheet, 0, FACE, LENT(PAIR_CELLS), &x) == 0);
    has_base(cells, coasting, 0.1875);
    CHECK(sheet.nozzle_diameter == 0.25);
    CHECK(cobalnis_sheet_burnout(&sheet, LENT(PAIR_CELLS), &x) == 0);
    CHECK(memcmp(cells, coasting, sizeof cells) == 0);
}

/* Outside [0, 100]: refused in the diameter given and in the one held. */
static void burning_refused(void)
{
    static const double BAD[] = {NAN, -1, -5e-324, 100.0000001, INFINITY};
    double cells[PAIR_CELLS], kept[PAIR_CELLS], x = 7;
    uint8_t marks[PAIR_CELLS];
    cobalnis_sheet sheet = boattailed(cells, marks);
    CHECK(cobalnis_sheet_ignite(&sheet, 0.25, LENT(PAIR_CELLS), &x) == 0);
    const cobalnis_sheet whole = sheet;
    memcpy(kept, cells, sizeof cells);
    for (size_t i = 0; i < sizeof BAD / sizeof BAD[0]; i++) {
        CHECK(cobalnis_sheet_ignite(&sheet, BAD[i], LENT(PAIR_CELLS), &x) ==
              COBALNIS_HOUSE_INTERVAL);
        CHECK(x == 0 && memcmp(&sheet, &whole, sizeof sheet) == 0);
        sheet.nozzle_diameter = BAD[i];
        sheet.parts = 17;
        const cobalnis_sheet broken = sheet;
        CHECK(cobalnis_sheet_ignite(&sheet, 0, LENT(PAIR_CELLS), &x) == COBALNIS_HOUSE_INTERVAL);
        CHECK(cobalnis_sheet_burnout(&sheet, LENT(PAIR_CELLS), &x) == COBALNIS_HOUSE_INTERVAL);
        CHECK(cobalnis_sheet_remove(&sheet, 9, LENT(PAIR_CELLS), &x) == COBALNIS_HOUSE_INTERVAL);
        CHECK(cobalnis_sheet_burnout(&sheet, LENT(PAIR_CELLS - 1), &x) == COBALNIS_FEW_CELLS);
        CHECK(memcmp(&sheet, &broken, sizeof sheet) == 0);
        sheet = whole;
        sheet.parts = 17;
        CHECK(cobalnis_sheet_ignite(&sheet, BAD[i], LENT(PAIR_CELLS), &x) == COBALNIS_MANY_PARTS);
        CHECK(cobalnis_sheet_burnout(&sheet, LENT(PAIR_CELLS), &x) == COBALNIS_MANY_PARTS);
        sheet = whole;
    }
    sheet.part[15].shape = 6;
    CHECK(cobalnis_sheet_ignite(&sheet, NAN, LENT(0), &x) == COBALNIS_RESERVED);
    CHECK(cobalnis_sheet_burnout(&sheet, LENT(0), &x) == COBALNIS_RESERVED);
    CHECK(memcmp(cells, kept, sizeof cells) == 0);
}

void burning(void)
{
    ignited_and_burnt_out();
    edits_while_burning();
    burning_refused();
}
