/* Marks beside the cells: noses below, at and above the end of their tables,
 * marks that somebody else wrote, too few of them, and refused calls. */
#include "check.h"

#include <inttypes.h>

enum { TWO = 2, CELLS = ROWS * TWO };

/* Its tables, power 1/4 and power 1/2, end at Mach 3.587 and 1.941. */
static const cobalnis_part POWER = {.shape = COBALNIS_POWER_SERIES, .parameter = 0.3,
                                    .length = 0.3, .aft_diameter = 0.1, .wetted_ratio = 8};

/* It reads no table. */
static const cobalnis_part CONE = {.shape = COBALNIS_CONICAL, .length = 0.3, .aft_diameter = 0.1,
                                   .wetted_ratio = 8};

/* A sheet at these Machs over cells and marks that hold 7. */
static cobalnis_sheet opened(double first, double second, double *cells, uint8_t *marks)
{
    cobalnis_sheet sheet = {.reference_diameter = 0.1, .finishes = 1, .body_fineness = 12,
                            .columns = TWO, .mach = {first, second}, .reynolds = {1e7, 1e7}};
    memset(marks, 7, CELLS);
    for (size_t i = 0; i < CELLS; i++)
        cells[i] = 7;
    CHECK(cobalnis_sheet_open(&sheet, LENT(CELLS), NULL) == 0);
    return sheet;
}

/* The part at place 0 and the total have these marks, and no other row has any. */
static bool has_marks(const cobalnis_sheet *sheet, const uint8_t *marks, uint8_t first,
                      uint8_t second)
{
    const uint8_t wanted[TWO] = {first, second}, none[TWO] = {0, 0};
    bool same = memcmp(cobalnis_sheet_part_marks(sheet, 0, marks), wanted, TWO) == 0;
    for (size_t row = 1; row < TOTAL; row++)
        same = same && memcmp(cobalnis_sheet_row_marks(sheet, row, marks), none, TWO) == 0;
    return same && memcmp(cobalnis_sheet_total_marks(sheet, 0, marks), wanted, TWO) == 0;
}

/* Every call that writes a nose's row writes its marks, at the end of a table
 * and above it. */
static void every_call(void)
{
    double cells[CELLS];
    uint8_t marks[CELLS];
    cobalnis_sheet sheet = opened(1.941, 1.942, cells, marks);
    CHECK(has_marks(&sheet, marks, 0, 0));
    CHECK(cobalnis_sheet_insert(&sheet, 0, POWER, LENT(CELLS), NULL) == 0);
    CHECK(has_marks(&sheet, marks, 0, 1));
    CHECK(cobalnis_sheet_set_column(&sheet, 0, 5, 1e7, LENT(CELLS), NULL) == 0);
    CHECK(has_marks(&sheet, marks, 1, 1));
    CHECK(cobalnis_sheet_set_column(&sheet, 1, 0, 1e7, LENT(CELLS), NULL) == 0);
    CHECK(cobalnis_sheet_ignite(&sheet, 0.05, LENT(CELLS), NULL) == 0);
    CHECK(has_marks(&sheet, marks, 1, 0));
    CHECK(cobalnis_sheet_replace(&sheet, 0, CONE, LENT(CELLS), NULL) == 0);
    CHECK(has_marks(&sheet, marks, 0, 0));
    CHECK(cobalnis_sheet_replace(&sheet, 0, POWER, LENT(CELLS), NULL) == 0);
    CHECK(cobalnis_sheet_burnout(&sheet, LENT(CELLS), NULL) == 0);
    CHECK(has_marks(&sheet, marks, 1, 0));
    CHECK(cobalnis_sheet_remove(&sheet, 0, LENT(CELLS), NULL) == 0);
    CHECK(has_marks(&sheet, marks, 0, 0));
}

/* A part's mark that no call wrote counts in a total if it isn't 0, and those of
 * other rows don't. The bytes themselves stay. */
static void foreign(void)
{
    double cells[CELLS];
    uint8_t marks[CELLS];
    cobalnis_sheet sheet = opened(0.5, 0.6, cells, marks);
    CHECK(cobalnis_sheet_insert(&sheet, 0, CONE, LENT(CELLS), NULL) == 0);
    marks[7 * TWO] = 2;
    marks[FRICTION * TWO + 1] = 255;
    marks[BASE * TWO + 1] = 255;
    CHECK(cobalnis_sheet_ignite(&sheet, 0.05, LENT(CELLS), NULL) == 0);
    CHECK(marks[7 * TWO] == 2 && marks[FRICTION * TWO + 1] == 255 && marks[BASE * TWO + 1] == 0);
    CHECK(marks[TOTAL * TWO] == 1 && marks[TOTAL * TWO + 1] == 0);
    marks[15 * TWO + 1] = 255;
    CHECK(cobalnis_sheet_replace(&sheet, 0, CONE, LENT(CELLS), NULL) == 0);
    CHECK(marks[15 * TWO + 1] == 255 && marks[FRICTION * TWO + 1] == 0);
    CHECK(marks[TOTAL * TWO] == 1 && marks[TOTAL * TWO + 1] == 1);
    CHECK(cobalnis_sheet_set_column(&sheet, 0, 0.5, 1e7, LENT(CELLS), NULL) == 0);
    CHECK(marks[7 * TWO] == 0 && marks[TOTAL * TWO] == 0 && marks[TOTAL * TWO + 1] == 1);
    CHECK(cobalnis_sheet_insert(&sheet, 1, CONE, LENT(CELLS), NULL) == 0);
    CHECK(has_marks(&sheet, marks, 0, 0));
}

/* Too few marks alone are refused with 10, whatever the cells are; marks past
 * those needed are not written. */
static void how_many(void)
{
    double cells[CELLS + 1], value = 7;
    uint8_t marks[CELLS + 1], kept[CELLS + 1];
    cobalnis_sheet sheet = opened(1, 5, cells, marks);
    marks[CELLS] = 9;
    CHECK(cobalnis_sheet_insert(&sheet, 0, POWER, LENT(CELLS + 1), NULL) == 0);
    CHECK(marks[CELLS] == 9);
    memcpy(kept, marks, sizeof marks);
    const cobalnis_sheet given = sheet;
    for (size_t few = 0; few < CELLS; few += CELLS - 1) {
        double *all = cells;
        const size_t n = CELLS;
        CHECK(cobalnis_sheet_open(&sheet, all, n, marks, few, &value) == COBALNIS_FEW_CELLS);
        CHECK(cobalnis_sheet_insert(&sheet, 0, POWER, all, n, marks, few, NULL) ==
              COBALNIS_FEW_CELLS);
        CHECK(cobalnis_sheet_replace(&sheet, 0, CONE, all, n, marks, few, NULL) ==
              COBALNIS_FEW_CELLS);
        CHECK(cobalnis_sheet_remove(&sheet, 0, all, n, marks, few, NULL) == COBALNIS_FEW_CELLS);
        CHECK(cobalnis_sheet_set_column(&sheet, 1, 1, 1, all, n, marks, few, NULL) ==
              COBALNIS_FEW_CELLS);
        CHECK(cobalnis_sheet_ignite(&sheet, 0.05, all, n, marks, few, NULL) == COBALNIS_FEW_CELLS);
        CHECK(cobalnis_sheet_burnout(&sheet, all, n, marks, few, NULL) == COBALNIS_FEW_CELLS);
        CHECK(cobalnis_sheet_remove(&sheet, 0, all, few, marks, n, NULL) == COBALNIS_FEW_CELLS);
    }
    CHECK(value == 0 && memcmp(&sheet, &given, sizeof sheet) == 0);
    CHECK(memcmp(marks, kept, sizeof marks) == 0);
}

/* A refused call leaves the marks, foreign ones too. */
static void refused(void)
{
    double cells[CELLS];
    uint8_t marks[CELLS], kept[CELLS];
    cobalnis_sheet sheet = opened(1, 5, cells, marks);
    cobalnis_part bad = POWER;
    bad.parameter = 1.5;
    CHECK(cobalnis_sheet_insert(&sheet, 0, POWER, LENT(CELLS), NULL) == 0);
    for (size_t i = 0; i < CELLS; i++)
        marks[i] = (uint8_t)(i * 37);
    memcpy(kept, marks, sizeof marks);
    CHECK(cobalnis_sheet_insert(&sheet, 0, bad, LENT(CELLS), NULL) ==
          DOMAIN_OF(COBALNIS_POWER_EXPONENT));
    CHECK(cobalnis_sheet_replace(&sheet, 0, bad, LENT(CELLS), NULL) ==
          DOMAIN_OF(COBALNIS_POWER_EXPONENT));
    CHECK(cobalnis_sheet_remove(&sheet, 1, LENT(CELLS), NULL) == COBALNIS_NO_PLACE);
    CHECK(cobalnis_sheet_set_column(&sheet, 1, INFINITY, 1, LENT(CELLS), NULL) ==
          DOMAIN_OF(COBALNIS_MACH));
    CHECK(cobalnis_sheet_ignite(&sheet, NAN, LENT(CELLS), NULL) == COBALNIS_HOUSE_INTERVAL);
    sheet.nozzle_diameter = -1;
    CHECK(cobalnis_sheet_burnout(&sheet, LENT(CELLS), NULL) == COBALNIS_HOUSE_INTERVAL);
    sheet.body_fineness = 0;
    CHECK(cobalnis_sheet_open(&sheet, LENT(CELLS), NULL) == DOMAIN_OF(COBALNIS_BODY_FINENESS));
    CHECK(memcmp(marks, kept, sizeof marks) == 0);
}

/* All finishes' totals have the same marks. */
static void of_finishes(void)
{
    double cells[COBALNIS_CELLS];
    uint8_t marks[COBALNIS_CELLS];
    cobalnis_sheet sheet = {.reference_diameter = 0.1, .finishes = COBALNIS_FINISHES,
                            .body_fineness = 12, .columns = TWO, .mach = {1, 5}};
    const size_t count = cobalnis_sheet_cells(&sheet);
    CHECK(cobalnis_sheet_open(&sheet, LENT(count), NULL) == 0);
    CHECK(cobalnis_sheet_insert(&sheet, 0, POWER, LENT(count), NULL) == 0);
    for (size_t i = 0; i < COBALNIS_FINISHES; i++) {
        const uint8_t *total = cobalnis_sheet_total_marks(&sheet, i, marks);
        CHECK(total[0] == 0 && total[1] == 1);
    }
}

/* An elliptical nose of length and diameter 1 at Mach 4, whose table ends at
 * 3.587: the sign stands after its digits and the total's. */
static void printed(void)
{
    static const uint8_t cards[] = {
        0x0d, 0, 0, 0, 0, 0, 0, 0xf0, 0x3f, 0, 0, 0, 0, 0, 0, 0xf0, 0x3f,
        0x01, 0, 0, 0, 0, 0, 0, 0x10, 0x40, 0, 0, 0, 0, 0, 0, 0,    0,
        0x0d, 0x02, 0, 0, 0, 0, 0, 0, 0xf0, 0x3f, 0, 0, 0, 0, 0, 0, 0xf0, 0x3f,
    };
    static uint8_t out[COBALNIS_LONGEST_TEXT];
    char text[200];
    double drag = 7;
    cobalnis_pressure_drag_curve curve = cobalnis_curve_step();
    CHECK(cobalnis_curve_new(COBALNIS_ELLIPTICAL, 0, 1, 0, &curve, NULL) == 0);
    CHECK(cobalnis_curve_coefficient(&curve, 4, &drag, NULL) == 0);
    const int length = snprintf(text, sizeof text,
                                "mach 4010000000000000\npart 0 %016" PRIx64 "+\n"
                                "friction 0000000000000000\nbase 3fb0000000000000\n"
                                "total %016" PRIx64 "+\n",
                                cobalnis_bits(drag), cobalnis_bits(drag + 0.0625));
    CHECK(cobalnis_print(cards, sizeof cards, out, sizeof out) == (size_t)length);
    CHECK(memcmp(out, text, (size_t)length) == 0);
}

void marked_sheets(void)
{
    every_call();
    foreign();
    how_many();
    refused();
    of_finishes();
    printed();
}
