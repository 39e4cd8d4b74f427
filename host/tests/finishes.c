/* Sheets of several finishes: each finish has the friction and the total of a
 * sheet of it alone, and what is refused. */
#include "check.h"

enum { PAIR = 2 };

/* Polished, painted, painted badly, unfinished. */
static const double ROUGHNESSES[COBALNIS_FINISHES] = {2e-6, 2e-5, 6e-5, 2e-4};

static const cobalnis_part TUBE = {.length = 1, .aft_diameter = 0.1, .wetted_ratio = 40};

/* A sheet of so many finishes, from this one on, not yet opened. */
static cobalnis_sheet blank(size_t first, uint64_t finishes)
{
    cobalnis_sheet sheet = {.reference_diameter = 0.1, .finishes = finishes, .body_fineness = 12,
                            .columns = PAIR, .mach = {0.3, 1.2}, .reynolds = {7e6, 3e7}};
    for (size_t i = 0; i < COBALNIS_FINISHES && first + i < COBALNIS_FINISHES; i++)
        sheet.roughnesses[i] = ROUGHNESSES[first + i];
    return sheet;
}

/* The same calls on any such sheet; its cells are then those of a polished
 * nose, a tube and a burning nozzle. */
static void fly(cobalnis_sheet *sheet, double *cells, uint8_t *marks)
{
    const size_t count = cobalnis_sheet_cells(sheet);
    cobalnis_part nose = {.shape = COBALNIS_OGIVE, .parameter = 1, .length = 0.3,
                          .aft_diameter = 0.1, .wetted_ratio = 9,
                          .own_roughness = 1, .roughness = 1e-6};
    CHECK(cobalnis_sheet_open(sheet, LENT(count), NULL) == 0);
    CHECK(cobalnis_sheet_insert(sheet, 0, TUBE, LENT(count), NULL) == 0);
    CHECK(cobalnis_sheet_insert(sheet, 0, TUBE, LENT(count), NULL) == 0);
    CHECK(cobalnis_sheet_insert(sheet, 1, nose, LENT(count), NULL) == 0);
    CHECK(cobalnis_sheet_remove(sheet, 0, LENT(count), NULL) == 0);
    CHECK(cobalnis_sheet_replace(sheet, 1, TUBE, LENT(count), NULL) == 0);
    CHECK(cobalnis_sheet_set_column(sheet, 0, 0.5, 1e7, LENT(count), NULL) == 0);
    CHECK(cobalnis_sheet_ignite(sheet, 0.03, LENT(count), NULL) == 0);
}

static void as_each_alone(void)
{
    const size_t row = PAIR * sizeof(double);
    for (size_t finishes = 1; finishes <= COBALNIS_FINISHES; finishes++) {
        double cells[COBALNIS_CELLS], alone[COBALNIS_CELLS];
        uint8_t marks[COBALNIS_CELLS];
        cobalnis_sheet sheet = blank(0, finishes);
        CHECK(cobalnis_sheet_rows(&sheet) == 17 + 2 * finishes);
        CHECK(cobalnis_sheet_cells(&sheet) == (17 + 2 * finishes) * PAIR);
        fly(&sheet, cells, marks);
        for (size_t i = 0; i < finishes; i++) {
            cobalnis_sheet one = blank(i, 1);
            fly(&one, alone, marks);
            CHECK(memcmp(cells, alone, COBALNIS_PLACES * row) == 0);
            CHECK(memcmp(cobalnis_sheet_part_row(&sheet, 1, cells),
                         cobalnis_sheet_part_row(&one, 1, alone), row) == 0);
            CHECK(memcmp(cobalnis_sheet_friction(&sheet, i, cells),
                         cobalnis_sheet_friction(&one, 0, alone), row) == 0);
            CHECK(memcmp(cobalnis_sheet_base(&sheet, cells), cobalnis_sheet_base(&one, alone),
                         row) == 0);
            CHECK(memcmp(cobalnis_sheet_total(&sheet, i, cells),
                         cobalnis_sheet_total(&one, 0, alone), row) == 0);
        }
        const double *last = cobalnis_sheet_total(&sheet, finishes - 1, cells);
        CHECK(last + PAIR == cells + cobalnis_sheet_cells(&sheet));
        if (finishes > 1)
            CHECK(cobalnis_sheet_total(&sheet, 0, cells)[0] < last[0]);
    }
}

/* 19 after 11 for D and before 11 for a roughness, at open and in a sheet given. */
static void count_refused(void)
{
    static const uint64_t BAD[] = {0, 5, UINT64_C(1) << 32, UINT64_MAX};
    double cells[COBALNIS_CELLS], kept[COBALNIS_CELLS], x = 7;
    uint8_t marks[COBALNIS_CELLS];
    cobalnis_sheet whole = blank(0, 2);
    const size_t count = cobalnis_sheet_cells(&whole);
    fly(&whole, cells, marks);
    memcpy(kept, cells, count * sizeof *cells);
    for (size_t i = 0; i < sizeof BAD / sizeof BAD[0]; i++) {
        cobalnis_sheet sheet = whole;
        sheet.finishes = BAD[i];
        sheet.roughnesses[0] = NAN;
        sheet.body_fineness = 0;
        sheet.parts = 17;
        const cobalnis_sheet given = sheet;
        CHECK(cobalnis_sheet_open(&sheet, LENT(0), &x) == COBALNIS_FINISH_COUNT && x == 0);
        CHECK(cobalnis_sheet_insert(&sheet, 9, TUBE, LENT(0), &x) == COBALNIS_FINISH_COUNT);
        CHECK(cobalnis_sheet_replace(&sheet, 9, TUBE, LENT(0), &x) == COBALNIS_FINISH_COUNT);
        CHECK(cobalnis_sheet_remove(&sheet, 9, LENT(0), &x) == COBALNIS_FINISH_COUNT);
        CHECK(cobalnis_sheet_set_column(&sheet, 9, 0, 0, LENT(0), &x) == COBALNIS_FINISH_COUNT);
        CHECK(cobalnis_sheet_ignite(&sheet, NAN, LENT(0), &x) == COBALNIS_FINISH_COUNT);
        CHECK(cobalnis_sheet_burnout(&sheet, LENT(0), &x) == COBALNIS_FINISH_COUNT);
        CHECK(memcmp(&sheet, &given, sizeof sheet) == 0);
        sheet.reference_diameter = 0;
        CHECK(cobalnis_sheet_open(&sheet, LENT(0), &x) == COBALNIS_HOUSE_INTERVAL);
        sheet.columns = 33;
        CHECK(cobalnis_sheet_burnout(&sheet, LENT(0), &x) == COBALNIS_MANY_COLUMNS);
    }
    CHECK(memcmp(cells, kept, count * sizeof *cells) == 0);
}

/* Each roughness that counts is tested, none past them; and the cells. */
static void roughness_refused(void)
{
    double cells[COBALNIS_CELLS], x = 7;
    uint8_t marks[COBALNIS_CELLS];
    for (size_t finishes = 1; finishes <= COBALNIS_FINISHES; finishes++) {
        for (size_t at = 0; at < COBALNIS_FINISHES; at++) {
            cobalnis_sheet sheet = blank(0, finishes);
            const size_t count = cobalnis_sheet_cells(&sheet);
            sheet.roughnesses[at] = 1.5;
            const uint32_t wanted = at < finishes ? COBALNIS_HOUSE_INTERVAL : 0;
            CHECK(cobalnis_sheet_open(&sheet, LENT(count), &x) == wanted);
            sheet.roughnesses[at] = at % 2 == 0 ? -0.0 : 1;
            CHECK(cobalnis_sheet_open(&sheet, LENT(count - 1), &x) == COBALNIS_FEW_CELLS);
            CHECK(cobalnis_sheet_open(&sheet, LENT(count), &x) == 0);
            CHECK(cobalnis_bits(sheet.roughnesses[0]) ==
                  cobalnis_bits(at == 0 ? -0.0 : ROUGHNESSES[0]));
        }
    }
}

/* Bit 4: a count byte and that many roughnesses. */
static void card_of_finishes(void)
{
    static const uint8_t bytes[] = {
        0x15, 0, 0, 0, 0, 0, 0, 0xf0, 0x3f, 0, 0, 0, 0, 0, 0, 0xf0, 0x3f,
        0x02, 0, 0, 0, 0, 0, 0, 0xe0, 0x3f, 0, 0, 0, 0, 0, 0, 0xd0, 0x3f,
    };
    cobalnis_sheet sheet = {.finishes = 7, .roughnesses = {7, 7, 7, 7}};
    size_t next = 7;
    CHECK(cobalnis_sheet_read_settings(bytes, 17, 0, &sheet, &next) == COBALNIS_ENDED);
    CHECK(cobalnis_sheet_read_settings(bytes, 33, 0, &sheet, &next) == COBALNIS_ENDED);
    CHECK(next == 7 && sheet.finishes == 7 && sheet.roughnesses[0] == 7);
    CHECK(cobalnis_sheet_read_settings(bytes, sizeof bytes, 0, &sheet, &next) == 0 && next == 34);
    CHECK(sheet.finishes == 2 && sheet.roughnesses[0] == 0.5 && sheet.roughnesses[1] == 0.25);
    CHECK(cobalnis_bits(sheet.roughnesses[2]) == 0 && cobalnis_bits(sheet.roughnesses[3]) == 0);

    uint8_t other[sizeof bytes];
    memcpy(other, bytes, sizeof bytes);
    other[17] = 0;
    CHECK(cobalnis_sheet_read_settings(other, 18, 0, &sheet, &next) == COBALNIS_FINISH_COUNT);
    other[17] = 5;
    CHECK(cobalnis_sheet_read_settings(other, 18, 0, &sheet, &next) == COBALNIS_FINISH_COUNT);
    other[0] = 0x17;
    CHECK(cobalnis_sheet_read_settings(other, 1, 0, &sheet, &next) == COBALNIS_FIELD);
    other[0] = 0x37;
    CHECK(cobalnis_sheet_read_settings(other, 1, 0, &sheet, &next) == COBALNIS_RESERVED);

    static const char names[] = "mach\nfriction 0\nfriction 1\nbase\ntotal 0\ntotal 1\n";
    static uint8_t out[COBALNIS_LONGEST_TEXT];
    CHECK(cobalnis_print(bytes, sizeof bytes, out, sizeof out) == sizeof names - 1);
    CHECK(memcmp(out, names, sizeof names - 1) == 0);
}

void finishes(void)
{
    as_each_alone();
    count_refused();
    roughness_refused();
    card_of_finishes();
}
