/* The sheet's calls and the cards, accepted and refused, with the values of
 * docs/REFERENCE.md, Example. Burning is in burning.c, several finishes in
 * finishes.c, the marks in marks.c. */
#include "check.h"

/* The cards of docs/REFERENCE.md, Example: D and B of 1, one column at rest, a flat face. */
static const uint8_t CARDS[] = {
    0x0d, 0, 0, 0, 0, 0, 0, 0xf0, 0x3f, 0, 0, 0, 0, 0, 0, 0xf0, 0x3f,
    0x01, 0, 0, 0, 0, 0, 0, 0,    0,    0, 0, 0, 0, 0, 0, 0,    0,
    0x08, 0, 0, 0, 0, 0, 0, 0xf0, 0x3f,
};

/* The sheet of docs/REFERENCE.md, Example, opened over these cells. */
static cobalnis_sheet example(double *cells, uint8_t *marks, size_t count)
{
    cobalnis_sheet sheet = {.reference_diameter = 1, .finishes = 1, .body_fineness = 1,
                            .columns = 1};
    CHECK(cobalnis_sheet_open(&sheet, LENT(count), NULL) == 0);
    return sheet;
}

static void sheet_calls(void)
{
    double cells[ROWS + 1], x = 7;
    uint8_t marks[ROWS];
    for (size_t i = 0; i <= ROWS; i++)
        cells[i] = -3;
    cobalnis_sheet sheet = example(cells, marks, ROWS);
    CHECK(sheet.parts == 0 && cells[0] == 0);
    CHECK(cobalnis_sheet_insert(&sheet, 0, FACE, LENT(ROWS), &x) == 0);
    CHECK(sheet.parts == 1 && sheet.part[0].aft_diameter == 1);
    CHECK(cobalnis_sheet_part_row(&sheet, 0, cells)[0] == 0.85);
    CHECK(cobalnis_sheet_friction(&sheet, 0, cells)[0] == 0);
    CHECK(cobalnis_sheet_base(&sheet, cells)[0] == 0.12);
    CHECK(cobalnis_sheet_total(&sheet, 0, cells)[0] == 0.85 + 0.12);
    CHECK(cells[ROWS] == -3);

    cobalnis_part half = FACE;
    half.aft_diameter = 0.5;
    CHECK(cobalnis_sheet_replace(&sheet, 0, half, LENT(ROWS), &x) == 0);
    CHECK(cells[0] == 0.85 * 0.25);
    CHECK(cobalnis_sheet_set_column(&sheet, 0, 1, 1e6, LENT(ROWS), &x) == 0);
    CHECK(sheet.mach[0] == 1 && sheet.reynolds[0] == 1e6);
    CHECK(cobalnis_sheet_remove(&sheet, 0, LENT(ROWS), &x) == 0);
    CHECK(sheet.parts == 0 && cells[0] == 0);
}

static void sheet_refusals(void)
{
    double cells[ROWS], x = 7;
    uint8_t marks[ROWS];
    cobalnis_sheet sheet = example(cells, marks, ROWS);
    cobalnis_sheet before = sheet;
    cobalnis_part bad = FACE;
    bad.joint_angle = NAN;
    CHECK(cobalnis_sheet_insert(&sheet, 0, bad, LENT(ROWS), &x) ==
          DOMAIN_OF(COBALNIS_JOINT_ANGLE));
    CHECK(isnan(x));
    bad.shape = 6;
    CHECK(cobalnis_sheet_insert(&sheet, 9, bad, LENT(0), &x) == COBALNIS_RESERVED);
    CHECK(cobalnis_sheet_replace(&sheet, 0, FACE, LENT(ROWS), &x) == COBALNIS_NO_PLACE);
    CHECK(cobalnis_sheet_remove(&sheet, 0, LENT(ROWS), &x) == COBALNIS_NO_PLACE);
    CHECK(cobalnis_sheet_remove(&sheet, 0, LENT(18), &x) == COBALNIS_FEW_CELLS);
    CHECK(cobalnis_sheet_set_column(&sheet, 1, 0, 0, LENT(ROWS), &x) ==
          COBALNIS_NO_PLACE);
    CHECK(cobalnis_sheet_set_column(&sheet, 0, -1, 0, LENT(ROWS), &x) ==
          DOMAIN_OF(COBALNIS_MACH));
    CHECK(x == -1);
    CHECK(memcmp(&sheet, &before, sizeof sheet) == 0);

    for (size_t i = 0; i < COBALNIS_PLACES; i++)
        CHECK(cobalnis_sheet_insert(&sheet, i, FACE, LENT(ROWS), NULL) == 0);
    CHECK(cobalnis_sheet_insert(&sheet, 0, FACE, LENT(ROWS), NULL) ==
          COBALNIS_MANY_PARTS);
    sheet.columns = 33;
    CHECK(cobalnis_sheet_open(&sheet, LENT(ROWS), NULL) == COBALNIS_MANY_COLUMNS);
    sheet.columns = 1;
    sheet.reference_diameter = 0;
    CHECK(cobalnis_sheet_open(&sheet, LENT(ROWS), NULL) == COBALNIS_HOUSE_INTERVAL);
}

/* A body so short that its form factor overflows, and a part with nothing
 * wetted: the friction is a NaN. Without parts it is +0. */
static void nan_cells(void)
{
    double cells[ROWS];
    uint8_t marks[ROWS];
    cobalnis_sheet sheet = {.reference_diameter = 1, .finishes = 1, .body_fineness = 1e-320,
                            .columns = 1};
    CHECK(cobalnis_sheet_open(&sheet, LENT(ROWS), NULL) == 0);
    CHECK(cobalnis_bits(cells[FRICTION]) == 0);
    CHECK(cobalnis_sheet_insert(&sheet, 0, FACE, LENT(ROWS), NULL) == 0);
    CHECK(cobalnis_bits(cells[FRICTION]) == SHOWN_NAN);
    CHECK(cobalnis_bits(cells[TOTAL]) == SHOWN_NAN);
    CHECK(cobalnis_bits(-0.0) == 0x8000000000000000u && cobalnis_bits(-NAN) == SHOWN_NAN);
    CHECK(cobalnis_bits(INFINITY) == 0x7ff0000000000000u);
}

/* A flat face of wetted ratio 0.5, with a roughness of its own. */
static cobalnis_part finished(double roughness)
{
    cobalnis_part part = FACE;
    part.wetted_ratio = 0.5;
    part.own_roughness = 1;
    part.roughness = roughness;
    return part;
}

/* What such a part adds to the friction at Reynolds number 1e6 and rest, in a
 * sheet whose form factor is 1.5. */
static double added(double roughness)
{
    double skin = 7;
    CHECK(cobalnis_skin_friction_coefficient(1e6, roughness, 0, &skin) == 0);
    return (skin * 1.5) * 0.5;
}

/* A part's own roughness is handed back as it was given; absent, as absent. */
static void own_roughness(void)
{
    double cells[ROWS], x = 7;
    uint8_t marks[ROWS];
    cobalnis_sheet sheet = example(cells, marks, ROWS);
    const double *friction = cobalnis_sheet_friction(&sheet, 0, cells);
    sheet.roughnesses[0] = 1e-2;
    CHECK(cobalnis_sheet_set_column(&sheet, 0, 0, 1e6, LENT(ROWS), &x) == 0);
    CHECK(cobalnis_sheet_insert(&sheet, 0, finished(1e-3), LENT(ROWS), &x) == 0);
    CHECK(sheet.part[0].own_roughness == 1 && sheet.part[0].roughness == 1e-3);
    CHECK(friction[0] == added(1e-3));

    /* Where it has none of its own, its number is not looked at. */
    cobalnis_part plain = finished(1.5);
    plain.own_roughness = 0;
    CHECK(cobalnis_sheet_insert(&sheet, 1, plain, LENT(ROWS), &x) == 0);
    CHECK(sheet.part[1].own_roughness == 0 && cobalnis_bits(sheet.part[1].roughness) == 0);
    CHECK(friction[0] == added(1e-3) + added(1e-2) && added(1e-2) != added(1e-3));

    /* Any number but 0 makes it the part's own; -0 passes. */
    cobalnis_part other = finished(-0.0);
    other.own_roughness = UINT64_MAX;
    CHECK(cobalnis_sheet_replace(&sheet, 0, other, LENT(ROWS), &x) == 0);
    CHECK(sheet.part[0].own_roughness == 1);
    CHECK(cobalnis_bits(sheet.part[0].roughness) == 0x8000000000000000u);
    other = finished(1);
    other.own_roughness = 2;
    CHECK(cobalnis_sheet_replace(&sheet, 1, other, LENT(ROWS), &x) == 0);
    CHECK(sheet.part[1].own_roughness == 1 && sheet.part[1].roughness == 1);
    CHECK(friction[0] == added(0) + added(1));
}

/* Outside [0, 1]: refused in the part given and in a part held. */
static void own_roughness_refused(void)
{
    static const double BAD[] = {1.5, NAN, -1};
    double cells[ROWS], kept[ROWS], x = 7;
    uint8_t marks[ROWS];
    cobalnis_sheet sheet = example(cells, marks, ROWS);
    CHECK(cobalnis_sheet_insert(&sheet, 0, FACE, LENT(ROWS), &x) == 0);
    CHECK(cobalnis_sheet_insert(&sheet, 1, finished(1), LENT(ROWS), &x) == 0);
    const cobalnis_sheet whole = sheet;
    memcpy(kept, cells, sizeof cells);
    for (size_t i = 0; i < sizeof BAD / sizeof BAD[0]; i++) {
        const cobalnis_part bad = finished(BAD[i]);
        CHECK(cobalnis_sheet_insert(&sheet, 0, bad, LENT(ROWS), &x) ==
              COBALNIS_HOUSE_INTERVAL);
        CHECK(cobalnis_sheet_replace(&sheet, 1, bad, LENT(ROWS), &x) ==
              COBALNIS_HOUSE_INTERVAL);
        CHECK(memcmp(&sheet, &whole, sizeof sheet) == 0);
        sheet.part[1].roughness = BAD[i];
        const cobalnis_sheet broken = sheet;
        CHECK(cobalnis_sheet_remove(&sheet, 1, LENT(ROWS), &x) ==
              COBALNIS_HOUSE_INTERVAL);
        CHECK(cobalnis_sheet_set_column(&sheet, 0, 1, 1, LENT(ROWS), &x) ==
              COBALNIS_HOUSE_INTERVAL);
        CHECK(memcmp(&sheet, &broken, sizeof sheet) == 0);
        CHECK(memcmp(cells, kept, sizeof cells) == 0);
        sheet = whole;
    }
}

/* The words' functions themselves, which the typed ones pass on to. */
static void raw_sheet(void)
{
    double cells[ROWS];
    uint8_t marks[ROWS];
    uint64_t words[COBALNIS_SHEET_WORDS] = {0}, part[COBALNIS_PART_WORDS] = {0}, bits = 7;
    size_t next = 7;
    CHECK(cobalnis_open_raw(words, LENT(ROWS), &bits) == COBALNIS_HOUSE_INTERVAL);
    CHECK(cobalnis_read_settings_raw(CARDS, sizeof CARDS, 0, words, &next) == 0 && next == 34);
    CHECK(cobalnis_open_raw(words, LENT(ROWS), &bits) == 0);
    CHECK(cobalnis_read_part_raw(CARDS, sizeof CARDS, next, part, &next) == 0 && next == 43);
    CHECK(cobalnis_insert_raw(words, 0, part, LENT(ROWS), &bits) == 0);
    CHECK(words[COBALNIS_PARTS_AT] == 1);
    CHECK(cobalnis_ignite_raw(words, 1, LENT(ROWS), &bits) == 0);
    CHECK(words[COBALNIS_NOZZLE_AT] == cobalnis_bits(1));
    CHECK(cobalnis_ignite_raw(words, 101, LENT(ROWS), &bits) == COBALNIS_HOUSE_INTERVAL);
    CHECK(cobalnis_burnout_raw(words, LENT(ROWS), &bits) == 0);
    CHECK(words[COBALNIS_NOZZLE_AT] == 0);
    CHECK(cobalnis_replace_raw(words, 0, part, LENT(ROWS), &bits) == 0);
    CHECK(cobalnis_set_column_raw(words, 0, 0, 0, LENT(ROWS), &bits) == 0);
    CHECK(cobalnis_remove_raw(words, 0, LENT(ROWS), &bits) == 0);
    CHECK(words[COBALNIS_PARTS_AT] == 0);
    CHECK(cobalnis_insert_raw(words, 1, part, LENT(ROWS), &bits) == COBALNIS_NO_PLACE);
    CHECK(cobalnis_replace_raw(words, 0, part, LENT(ROWS), &bits) == COBALNIS_NO_PLACE);
    CHECK(cobalnis_remove_raw(words, 0, LENT(ROWS), &bits) == COBALNIS_NO_PLACE);
    CHECK(cobalnis_set_column_raw(words, 0, NAN, 0, LENT(ROWS), &bits) ==
          DOMAIN_OF(COBALNIS_MACH));
    CHECK(bits == SHOWN_NAN);
}

static void cards(void)
{
    cobalnis_sheet sheet = {.columns = 7};
    cobalnis_part part = {.length = 7};
    size_t next = 7;
    CHECK(cobalnis_sheet_read_settings(CARDS, 1, 0, &sheet, &next) == COBALNIS_ENDED);
    CHECK(cobalnis_sheet_read_settings(CARDS, sizeof CARDS, 34, &sheet, &next) == COBALNIS_FIELD);
    CHECK(cobalnis_part_read((const uint8_t *)"\x80", 1, 0, &part, &next) == COBALNIS_RESERVED);
    CHECK(cobalnis_part_read((const uint8_t *)"\xc0", 1, 0, &part, &next) == COBALNIS_RESERVED);
    CHECK(cobalnis_part_read(CARDS, sizeof CARDS, sizeof CARDS, &part, &next) == COBALNIS_ENDED);
    CHECK(next == 7 && sheet.columns == 7 && part.length == 7);
    CHECK(cobalnis_sheet_read_settings(CARDS, sizeof CARDS, 0, &sheet, &next) == 0);
    CHECK(sheet.columns == 1 && sheet.reference_diameter == 1 && next == 34);
    CHECK(cobalnis_part_read(CARDS, sizeof CARDS, next, &part, &next) == 0 && next == 43);
    CHECK(part.shape == COBALNIS_CONICAL && part.aft_diameter == 1 && part.length == 0);

    static const char text[] = "mach 0000000000000000\npart 0 3feb333333333333\n"
                               "friction 0000000000000000\nbase 3fbeb851eb851eb8\n"
                               "total 3fef0a3d70a3d70a\n";
    static uint8_t out[COBALNIS_LONGEST_TEXT];
    CHECK(cobalnis_print(CARDS, sizeof CARDS, out, sizeof out) == sizeof text - 1);
    CHECK(memcmp(out, text, sizeof text - 1) == 0);
    CHECK(cobalnis_print(CARDS, 1, out, sizeof out) == strlen("refused 4 card 0\n"));
    CHECK(cobalnis_print(CARDS, sizeof CARDS, out, sizeof out - 1) == 0);

    static const char names[] = "mach\nfriction\nbase\ntotal\n";
    CHECK(cobalnis_print(CARDS, 0, out, sizeof out) == sizeof names - 1);
    CHECK(memcmp(out, names, sizeof names - 1) == 0);
    CHECK(cobalnis_sheet_read_settings(CARDS, 0, 0, &sheet, &next) == COBALNIS_ENDED);
}

/* A card's own roughness comes after its wetted ratio; a card without one
 * leaves it to the settings. */
static void card_of_own_roughness(void)
{
    static const uint8_t bytes[] = {
        0x60, 0, 0, 0, 0, 0, 0, 0xf0, 0x3f, 0, 0, 0, 0, 0, 0, 0xe0, 0x3f,
        0x20, 0, 0, 0, 0, 0, 0, 0xf0, 0x3f,
    };
    cobalnis_part part = {.own_roughness = 7, .roughness = 7};
    size_t next = 7;
    CHECK(cobalnis_part_read(bytes, 1, 0, &part, &next) == COBALNIS_ENDED);
    CHECK(cobalnis_part_read(bytes, 16, 0, &part, &next) == COBALNIS_ENDED);
    CHECK(next == 7 && part.own_roughness == 7 && part.roughness == 7);
    CHECK(cobalnis_part_read(bytes, sizeof bytes, 0, &part, &next) == 0 && next == 17);
    CHECK(part.wetted_ratio == 1 && part.own_roughness == 1 && part.roughness == 0.5);
    CHECK(cobalnis_part_read(bytes, sizeof bytes, next, &part, &next) == 0 && next == 26);
    CHECK(part.wetted_ratio == 1 && part.own_roughness == 0);
    CHECK(cobalnis_bits(part.roughness) == 0);
}

void sheets_and_cards(void)
{
    sheet_calls();
    sheet_refusals();
    nan_cells();
    own_roughness();
    own_roughness_refused();
    raw_sheet();
    cards();
    card_of_own_roughness();
}
