/* Part of cobalnis.h: versions, sizes, and what the numbers mean that the library
 * takes and answers. */
#ifndef COBALNIS_NUMBERS_H
#define COBALNIS_NUMBERS_H

/* The version of header and archive, as host/Cargo.toml has it. */
#define COBALNIS_VERSION_MAJOR 0
#define COBALNIS_VERSION_MINOR 2
#define COBALNIS_VERSION_PATCH 0
#define COBALNIS_VERSION                                                                           \
    (COBALNIS_VERSION_MAJOR * 1000000 + COBALNIS_VERSION_MINOR * 1000 + COBALNIS_VERSION_PATCH)

/* Counted up when a function's arguments, or what a number or a word means,
 * change and no size does. */
#define COBALNIS_INTERFACE 1

/* Statuses that are no refusal: a call is accepted; a number names no formula,
 * shape, nose or quantity, and nothing was written. */
#define COBALNIS_OK 0u
#define COBALNIS_NO_SUCH 65535u

enum {
    COBALNIS_COLUMNS = 32, /* columns that a sheet has room for */
    COBALNIS_PLACES = 16,  /* parts that it has room for */
    COBALNIS_FINISHES = 4, /* finishes that it has room for */
    COBALNIS_QUERIES = 256 /* Mach numbers that one walk takes */
};

/* The most rows and cells that a sheet has, and marks as cells;
 * cobalnis_sheet_cells says what one of fewer finishes and columns needs. */
enum {
    COBALNIS_ROWS = COBALNIS_PLACES + 1 + 2 * COBALNIS_FINISHES,
    COBALNIS_CELLS = COBALNIS_ROWS * COBALNIS_COLUMNS
};

/* Words of a part, where those of a sheet begin, and words of a sheet. */
enum {
    COBALNIS_PART_WORDS = 8,
    COBALNIS_FINISHES_AT = 1,
    COBALNIS_ROUGHNESSES_AT = 2,
    COBALNIS_FINENESS_AT = COBALNIS_ROUGHNESSES_AT + COBALNIS_FINISHES,
    COBALNIS_COLUMNS_AT = COBALNIS_FINENESS_AT + 1,
    COBALNIS_MACHS_AT = COBALNIS_COLUMNS_AT + 1,
    COBALNIS_REYNOLDS_AT = COBALNIS_MACHS_AT + COBALNIS_COLUMNS,
    COBALNIS_NOZZLE_AT = COBALNIS_REYNOLDS_AT + COBALNIS_COLUMNS,
    COBALNIS_PARTS_AT = COBALNIS_NOZZLE_AT + 1,
    COBALNIS_FIRST_PART = COBALNIS_PARTS_AT + 1,
    COBALNIS_SHEET_WORDS = COBALNIS_FIRST_PART + COBALNIS_PLACES * COBALNIS_PART_WORDS
};

/* One number for all that a header has to agree with the archive in: the
 * interface, then in four digits each the words of a sheet and the most cells. */
enum {
    COBALNIS_LAYOUT = COBALNIS_INTERFACE * 100000000 + COBALNIS_SHEET_WORDS * 10000 + COBALNIS_CELLS
};

/* What cobalnis_print needs: a line for Mach, each place, base, and the
 * friction and the total of each finish, of a name, a space and two digits
 * where there are several of them, a space, 16 digits and a sign a column (the
 * line for Mach has no signs, but counts as the others), and a line feed. */
enum {
    COBALNIS_ROW_TEXT = COBALNIS_COLUMNS * 18 + 1,
    COBALNIS_LONGEST_TEXT = 4 + (4 + 3) * COBALNIS_PLACES
                            + (8 + 3 + 5 + 3) * COBALNIS_FINISHES + 4
                            + (1 + COBALNIS_ROWS) * COBALNIS_ROW_TEXT
};

/* Refusal numbers (docs/REFERENCE.md, Refusals). */
enum {
    COBALNIS_DOMAIN = 1,        /* a number that no formula takes; has a code and a value */
    COBALNIS_OGIVE_RATIO = 2,   /* an ogive's radius ratio below 1, infinite or NaN */
    COBALNIS_HAACK_ABOVE = 3,   /* a Haack parameter above 1/3 */
    COBALNIS_ENDED = 4,         /* bytes end inside a card, or before it */
    COBALNIS_RESERVED = 5,      /* a reserved bit, or no such shape */
    COBALNIS_FIELD = 6,         /* a card's field is missing or barred */
    COBALNIS_MANY_COLUMNS = 7,  /* more than COBALNIS_COLUMNS columns */
    COBALNIS_NO_PLACE = 8,      /* no such place, column or point */
    COBALNIS_MANY_PARTS = 9,    /* more than COBALNIS_PLACES parts */
    COBALNIS_FEW_CELLS = 10,    /* too few cells or marks, too short an output, too many queries */
    COBALNIS_HOUSE_INTERVAL = 11, /* a size outside what the clubs allow */
    COBALNIS_FALLING_MACH = 16, /* a walk's Mach number is below the one before it */
    COBALNIS_FINISH_COUNT = 19  /* no finish, or more than COBALNIS_FINISHES */
};

/* Codes of refusal 1 (docs/REFERENCE.md, Codes), and what
 * cobalnis_check_dimension is asked about. */
enum {
    COBALNIS_MACH = 1,
    COBALNIS_FINENESS,
    COBALNIS_JOINT_ANGLE,
    COBALNIS_POWER_EXPONENT,
    COBALNIS_PARABOLIC_PARAMETER,
    COBALNIS_HAACK_PARAMETER,
    COBALNIS_ELLIPSOID_FINENESS,
    COBALNIS_ELLIPSOID_MACH,
    COBALNIS_OGIVE_KAPPA,
    COBALNIS_FINENESS_THREE_DRAG,
    COBALNIS_BLUNT_DRAG,
    COBALNIS_TRANSONIC_LOWER_BOUND,
    COBALNIS_DRAG_AT_REST,
    COBALNIS_DRAG_AT_LOWER_BOUND,
    COBALNIS_SLOPE_AT_LOWER_BOUND,
    COBALNIS_MACH_BELOW_LOWER_BOUND,
    COBALNIS_REYNOLDS,
    COBALNIS_ROUGHNESS,
    COBALNIS_BODY_FINENESS,
    COBALNIS_BOATTAIL_LENGTH,
    COBALNIS_BOATTAIL_AFT,
    COBALNIS_BOATTAIL_FORE
};

/* Shapes; the last is for curves alone. */
enum {
    COBALNIS_CONICAL,
    COBALNIS_OGIVE,
    COBALNIS_ELLIPTICAL,
    COBALNIS_POWER_SERIES,
    COBALNIS_PARABOLIC_SERIES,
    COBALNIS_HAACK,
    COBALNIS_STEP
};

/* The formulas' numbers, from 0. */
enum {
    COBALNIS_FORMULA_SQRT = 0,
    COBALNIS_FORMULA_LN,
    COBALNIS_FORMULA_EXP,
    COBALNIS_FORMULA_POWF,
    COBALNIS_FORMULA_SIN,
    COBALNIS_FORMULA_CHECK_MACH_ANY,
    COBALNIS_FORMULA_CRITICAL_REYNOLDS,
    COBALNIS_FORMULA_INCOMPRESSIBLE_SKIN_FRICTION,
    COBALNIS_FORMULA_SKIN_FRICTION_COEFFICIENT,
    COBALNIS_FORMULA_BODY_FRICTION_FORM_FACTOR,
    COBALNIS_FORMULA_STAGNATION_PRESSURE_RATIO,
    COBALNIS_FORMULA_STAGNATION_DRAG_COEFFICIENT,
    COBALNIS_FORMULA_BASE_DRAG_COEFFICIENT,
    COBALNIS_FORMULA_JOINT_PRESSURE_DRAG_COEFFICIENT,
    COBALNIS_FORMULA_BOATTAIL_FACTOR,
    COBALNIS_FORMULA_SUBSONIC_PRESSURE_DRAG_COEFFICIENT,
    COBALNIS_FORMULA_OGIVE_PRESSURE_DRAG_FACTOR,
    COBALNIS_FORMULA_FINENESS_SCALED_PRESSURE_DRAG,
    COBALNIS_FORMULA_ELLIPSOID_SUBSONIC_PRESSURE_DRAG,
    COBALNIS_FORMULA_STAGNATION_RATIO,
    COBALNIS_FORMULA_VON_KARMAN,
    COBALNIS_FORMULA_LV_HAACK
};

/* Stoney's measured noses. */
enum {
    COBALNIS_NOSE_POWER_QUARTER,
    COBALNIS_NOSE_POWER_HALF,
    COBALNIS_NOSE_POWER_THREE_QUARTERS,
    COBALNIS_NOSE_PARABOLA_HALF,
    COBALNIS_NOSE_PARABOLA_THREE_QUARTERS,
    COBALNIS_NOSE_PARABOLA,
    COBALNIS_NOSE_ELLIPSOID,
    COBALNIS_NOSE_LV_HAACK,
    COBALNIS_NOSE_VON_KARMAN
};

/* IEEE 754's classes of a double. */
enum {
    COBALNIS_CLASS_ZERO,
    COBALNIS_CLASS_SUBNORMAL,
    COBALNIS_CLASS_NORMAL,
    COBALNIS_CLASS_INFINITY,
    COBALNIS_CLASS_NAN
};

#endif
