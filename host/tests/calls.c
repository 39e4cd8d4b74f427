/* Each function of the C interface once accepted and once refused, and the
 * typed functions over them. The sheet and the cards are in sheets.c,
 * burning.c, finishes.c and marks.c. The exit
 * status is 1 if a test failed. */
#include "check.h"

int failures = 0;

static void raw_formulas(void)
{
    uint64_t bits = 7;
    const uint32_t base = COBALNIS_FORMULA_BASE_DRAG_COEFFICIENT;
    CHECK(cobalnis_formula_raw(base, 0, NAN, NAN, NAN, NAN, &bits) == 0);
    CHECK(cobalnis_double(bits) == 0.12);
    CHECK(cobalnis_formula_raw(base, NAN, 0, 0, 0, 0, &bits) == DOMAIN_OF(COBALNIS_MACH));
    CHECK(bits == SHOWN_NAN);
    bits = 7;
    const uint32_t none = COBALNIS_FORMULA_LV_HAACK + 1;
    CHECK(cobalnis_formula_raw(none, 0, 0, 0, 0, 0, &bits) == COBALNIS_NO_SUCH && bits == 7);
    CHECK(cobalnis_von_karman() == 0 && cobalnis_lv_haack() == 1.0 / 3);

    CHECK(cobalnis_check_dimension_raw(2, -0.0, true, &bits) == 0 && bits == 0);
    CHECK(cobalnis_check_dimension_raw(19, 0, false, &bits) == DOMAIN_OF(COBALNIS_BODY_FINENESS));
    bits = 7;
    CHECK(cobalnis_check_dimension_raw(23, 1, false, &bits) == COBALNIS_NO_SUCH && bits == 7);
    CHECK(cobalnis_check_dimension_raw(0, 1, false, &bits) == COBALNIS_NO_SUCH && bits == 7);

    CHECK(cobalnis_takes_cone_formula_raw(COBALNIS_CONICAL, 0, &bits) == COBALNIS_OK && bits == 1);
    CHECK(cobalnis_takes_cone_formula_raw(COBALNIS_HAACK, 0, &bits) == COBALNIS_OK && bits == 0);
    bits = 7;
    CHECK(cobalnis_takes_cone_formula_raw(6, 0, &bits) == COBALNIS_NO_SUCH && bits == 7);
}

/* Each pattern has its class with either sign. */
static void classes(void)
{
    static const struct {
        uint64_t bits;
        uint32_t class;
    } EDGES[] = {
        {0, COBALNIS_CLASS_ZERO},
        {1, COBALNIS_CLASS_SUBNORMAL}, /* 2^-1074 */
        {0x000fffffffffffffu, COBALNIS_CLASS_SUBNORMAL}, /* the largest */
        {0x0010000000000000u, COBALNIS_CLASS_NORMAL}, /* 2^-1022 */
        {0x3ff0000000000000u, COBALNIS_CLASS_NORMAL}, /* 1 */
        {0x7fefffffffffffffu, COBALNIS_CLASS_NORMAL}, /* the largest finite number */
        {0x7ff0000000000000u, COBALNIS_CLASS_INFINITY},
        {0x7ff0000000000001u, COBALNIS_CLASS_NAN}, /* signalling, the least payload */
        {0x7ff7ffffffffffffu, COBALNIS_CLASS_NAN}, /* signalling, the greatest */
        {0x7ff8000000000000u, COBALNIS_CLASS_NAN}, /* quiet, payload 0 */
        {0x7fffffffffffffffu, COBALNIS_CLASS_NAN}, /* quiet, the greatest payload */
    };
    for (size_t i = 0; i < sizeof EDGES / sizeof EDGES[0]; i++) {
        CHECK(cobalnis_classify(EDGES[i].bits) == EDGES[i].class);
        CHECK(cobalnis_classify(EDGES[i].bits | 1ull << 63) == EDGES[i].class);
    }
}

/* What cobalnis_bits hands out of each class: the number's own bits, and one
 * pattern for all NaNs. */
static void bits_of_numbers(void)
{
    static const uint64_t KEPT[] = {0, 1, 0x000fffffffffffffu, 0x0010000000000000u,
                                    0x7fefffffffffffffu, 0x7ff0000000000000u};
    for (size_t i = 0; i < sizeof KEPT / sizeof KEPT[0]; i++) {
        CHECK(cobalnis_bits(cobalnis_double(KEPT[i])) == KEPT[i]);
        CHECK(cobalnis_bits(-cobalnis_double(KEPT[i])) == (KEPT[i] | 1ull << 63));
    }
    CHECK(cobalnis_bits(cobalnis_double(0x7ff8000000000001u)) == SHOWN_NAN);
    CHECK(cobalnis_bits(cobalnis_double(0xffffffffffffffffu)) == SHOWN_NAN);
}

static void raw_noses(void)
{
    uint64_t two[2] = {7, 7}, four[4] = {7, 7, 7, 7};
    CHECK(cobalnis_nose_point_raw(COBALNIS_NOSE_ELLIPSOID, 0, two) == 0);
    CHECK(cobalnis_double(two[0]) == 1.2 && cobalnis_double(two[1]) == 0.111);
    CHECK(cobalnis_nose_point_raw(COBALNIS_NOSE_ELLIPSOID, 12, two) == COBALNIS_NO_PLACE);
    CHECK(cobalnis_nose_point_raw(9, 0, two) == COBALNIS_NO_SUCH);
    CHECK(cobalnis_nose_lookup_raw(9, 1, four) == COBALNIS_NO_SUCH && four[0] == 7 && four[3] == 7);
    CHECK(cobalnis_nose_lookup_raw(COBALNIS_NOSE_ELLIPSOID, 1.2, four) == 0);
    CHECK(cobalnis_double(four[0]) == 0.111 && cobalnis_double(four[2]) == 1.2 && four[3] == 0);
    CHECK(cobalnis_nose_lookup_raw(COBALNIS_NOSE_ELLIPSOID, 3.587, four) == 0 && four[3] == 0);
    CHECK(cobalnis_nose_lookup_raw(COBALNIS_NOSE_ELLIPSOID, INFINITY, four) == 0 && four[3] == 1);
    CHECK(cobalnis_nose_lookup_raw(COBALNIS_NOSE_ELLIPSOID, NAN, four) == 0 && four[3] == 0);
}

static void raw_walk(void)
{
    const double machs[4] = {0.5, 0.8, 0.8, 0.9};
    const double falling[3] = {1, 0.9, -1}, bad[2] = {NAN, 1};
    double values[5] = {7, 7, 7, 7, 7};
    size_t compared = 99;
    uint64_t bits = 7;
    CHECK(cobalnis_nose_walk_raw(COBALNIS_NOSE_VON_KARMAN, machs, 4, values, 5, &compared, &bits) == 0);
    CHECK(values[0] == 0 && values[3] == 0 && values[4] == 7 && compared == 7 && bits == 0);
    compared = 5;
    values[0] = 6;
    CHECK(cobalnis_nose_walk_raw(9, machs, 4, values, 5, &compared, &bits) == COBALNIS_NO_SUCH);
    CHECK(cobalnis_nose_walk_raw(0, machs, 4, values, 3, &compared, &bits) == COBALNIS_FEW_CELLS);
    CHECK(cobalnis_nose_walk_raw(0, falling, 2, values, 5, &compared, &bits) == COBALNIS_FALLING_MACH);
    CHECK(bits == 0);
    CHECK(cobalnis_nose_walk_raw(0, falling, 3, values, 5, &compared, &bits) ==
          DOMAIN_OF(COBALNIS_MACH));
    CHECK(cobalnis_double(bits) == -1);
    CHECK(cobalnis_nose_walk_raw(0, bad, 2, values, 5, &compared, &bits) == DOMAIN_OF(COBALNIS_MACH));
    CHECK(bits == SHOWN_NAN && compared == 5 && values[0] == 6);
}

/* As many Machs as a walk takes, and one more. */
static void long_walk(void)
{
    static double machs[COBALNIS_QUERIES + 1], drags[COBALNIS_QUERIES + 1];
    size_t compared = 0;
    double value = 7;
    for (size_t i = 0; i <= COBALNIS_QUERIES; i++)
        machs[i] = 5;
    CHECK(cobalnis_stoney_walk(COBALNIS_NOSE_ELLIPSOID, machs, COBALNIS_QUERIES, drags, &compared,
                               &value) == 0);
    CHECK(drags[0] == 0.158 && drags[COBALNIS_QUERIES - 1] == 0.158 && compared == 12 && value == 0);
    CHECK(cobalnis_stoney_walk(COBALNIS_NOSE_ELLIPSOID, machs, COBALNIS_QUERIES + 1, drags, &compared,
                               &value) == COBALNIS_FEW_CELLS);
    CHECK(cobalnis_stoney_walk(COBALNIS_NOSE_ELLIPSOID, machs, 0, drags, NULL, NULL) == 0);
    machs[1] = -2;
    CHECK(cobalnis_stoney_walk(COBALNIS_NOSE_ELLIPSOID, machs, 2, drags, NULL, &value) ==
          DOMAIN_OF(COBALNIS_MACH));
    CHECK(value == -2);
}

static void raw_curve(void)
{
    const double machs[2] = {0, 1};
    const double bad[2] = {0, -1};
    uint64_t out[2] = {7, 7}, about[3] = {7, 7, 7};
    uint8_t marks[2] = {7, 7};
    CHECK(cobalnis_curve_raw(COBALNIS_STEP, NAN, NAN, NAN, machs, 2, out, 2, marks, 2, about) == 0);
    CHECK(cobalnis_double(out[0]) == 0.85 && cobalnis_double(about[1]) == 0.85);
    CHECK(about[0] == 0 && about[2] == 0 && marks[0] == 0 && marks[1] == 0);
    marks[0] = marks[1] = 7;
    CHECK(cobalnis_curve_raw(COBALNIS_STEP, 0, 0, 0, machs, 2, out, 1, marks, 2, about) ==
          COBALNIS_FEW_CELLS);
    CHECK(cobalnis_curve_raw(COBALNIS_STEP, 0, 0, 0, machs, 2, out, 2, marks, 1, about) ==
          COBALNIS_FEW_CELLS);
    CHECK(cobalnis_curve_raw(COBALNIS_STEP, 0, 0, 0, bad, 2, out, 2, marks, 2, about) ==
          DOMAIN_OF(COBALNIS_MACH));
    CHECK(cobalnis_double(about[0]) == -1);
    CHECK(cobalnis_curve_raw(COBALNIS_OGIVE, 0.9, 1, 0, machs, 2, out, 2, marks, 2, about) ==
          COBALNIS_OGIVE_RATIO);
    CHECK(cobalnis_curve_raw(COBALNIS_HAACK, 0.4, 1, 0, machs, 2, out, 2, marks, 2, about) ==
          COBALNIS_HAACK_ABOVE);
    CHECK(cobalnis_curve_raw(7, 0, 1, 0, machs, 2, out, 2, marks, 2, about) == COBALNIS_NO_SUCH);
    CHECK(marks[0] == 7 && marks[1] == 7);
}

static void steps(void)
{
    CHECK(cobalnis_sqrt(2) == 1.4142135623730951 && isnan(cobalnis_sqrt(-1)));
    CHECK(cobalnis_ln(1) == 0 && isnan(cobalnis_ln(0)));
    CHECK(cobalnis_exp(0) == 1 && isinf(cobalnis_exp(710)));
    CHECK(cobalnis_powf(2, 0) == 1 && isnan(cobalnis_powf(-1, 2)));
    CHECK(cobalnis_sin(0) == 0 && isnan(cobalnis_sin(NAN)));
    CHECK(cobalnis_stagnation_ratio(0) == 1);
}

static void drag_formulas(void)
{
    double x = 7;
    CHECK(cobalnis_check_mach_any(25, &x) == 0 && x == 0);
    CHECK(cobalnis_check_mach_any(-1, &x) == DOMAIN_OF(COBALNIS_MACH) && x == -1);
    CHECK(cobalnis_check_mach_any(-1, NULL) == DOMAIN_OF(COBALNIS_MACH));
    CHECK(cobalnis_critical_reynolds(0, &x) == 0 && isinf(x));
    CHECK(cobalnis_critical_reynolds(-1, &x) == DOMAIN_OF(COBALNIS_ROUGHNESS) && x == -1);
    CHECK(cobalnis_incompressible_skin_friction(1, NAN, &x) == 0 && x == 0.0148);
    CHECK(cobalnis_incompressible_skin_friction(-1, 0, &x) == DOMAIN_OF(COBALNIS_REYNOLDS));
    CHECK(cobalnis_skin_friction_coefficient(9999, NAN, 0, &x) == 0 && x == 0.0148);
    CHECK(cobalnis_skin_friction_coefficient(10000, NAN, 0, &x) == DOMAIN_OF(COBALNIS_ROUGHNESS));
    CHECK(cobalnis_body_friction_form_factor(1, &x) == 0 && x == 1.5);
    CHECK(cobalnis_body_friction_form_factor(0, &x) == DOMAIN_OF(COBALNIS_BODY_FINENESS));
    CHECK(cobalnis_stagnation_pressure_ratio(0, &x) == 0 && x == 1);
    CHECK(cobalnis_stagnation_pressure_ratio(-1, &x) == DOMAIN_OF(COBALNIS_MACH));
    CHECK(cobalnis_stagnation_drag_coefficient(0, &x) == 0 && x == 0.85);
    CHECK(cobalnis_stagnation_drag_coefficient(INFINITY, &x) == DOMAIN_OF(COBALNIS_MACH));
    CHECK(cobalnis_base_drag_coefficient(1, &x) == 0 && x == 0.25);
    CHECK(cobalnis_base_drag_coefficient(-1, &x) == DOMAIN_OF(COBALNIS_MACH));
    CHECK(cobalnis_joint_pressure_drag_coefficient(0, &x) == 0 && x == 0);
    CHECK(cobalnis_joint_pressure_drag_coefficient(2, &x) == DOMAIN_OF(COBALNIS_JOINT_ANGLE));
    CHECK(cobalnis_boattail_factor(2, 2, 1, &x) == 0 && x == 0.5);
    CHECK(cobalnis_boattail_factor(2, 1, 2, &x) == DOMAIN_OF(COBALNIS_BOATTAIL_FORE) && x == 1);
}

static void nose_formulas(void)
{
    double x = 7, y = 7;
    CHECK(cobalnis_subsonic_pressure_drag_coefficient(0.5, 1, 1, 1, 1, &x) == 0 && x == 1);
    CHECK(cobalnis_subsonic_pressure_drag_coefficient(0.5, 1, 1, 1, 2, &x) ==
          DOMAIN_OF(COBALNIS_MACH_BELOW_LOWER_BOUND));
    CHECK(cobalnis_ogive_pressure_drag_factor(1, &x) == 0 && x == 1);
    CHECK(cobalnis_ogive_pressure_drag_factor(2, &x) == DOMAIN_OF(COBALNIS_OGIVE_KAPPA));
    CHECK(cobalnis_fineness_scaled_pressure_drag(0, 1, 0, &x) == 0 && x == 1);
    CHECK(cobalnis_fineness_scaled_pressure_drag(0, 0, 0, &x) == DOMAIN_OF(COBALNIS_BLUNT_DRAG));
    CHECK(cobalnis_ellipsoid_subsonic_pressure_drag(0.5, 0, &x) == 0 && x == 0.01);
    CHECK(cobalnis_ellipsoid_subsonic_pressure_drag(0.5, 0.8, &x) ==
          DOMAIN_OF(COBALNIS_ELLIPSOID_MACH));
    bool takes = false;
    CHECK(cobalnis_takes_cone_formula(COBALNIS_OGIVE, 1, &takes) == COBALNIS_OK && takes);
    CHECK(cobalnis_takes_cone_formula(COBALNIS_STEP, 1, &takes) == COBALNIS_NO_SUCH && takes);
    CHECK(cobalnis_takes_cone_formula(COBALNIS_HAACK, 0, &takes) == COBALNIS_OK && !takes);
    CHECK(cobalnis_check_dimension(COBALNIS_REYNOLDS, 1, false, &x) == 0 && x == 0);
    CHECK(cobalnis_check_dimension(COBALNIS_REYNOLDS, -2, true, &x) == DOMAIN_OF(COBALNIS_REYNOLDS));
    CHECK(x == -2);

    CHECK(cobalnis_stoney_point(COBALNIS_NOSE_VON_KARMAN, 0, &x, &y) == 0 && x == 0.8 && y == 0);
    CHECK(cobalnis_stoney_point(COBALNIS_NOSE_VON_KARMAN, 18, &x, &y) == COBALNIS_NO_PLACE);
    bool beyond = false;
    CHECK(cobalnis_stoney_value_and_slope(COBALNIS_NOSE_ELLIPSOID, 5, &x, &y, &beyond) == 0);
    CHECK(x == 0.158 && y == 0 && beyond);
    CHECK(cobalnis_stoney_value_and_slope(COBALNIS_NOSE_ELLIPSOID, 3.587, &x, &y, &beyond) == 0);
    CHECK(x == 0.158 && y == 0 && !beyond);
    CHECK(cobalnis_stoney_value_and_slope(9, 5, &x, &y, NULL) == COBALNIS_NO_SUCH);
    CHECK(cobalnis_stoney_first_mach(COBALNIS_NOSE_POWER_QUARTER, &x) == 0 && x == 1.2);
    CHECK(cobalnis_stoney_first_mach(9, &x) == COBALNIS_NO_SUCH && x == 1.2);
}

/* Whether a typed function with several arguments passes them on in order. */
static bool is_formula(double x, uint32_t which, double a, double b, double c, double d, double e)
{
    uint64_t bits = 0;
    return cobalnis_formula_raw(which, a, b, c, d, e, &bits) == 0 && cobalnis_double(bits) == x;
}

static void arguments_in_order(void)
{
    double x = 7;
    CHECK(is_formula(cobalnis_powf(2, 0.3), COBALNIS_FORMULA_POWF, 2, 0.3, 0, 0, 0));
    CHECK(cobalnis_incompressible_skin_friction(1e6, 1e-3, &x) == 0);
    CHECK(is_formula(x, COBALNIS_FORMULA_INCOMPRESSIBLE_SKIN_FRICTION, 1e6, 1e-3, 0, 0, 0));
    CHECK(cobalnis_skin_friction_coefficient(1e6, 1e-3, 0.5, &x) == 0);
    CHECK(is_formula(x, COBALNIS_FORMULA_SKIN_FRICTION_COEFFICIENT, 1e6, 1e-3, 0.5, 0, 0));
    CHECK(cobalnis_boattail_factor(0.2, 0.3, 0.2, &x) == 0);
    CHECK(is_formula(x, COBALNIS_FORMULA_BOATTAIL_FACTOR, 0.2, 0.3, 0.2, 0, 0));
    CHECK(cobalnis_subsonic_pressure_drag_coefficient(0.01, 0.2, 1.5, 0.9, 0.6, &x) == 0);
    CHECK(is_formula(x, COBALNIS_FORMULA_SUBSONIC_PRESSURE_DRAG_COEFFICIENT, 0.01, 0.2, 1.5, 0.9,
                     0.6));
    CHECK(cobalnis_fineness_scaled_pressure_drag(0.1, 0.9, 5, &x) == 0);
    CHECK(is_formula(x, COBALNIS_FORMULA_FINENESS_SCALED_PRESSURE_DRAG, 0.1, 0.9, 5, 0, 0));
    CHECK(cobalnis_ellipsoid_subsonic_pressure_drag(0.3, 0.6, &x) == 0);
    CHECK(is_formula(x, COBALNIS_FORMULA_ELLIPSOID_SUBSONIC_PRESSURE_DRAG, 0.3, 0.6, 0, 0, 0));
}

static void curves(void)
{
    const double machs[3] = {0.8, 1.2, 2};
    double out[3] = {7, 7, 7}, x = 7;
    uint8_t marks[3] = {7, 7, 7};
    bool beyond = true;
    cobalnis_pressure_drag_curve curve = cobalnis_curve_step();
    CHECK(curve.rest_coefficient == 0.85 && curve.transonic_lower_bound == 0);
    CHECK(cobalnis_curve_coefficient(&curve, 0, &x, &beyond) == 0 && x == 0.85 && !beyond);
    CHECK(cobalnis_curve_new(COBALNIS_POWER_SERIES, NAN, -0.0, 0, &curve, &x) == 0);
    CHECK(curve.rest_coefficient == 0.85);
    CHECK(cobalnis_curve_new(COBALNIS_HAACK, 1.0 / 3, 3, 0, &curve, &x) == 0);
    CHECK(curve.transonic_lower_bound == 0.8);
    CHECK(cobalnis_curve_coefficients(&curve, machs, 3, out, marks, &x) == 0 && out[0] == 0);
    CHECK(out[1] > 0.1 && out[1] < 0.101);
    CHECK(marks[0] == 0 && marks[1] == 0 && marks[2] == 1);
    /* von Karman's own table ends at 1.994, LV-Haack's, of weight 0 here, at 1.977. */
    CHECK(cobalnis_curve_new(COBALNIS_HAACK, 0, 3, 0, &curve, &x) == 0);
    CHECK(cobalnis_curve_coefficient(&curve, 1.977, &x, &beyond) == 0 && !beyond);
    CHECK(cobalnis_curve_coefficient(&curve, 1.98, &x, &beyond) == 0 && beyond);
    CHECK(cobalnis_curve_coefficient(&curve, -1, &x, &beyond) == DOMAIN_OF(COBALNIS_MACH));
    CHECK(x == -1 && beyond);
    CHECK(cobalnis_curve_new(COBALNIS_CONICAL, 0, 1, NAN, &curve, &x) ==
          DOMAIN_OF(COBALNIS_JOINT_ANGLE));
    CHECK(isnan(x) && curve.transonic_lower_bound == 0.8);
    CHECK(cobalnis_curve_new(7, 0, 1, 0, &curve, &x) == COBALNIS_NO_SUCH);
}

static void versions(void)
{
    CHECK(cobalnis_version() == COBALNIS_VERSION && cobalnis_layout() == COBALNIS_LAYOUT);
    CHECK(cobalnis_fits_header());
    CHECK(COBALNIS_OK == 0 && cobalnis_number(COBALNIS_OK) == 0);
    CHECK(strcmp(cobalnis_message(DOMAIN_OF(3)), "a number that no formula takes") == 0);
    CHECK(strcmp(cobalnis_message(COBALNIS_OK), "accepted") == 0);
    CHECK(strcmp(cobalnis_message(12), "no status of this library") == 0);
    CHECK(strstr(cobalnis_message(COBALNIS_NO_SUCH), "names no formula") != NULL);
}

int main(void)
{
    CHECK(cobalnis_number(DOMAIN_OF(22)) == 1 && cobalnis_code(DOMAIN_OF(22)) == 22);
    versions();
    raw_formulas();
    classes();
    bits_of_numbers();
    raw_noses();
    raw_walk();
    long_walk();
    raw_curve();
    steps();
    drag_formulas();
    nose_formulas();
    arguments_in_order();
    curves();
    sheets_and_cards();
    burning();
    finishes();
    marked_sheets();
    return failures > 0;
}
