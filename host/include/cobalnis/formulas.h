/* Part of cobalnis.h: a function for each formula, under the name that the source
 * gives it. value is the answer, or the value refused. */
#ifndef COBALNIS_FORMULAS_H
#define COBALNIS_FORMULAS_H

#include "status.h"

#ifdef __cplusplus
extern "C" {
#endif

static inline uint32_t cobalnis_detail_ask(uint32_t which, double a, double b, double c, double d,
                                           double e, double *value)
{
    uint64_t bits = 0;
    uint32_t status = cobalnis_formula_raw(which, a, b, c, d, e, &bits);
    return cobalnis_detail_answer(status, bits, value);
}

/* The fixed steps refuse nothing. */
static inline double cobalnis_detail_step_of(uint32_t which, double a, double b)
{
    double value = 0;
    cobalnis_detail_ask(which, a, b, 0, 0, 0, &value);
    return value;
}

static inline double cobalnis_sqrt(double x)
{
    return cobalnis_detail_step_of(COBALNIS_FORMULA_SQRT, x, 0);
}

static inline double cobalnis_ln(double x)
{
    return cobalnis_detail_step_of(COBALNIS_FORMULA_LN, x, 0);
}

static inline double cobalnis_exp(double y)
{
    return cobalnis_detail_step_of(COBALNIS_FORMULA_EXP, y, 0);
}

static inline double cobalnis_powf(double x, double y)
{
    return cobalnis_detail_step_of(COBALNIS_FORMULA_POWF, x, y);
}

static inline double cobalnis_sin(double x)
{
    return cobalnis_detail_step_of(COBALNIS_FORMULA_SIN, x, 0);
}

/* value: the Mach number refused, or 0. */
static inline uint32_t cobalnis_check_mach_any(double mach, double *value)
{
    return cobalnis_detail_ask(COBALNIS_FORMULA_CHECK_MACH_ANY, mach, 0, 0, 0, 0, value);
}

static inline uint32_t cobalnis_critical_reynolds(double relative_roughness, double *value)
{
    return cobalnis_detail_ask(COBALNIS_FORMULA_CRITICAL_REYNOLDS, relative_roughness, 0, 0, 0, 0,
                               value);
}

static inline uint32_t
cobalnis_incompressible_skin_friction(double reynolds, double relative_roughness, double *value)
{
    return cobalnis_detail_ask(COBALNIS_FORMULA_INCOMPRESSIBLE_SKIN_FRICTION, reynolds,
                               relative_roughness, 0, 0, 0, value);
}

static inline uint32_t cobalnis_skin_friction_coefficient(double reynolds,
                                                          double relative_roughness, double mach,
                                                          double *value)
{
    return cobalnis_detail_ask(COBALNIS_FORMULA_SKIN_FRICTION_COEFFICIENT, reynolds,
                               relative_roughness, mach, 0, 0, value);
}

static inline uint32_t cobalnis_body_friction_form_factor(double fineness_ratio, double *value)
{
    return cobalnis_detail_ask(COBALNIS_FORMULA_BODY_FRICTION_FORM_FACTOR, fineness_ratio, 0, 0, 0,
                               0, value);
}

static inline uint32_t cobalnis_stagnation_pressure_ratio(double mach, double *value)
{
    return cobalnis_detail_ask(COBALNIS_FORMULA_STAGNATION_PRESSURE_RATIO, mach, 0, 0, 0, 0, value);
}

static inline uint32_t cobalnis_stagnation_drag_coefficient(double mach, double *value)
{
    return cobalnis_detail_ask(COBALNIS_FORMULA_STAGNATION_DRAG_COEFFICIENT, mach, 0, 0, 0, 0,
                               value);
}

static inline uint32_t cobalnis_base_drag_coefficient(double mach, double *value)
{
    return cobalnis_detail_ask(COBALNIS_FORMULA_BASE_DRAG_COEFFICIENT, mach, 0, 0, 0, 0, value);
}

static inline uint32_t cobalnis_joint_pressure_drag_coefficient(double joint_angle, double *value)
{
    return cobalnis_detail_ask(COBALNIS_FORMULA_JOINT_PRESSURE_DRAG_COEFFICIENT, joint_angle, 0, 0,
                               0, 0, value);
}

static inline uint32_t cobalnis_boattail_factor(double length, double fore_diameter,
                                                double aft_diameter, double *value)
{
    return cobalnis_detail_ask(COBALNIS_FORMULA_BOATTAIL_FACTOR, length, fore_diameter,
                               aft_diameter, 0, 0, value);
}

static inline uint32_t cobalnis_subsonic_pressure_drag_coefficient(double c_rest, double c_low,
                                                                   double slope_low,
                                                                   double mach_low, double mach,
                                                                   double *value)
{
    return cobalnis_detail_ask(COBALNIS_FORMULA_SUBSONIC_PRESSURE_DRAG_COEFFICIENT, c_rest, c_low,
                               slope_low, mach_low, mach, value);
}

static inline uint32_t cobalnis_ogive_pressure_drag_factor(double kappa, double *value)
{
    return cobalnis_detail_ask(COBALNIS_FORMULA_OGIVE_PRESSURE_DRAG_FACTOR, kappa, 0, 0, 0, 0,
                               value);
}

static inline uint32_t cobalnis_fineness_scaled_pressure_drag(double c3, double c0,
                                                              double fineness_ratio, double *value)
{
    return cobalnis_detail_ask(COBALNIS_FORMULA_FINENESS_SCALED_PRESSURE_DRAG, c3, c0,
                               fineness_ratio, 0, 0, value);
}

static inline uint32_t cobalnis_ellipsoid_subsonic_pressure_drag(double fineness_ratio, double mach,
                                                                 double *value)
{
    return cobalnis_detail_ask(COBALNIS_FORMULA_ELLIPSOID_SUBSONIC_PRESSURE_DRAG, fineness_ratio,
                               mach, 0, 0, 0, value);
}

/* cobalnis_stagnation_pressure_ratio without its test. */
static inline double cobalnis_stagnation_ratio(double mach)
{
    return cobalnis_detail_step_of(COBALNIS_FORMULA_STAGNATION_RATIO, mach, 0);
}

/* The parameters of the two Haack shapes that have names. */
static inline double cobalnis_von_karman(void)
{
    return cobalnis_detail_step_of(COBALNIS_FORMULA_VON_KARMAN, 0, 0);
}

static inline double cobalnis_lv_haack(void)
{
    return cobalnis_detail_step_of(COBALNIS_FORMULA_LV_HAACK, 0, 0);
}

/* value: the value refused, or 0. */
static inline uint32_t cobalnis_check_dimension(uint32_t what, double x, bool allow_zero,
                                                double *value)
{
    uint64_t bits = 0;
    uint32_t status = cobalnis_check_dimension_raw(what, x, allow_zero, &bits);
    return cobalnis_detail_answer(status, bits, value);
}

/* Whether a shape takes any of the closed form for cones. */
static inline uint32_t cobalnis_takes_cone_formula(uint64_t shape, double parameter, bool *takes)
{
    uint64_t word = 0;
    uint32_t status = cobalnis_takes_cone_formula_raw(shape, parameter, &word);
    if (status == COBALNIS_OK)
        *takes = word != 0;
    return status;
}

#ifdef __cplusplus
}
#endif

#endif
