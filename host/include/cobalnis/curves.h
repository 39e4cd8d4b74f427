/* Part of cobalnis.h: Stoney's measured noses, and the pressure drag of a nose
 * against Mach number. */
#ifndef COBALNIS_CURVES_H
#define COBALNIS_CURVES_H

#include "status.h"

#ifdef __cplusplus
extern "C" {
#endif

/* A curve's arguments, and what is known of it. The library keeps no curve:
 * each call builds it. */
typedef struct {
    uint64_t shape;
    double parameter;
    double fineness_ratio;
    double joint_angle;
    double rest_coefficient;
    double transonic_lower_bound;
} cobalnis_pressure_drag_curve;

/* ---- measured noses */

/* Refusal 8 past the last point, and then nothing is written. */
static inline uint32_t cobalnis_stoney_point(uint32_t nose, size_t place, double *mach,
                                             double *drag)
{
    uint64_t out[2] = {0, 0};
    uint32_t status = cobalnis_nose_point_raw(nose, place, out);
    if (status == 0) {
        *mach = cobalnis_double(out[0]);
        *drag = cobalnis_double(out[1]);
    }
    return status;
}

/* At a finite Mach from 0 up the value is within 2^-50 of the exact broken line
 * through the stored points, and on it at their Machs (docs/DISTANCE.md).
 * beyond: whether mach is above the last of them, so that its drag is held. */
static inline uint32_t cobalnis_stoney_value_and_slope(uint32_t nose, double mach, double *value,
                                                       double *slope, bool *beyond)
{
    uint64_t out[4] = {0, 0, 0, 0};
    uint32_t status = cobalnis_nose_lookup_raw(nose, mach, out);
    if (status == 0) {
        *value = cobalnis_double(out[0]);
        *slope = cobalnis_double(out[1]);
        if (beyond != NULL)
            *beyond = out[3] != 0;
    }
    return status;
}

static inline uint32_t cobalnis_stoney_first_mach(uint32_t nose, double *mach)
{
    uint64_t out[4] = {0, 0, 0, 0};
    uint32_t status = cobalnis_nose_lookup_raw(nose, 0, out);
    return cobalnis_detail_answer(status, out[2], mach);
}

/* The drag at n Mach numbers, of which drags takes as many; compared may be
 * null. Refused: value is the Mach number refused, and nothing else is written. */
static inline uint32_t cobalnis_stoney_walk(uint32_t nose, const double *machs, size_t n,
                                            double *drags, size_t *compared, double *value)
{
    uint64_t bits = 0;
    size_t count = 0;
    uint32_t status = cobalnis_nose_walk_raw(nose, machs, n, drags, n, &count, &bits);
    if (status == 0 && compared != NULL)
        *compared = count;
    return cobalnis_detail_answer(status, bits, value);
}

/* ---- curves */

/* The curve of a shape; refused: value is the value refused, and the curve is
 * not written. */
static inline uint32_t cobalnis_curve_new(uint64_t shape, double parameter, double fineness_ratio,
                                          double joint_angle, cobalnis_pressure_drag_curve *curve,
                                          double *value)
{
    uint64_t none = 0, about[3] = {0, 0, 0};
    double no_mach = 0;
    uint8_t no_mark = 0;
    uint32_t status = cobalnis_curve_raw(shape, parameter, fineness_ratio, joint_angle, &no_mach, 0,
                                         &none, 0, &no_mark, 0, about);
    if (status == 0) {
        curve->shape = shape;
        curve->parameter = parameter;
        curve->fineness_ratio = fineness_ratio;
        curve->joint_angle = joint_angle;
        curve->rest_coefficient = cobalnis_double(about[1]);
        curve->transonic_lower_bound = cobalnis_double(about[2]);
    }
    return cobalnis_detail_answer(status, about[0], value);
}

/* A flat face's curve, never refused. */
static inline cobalnis_pressure_drag_curve cobalnis_curve_step(void)
{
    cobalnis_pressure_drag_curve curve = {COBALNIS_STEP, 0, 0, 0, 0, 0};
    cobalnis_curve_new(COBALNIS_STEP, 0, 0, 0, &curve, NULL);
    return curve;
}

/* The coefficients at n Mach numbers and their marks, of which out and marks
 * take as many; refused: value is the first Mach number that is refused. */
static inline uint32_t cobalnis_curve_coefficients(const cobalnis_pressure_drag_curve *curve,
                                                   const double *machs, size_t n, double *out,
                                                   uint8_t *marks, double *value)
{
    uint64_t about[3] = {0, 0, 0};
    uint32_t status = cobalnis_curve_raw(curve->shape, curve->parameter, curve->fineness_ratio,
                                         curve->joint_angle, machs, n,
                                         cobalnis_detail_words_of(out), n, marks, n, about);
    return cobalnis_detail_answer(status, about[0], value);
}

/* value: the coefficient, or the Mach number refused; beyond: its mark, not
 * written where it is refused. */
static inline uint32_t cobalnis_curve_coefficient(const cobalnis_pressure_drag_curve *curve,
                                                  double mach, double *value, bool *beyond)
{
    double coefficient = 0, refused = 0;
    uint8_t mark = 0;
    uint32_t status = cobalnis_curve_coefficients(curve, &mach, 1, &coefficient, &mark, &refused);
    if (value != NULL)
        *value = status == 0 ? coefficient : refused;
    if (beyond != NULL && status == 0)
        *beyond = mark != 0;
    return status;
}

#ifdef __cplusplus
}
#endif

#endif
