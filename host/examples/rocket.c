/* A nose and a tube, smooth or rough, at two Mach numbers. */
#include "cobalnis.h"
#include <stdio.h>

static int refused(uint32_t status, double value)
{
    fprintf(stderr, "refused: %s (number %u, code %u, value %g)\n", cobalnis_message(status),
            cobalnis_number(status), cobalnis_code(status), value);
    return 1;
}

int main(void)
{
    static cobalnis_sheet sheet;     /* all 0 */
    static cobalnis_part nose, tube; /* all 0: conical, without a roughness of their own */
    static double cells[COBALNIS_CELLS];
    static uint8_t marks[COBALNIS_CELLS];
    const size_t n = COBALNIS_CELLS;
    double value = 0;
    uint32_t status;

    if (!cobalnis_fits_header()) {
        fprintf(stderr, "this archive is not of this header\n");
        return 1;
    }

    sheet.reference_diameter = 0.1;
    sheet.body_fineness = 12;
    sheet.finishes = 2; /* smooth and rough paint */
    sheet.roughnesses[0] = 2e-5;
    sheet.roughnesses[1] = 6e-5;
    sheet.columns = 2;
    sheet.mach[0] = 0.5, sheet.reynolds[0] = 3e6;
    sheet.mach[1] = 2.5, sheet.reynolds[1] = 1.5e7;

    nose.shape = COBALNIS_HAACK; /* von Karman, since its parameter is 0 */
    nose.length = 0.3;
    nose.aft_diameter = 0.1;
    nose.wetted_ratio = 8;
    nose.own_roughness = 1; /* polished */
    nose.roughness = 2e-6;
    tube.length = 0.9;
    tube.aft_diameter = 0.1;
    tube.wetted_ratio = 36;

    status = cobalnis_sheet_open(&sheet, cells, n, marks, n, &value);
    if (status == COBALNIS_OK)
        status = cobalnis_sheet_insert(&sheet, 0, nose, cells, n, marks, n, &value);
    if (status == COBALNIS_OK)
        status = cobalnis_sheet_insert(&sheet, 1, tube, cells, n, marks, n, &value);
    if (status != COBALNIS_OK)
        return refused(status, value);

    for (size_t finish = 0; finish < sheet.finishes; finish++) {
        const double *total = cobalnis_sheet_total(&sheet, finish, cells);
        const uint8_t *mark = cobalnis_sheet_total_marks(&sheet, finish, marks);
        printf("total %zu", finish);
        for (size_t column = 0; column < sheet.columns; column++)
            printf(" %.6f%s", total[column], mark[column] != 0 ? "+" : "");
        printf("\n");
    }
    return 0;
}
