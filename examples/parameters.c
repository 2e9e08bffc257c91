/* The density under another gas constant: first with the model's own nine constants, which give potirehu_gtd7's row, then with the gas constant 1 %
   higher, then how constants are refused. First published sample but for the altitude, all switches on, densities in kg/m^3. */
#include <stdio.h>
#include <string.h>

#include "potirehu_struct.h"

int main(void) {
    struct potirehu_record record = {
        .doy = 172, .sec = 29000.0, .g_lat = 60.0, .g_long = -70.0, .lst = 16.0, .f107a = 150.0, .f107 = 150.0, .ap = 4.0};
    const struct potirehu_switches switches = potirehu_all_on();
    const struct potirehu_parameters present = potirehu_present();
    struct potirehu_parameters higher = present;
    higher.rgas *= 1.01;
    puts("alt_km  present      1 % higher   change");
    for (record.alt = 0.0; record.alt <= 1000.0; record.alt += 200.0) {
        struct potirehu_row own, row, raised;
        struct potirehu_answer answer = potirehu_struct_gtd7(&record, &switches, &own);
        if (!answer.number) answer = potirehu_struct_gtd7_with(&present, &record, &switches, &row);
        if (!answer.number) answer = potirehu_struct_gtd7_with(&higher, &record, &switches, &raised);
        if (answer.number) {
            printf("refused %lu %lu\n", answer.number, answer.place);
            return 1;
        }
        if (memcmp(&row, &own, sizeof row)) {
            printf("density %e, potirehu_gtd7's %e, or another of the eleven\n", row.density, own.density);
            return 1;
        }
        printf("%6g  %.5e  %.5e  %+.2f %%\n", record.alt, own.density, raised.density, 100.0 * (raised.density / own.density - 1.0));
    }

    /* mixed air of the mass of N2, then N2 that is not mixed as high as 72.5 km */
    struct potirehu_parameters unfit = present;
    struct potirehu_row row;
    record.alt = 50.0;
    unfit.xmm = 28.0;
    struct potirehu_answer answer = potirehu_struct_gtd7_with(&unfit, &record, &switches, &row);
    printf("mass 28: refused %lu %lu\n", answer.number, answer.place);
    unfit = present;
    unfit.n2 = 70.0;
    answer = potirehu_struct_gtd7_with(&unfit, &record, &switches, &row);
    printf("N2 mixed to 70 km: refused %lu %lu\n", answer.number, answer.place);
    return 0;
}
