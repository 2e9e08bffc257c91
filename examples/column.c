/* A column: mass density and temperature at the altitudes given as arguments (km), and, where one of them is refused, which. First published
   sample but for the altitude, all switches on, densities in kg/m^3. */
#include <stdio.h>
#include <stdlib.h>

#include "potirehu_struct.h"

int main(int argc, char **argv) {
    /* one altitude more than a column takes, so that the call can refuse it (5) */
    enum { MOST = 513 };
    static double altitudes[MOST];
    static struct potirehu_row rows[MOST];
    const struct potirehu_record record = {
        .doy = 172, .sec = 29000.0, .g_lat = 60.0, .g_long = -70.0, .lst = 16.0, .f107a = 150.0, .f107 = 150.0, .ap = 4.0};
    const struct potirehu_switches switches = potirehu_all_on();
    size_t n = 0;
    for (int i = 1; i < argc && n < MOST; i++) altitudes[n++] = strtod(argv[i], NULL);
    struct potirehu_answer answer = potirehu_struct_gtd7_column(&record, &switches, altitudes, n, rows, n);
    if (answer.number) {
        printf("refused %lu %lu", answer.number, answer.place);
        if (answer.number != POTIREHU_TOO_MANY_ALTITUDES && answer.place >= POTIREHU_FIELD_ALTITUDES)
            printf(", altitude %g km", altitudes[answer.place - POTIREHU_FIELD_ALTITUDES]);
        puts("");
        return 1;
    }
    puts("alt_km  density_kg_m3       T_K");
    for (size_t i = 0; i < n; i++) printf("%6g  %.7e  %8.2f\n", altitudes[i], rows[i].density, rows[i].temperature_alt);
    return 0;
}
