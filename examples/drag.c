/* The mass density with and without anomalous oxygen, from 300 to 1,000 km: what a drag model takes is the second. First published sample but for
   the altitude, all switches on, densities in kg/m^3. */
#include <stdio.h>

#include "potirehu_struct.h"

int main(void) {
    struct potirehu_record record = {
        .doy = 172, .sec = 29000.0, .g_lat = 60.0, .g_long = -70.0, .lst = 16.0, .f107a = 150.0, .f107 = 150.0, .ap = 4.0};
    const struct potirehu_switches switches = potirehu_all_on();
    puts("alt_km  gtd7         gtd7d        ratio");
    for (record.alt = 300.0; record.alt <= 1000.0; record.alt += 100.0) {
        struct potirehu_row row, drag;
        struct potirehu_answer answer = potirehu_struct_gtd7(&record, &switches, &row);
        if (!answer.number) answer = potirehu_struct_gtd7d(&record, &switches, &drag);
        if (answer.number) {
            printf("refused %lu %lu\n", answer.number, answer.place);
            return 1;
        }
        printf("%6g  %.5e  %.5e  %.4f\n", record.alt, row.density, drag.density, drag.density / row.density);
    }
    return 0;
}
