/* The first altitude of a climb at which the air is thin enough, with its row, and how calls are refused. All switches are on, densities in kg/m^3. */
#include <stdio.h>

#include "potirehu_struct.h"

#define COUNT 81

int main(void) {
    const struct potirehu_record record = {
        .doy = 172, .sec = 29000.0, .g_lat = 60.0, .g_long = -70.0, .lst = 16.0, .f107a = 150.0, .f107 = 150.0, .ap = 4.0};
    const struct potirehu_switches switches = potirehu_all_on();
    double altitudes[COUNT];
    for (int i = 0; i < COUNT; i++) altitudes[i] = 200.0 + 10.0 * i;
    struct potirehu_row row;

    const double levels[] = {1e-10, 1e-11, 1e-12, 1e-13, 1e-14, 1e-15};
    for (size_t i = 0; i < sizeof levels / sizeof *levels; i++) {
        struct potirehu_index_answer first = potirehu_struct_first_below(&record, &switches, altitudes, COUNT, levels[i], &row);
        if (first.number) {
            printf("refused %lu %lu\n", first.number, first.place);
            return 1;
        }
        if (!first.found)
            printf("below %.0e kg/m^3: nowhere\n", levels[i]);
        else
            printf("below %.0e kg/m^3: %.0f km, %.6e kg/m^3, %.1f K\n", levels[i], altitudes[first.index], row.density, row.temperature_alt);
    }

    /* a row that is too short, by the call that has a length for it; then an altitude out of range behind a hit: all are checked before the first
       is worked out */
    const double fields[8] = {record.sec, record.alt, record.g_lat, record.g_long, record.lst, record.f107a, record.f107, record.ap};
    double nine[9];
    uint64_t answer = potirehu_first_below(record.year, record.doy, fields, 8, NULL, 0, switches.entry, 24, altitudes, COUNT, 1e-12, nine, 9);
    printf("a row of nine: refused %lu %lu\n", POTIREHU_NUMBER(answer), POTIREHU_PLACE(answer));
    altitudes[COUNT - 1] = 2600.0;
    struct potirehu_index_answer first = potirehu_struct_first_below(&record, &switches, altitudes, COUNT, 1e-12, &row);
    printf("2600 km behind the hit: refused %lu %lu\n", first.number, first.place);
    return 0;
}
