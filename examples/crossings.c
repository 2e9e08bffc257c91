/* Flap planning: between which altitudes of a column the density falls below the levels at which the flaps are set, and how calls are refused. All
   switches are on, densities in kg/m^3. */
#include <stdio.h>

#include "potirehu_struct.h"

#define COUNT 81

int main(void) {
    const struct potirehu_record record = {
        .doy = 172, .sec = 29000.0, .g_lat = 60.0, .g_long = -70.0, .lst = 16.0, .f107a = 150.0, .f107 = 150.0, .ap = 4.0};
    const struct potirehu_switches switches = potirehu_all_on();
    double altitudes[COUNT];
    for (int i = 0; i < COUNT; i++) altitudes[i] = 200.0 + 10.0 * i;
    uint64_t list[COUNT - 1];

    const double levels[] = {1e-10, 1e-11, 1e-12, 1e-13, 1e-14, 1e-15};
    for (size_t i = 0; i < sizeof levels / sizeof *levels; i++) {
        struct potirehu_count_answer passed = potirehu_struct_crossings(&record, &switches, altitudes, COUNT, levels[i], list, COUNT - 1);
        if (passed.number) {
            printf("refused %lu %lu\n", passed.number, passed.place);
            return 1;
        }
        printf("%.0e kg/m^3:", levels[i]);
        for (size_t k = 0; k < passed.count; k++) printf(" between %.0f and %.0f km", altitudes[list[k]], altitudes[list[k] + 1]);
        puts(passed.count ? "" : " nowhere");
    }

    /* a list that does not fit, then altitudes that do not rise */
    struct potirehu_count_answer passed = potirehu_struct_crossings(&record, &switches, altitudes, COUNT, 1e-12, list, 0);
    printf("no room: refused %lu %lu\n", passed.number, passed.place);
    altitudes[3] = altitudes[2];
    passed = potirehu_struct_crossings(&record, &switches, altitudes, COUNT, 1e-12, list, COUNT - 1);
    printf("two equal altitudes: refused %lu %lu\n", passed.number, passed.place);
    return 0;
}
