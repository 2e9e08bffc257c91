/* Just after a restart: neither longitude nor clock nor local time nor magnetic index is known. NaN stands in those fields, since what is not known is not
   looked at. The answer 1 at a field says which input the switch row still asks for; each is shut off in turn, until nothing is lacking. */
#include <math.h>
#include <stdio.h>

#include "potirehu_struct.h"

enum {
    KNOWN = 1 << POTIREHU_FIELD_DOY | 1 << POTIREHU_FIELD_ALT | 1 << POTIREHU_FIELD_G_LAT | 1 << POTIREHU_FIELD_F107A | 1 << POTIREHU_FIELD_F107,
    SEC = 1 << POTIREHU_FIELD_SEC,
    ALL = 1023
};

static const char *const names[POTIREHU_COUNTS] = {
    "year", "doy",         "sec",         "alt",         "g_lat",       "g_long",      "lst",         "f107a",       "f107",
    "ap",   "ap_array[0]", "ap_array[1]", "ap_array[2]", "ap_array[3]", "ap_array[4]", "ap_array[5]", "ap_array[6]",
};

static struct potirehu_answer density(uint32_t known, double alt, double sec, double g_long, double lst, double ap,
                                      const struct potirehu_switches *switches, struct potirehu_row *row) {
    const struct potirehu_record record = {
        .doy = 172, .sec = sec, .alt = alt, .g_lat = 45.0, .g_long = g_long, .lst = lst, .f107a = 150.0, .f107 = 150.0, .ap = ap};
    return potirehu_struct_gtd7_known(known, &record, switches, row);
}

int main(void) {
    const struct potirehu_switches all_on = potirehu_all_on();
    struct potirehu_switches restart = potirehu_all_on();
    struct potirehu_row row;

    /* which switches shut off a field: docs/CHANGING-OVER.md */
    static const int off[10][4] = {
        [POTIREHU_FIELD_SEC] = {12, 13}, [POTIREHU_FIELD_G_LONG] = {10}, [POTIREHU_FIELD_LST] = {7, 8, 14}, [POTIREHU_FIELD_AP] = {9, 13}};
    struct potirehu_answer answer;
    while ((answer = density(KNOWN, 400.0, NAN, NAN, NAN, NAN, &restart, &row)).number == POTIREHU_MISSING_AP_ARRAY) {
        printf("refused 1 at %lu, %s is asked for; to 0:", answer.place, names[answer.place]);
        for (int k = 0; k < 4 && off[answer.place][k]; k++) {
            restart.entry[off[answer.place][k]] = 0;
            printf(" %d", off[answer.place][k]);
        }
        puts("");
    }
    struct potirehu_counting counting;
    struct potirehu_answer listed = potirehu_struct_counts(&restart, &counting);
    if (answer.number || listed.number) {
        printf("refused %lu %lu\n", answer.number, answer.place);
        return 1;
    }
    printf("counting:");
    for (int k = 0; k < POTIREHU_COUNTS; k++)
        if (counting.field[k]) printf(" %s", names[k]);
    puts("");

    puts("alt_km  restart_row  at_another_place_and_hour  all_on_noon_at_0E  all_on_midnight_at_0E  (kg/m^3)");
    for (double alt = 150.0; alt <= 600.0; alt += 50.0) {
        struct potirehu_row here, there, noon, night;
        if (density(KNOWN, alt, NAN, NAN, NAN, NAN, &restart, &here).number || density(ALL, alt, 81234.5, -157.8, 12.04, 300.0, &restart, &there).number ||
            density(ALL, alt, 43200.0, 0.0, 12.0, 4.0, &all_on, &noon).number || density(ALL, alt, 0.0, 0.0, 0.0, 4.0, &all_on, &night).number) {
            puts("refused");
            return 1;
        }
        printf("%6g  %.5e  %s  %.5e  %.5e\n", alt, here.density, here.density == there.density ? "the same" : "DIFFERS", noon.density, night.density);
    }

    /* the clock is known again; but with it the longitude would count */
    restart.entry[10] = restart.entry[12] = 1;
    answer = density(KNOWN | SEC, 400.0, 43200.0, NAN, NAN, NAN, &restart, &row);
    printf("sec known, 10 and 12 at 1 again: refused %lu at %lu, %s is asked for\n", answer.number, answer.place, names[answer.place]);
    return 0;
}
