/* A satellite's track: one orbit at 400 km, inclined by 51.6 degrees, every five minutes, in one call. All points lie on one day at one altitude, so that they
   share what the day gives. A point that is refused does not stop the others: here the sixth has no latitude. First published sample but for the place, all
   switches on, densities in kg/m^3. */
#include <math.h>
#include <stdio.h>

#include "potirehu_struct.h"

enum { POINTS = 19 };

int main(void) {
    /* latitude and longitude of each point, the earth turning below */
    static const double places[POINTS][2] = {
        {0.0, 0.0}, {15.1, 11.1}, {29.5, 24.1}, {41.8, 41.4}, {50.0, 65.8}, {51.0, 95.3}, {44.4, 121.5},
        {32.9, 140.4}, {18.9, 154.2}, {3.9, 165.6}, {-11.3, 176.6}, {-25.9, -171.1}, {-39.0, -155.2}, {-48.5, -132.8},
        {-51.5, -103.9}, {-46.7, -76.2}, {-36.2, -55.5}, {-22.6, -40.6}, {-7.8, -28.8},
    };
    int32_t days[POINTS];
    struct potirehu_fields fields[POINTS];
    uint64_t answers[POINTS];
    struct potirehu_row rows[POINTS];
    const struct potirehu_records records = {.n = POINTS, .days = days, .fields = fields};
    const struct potirehu_switches switches = potirehu_all_on();
    for (int i = 0; i < POINTS; i++) {
        const double sec = 29000.0 + 300.0 * i, g_lat = places[i][0], g_long = places[i][1];
        const struct potirehu_fields point = {.sec = sec, .alt = 400.0, .g_lat = i == 5 ? NAN : g_lat, .g_long = g_long, .lst = sec / 3600.0 + g_long / 15.0,
                                              .f107a = 150.0, .f107 = 150.0, .ap = 4.0};
        days[i] = 172;
        fields[i] = point;
    }
    struct potirehu_answer answer = potirehu_struct_gtd7_records(&records, &switches, answers, POINTS, rows, POINTS);
    if (answer.number) {
        printf("refused %lu %lu\n", answer.number, answer.place);
        return 1;
    }
    puts("   sec     lat    long  density_kg_m3      T_K");
    for (int i = 0; i < POINTS; i++) {
        const struct potirehu_answer one = potirehu_answer_of(answers[i]);
        printf("%6.0f  %6.1f  %6.1f  ", fields[i].sec, fields[i].g_lat, fields[i].g_long);
        if (one.number) {
            printf("refused %lu %lu\n", one.number, one.place);
        } else {
            printf("%.7e  %7.2f\n", rows[i].density, rows[i].temperature_alt);
        }
    }
    return 0;
}
