/* The same calls, bare and by potirehu_struct.h, in a function each, so that the instructions of the two can be counted. C99 and C++11. */
#include <stdio.h>

#include "potirehu_struct.h"

#define ALTITUDES 16
#define ROUNDS 50

#if defined(__GNUC__)
#define APART __attribute__((noinline))
#else
#define APART
#endif

#ifdef __cplusplus
extern "C" {
#endif
double bare_gtd7(double alt, double *row);
double struct_gtd7(double alt, struct potirehu_row *row);
double bare_column(const double *altitudes, double *rows);
double struct_column(const double *altitudes, struct potirehu_row *rows);
double bare_station_gtd7(const int32_t *whole, const double *numbers, double alt, double *row);
double struct_station_gtd7(const struct potirehu_prepared *station, double alt, struct potirehu_row *row);
#ifdef __cplusplus
}
#endif

static const int32_t on[24] = {1, 1, 1, 1, 1, 1, 1, 1, 1, 1, 1, 1, 1, 1, 1, 1, 1, 1, 1, 1, 1, 1, 1, 1};

static const struct potirehu_switches named_on = {{1, 1, 1, 1, 1, 1, 1, 1, 1, 1, 1, 1, 1, 1, 1, 1, 1, 1, 1, 1, 1, 1, 1, 1}};

APART double bare_gtd7(double alt, double *row) {
    const double fields[8] = {29000.0, alt, 60.0, -70.0, 16.0, 150.0, 150.0, 4.0};
    uint64_t code = potirehu_gtd7(0, 172, fields, 8, NULL, 0, on, 24, row, 11);
    return POTIREHU_REFUSED(code) ? 0.0 : row[POTIREHU_ROW_DENSITY];
}

APART double struct_gtd7(double alt, struct potirehu_row *row) {
    const struct potirehu_record record = {0, 172, 29000.0, alt, 60.0, -70.0, 16.0, 150.0, 150.0, 4.0, NULL};
    struct potirehu_answer answer = potirehu_struct_gtd7(&record, &named_on, row);
    return answer.number ? 0.0 : row->density;
}

APART double bare_column(const double *altitudes, double *rows) {
    const double fields[8] = {29000.0, 0.0, 60.0, -70.0, 16.0, 150.0, 150.0, 4.0};
    uint64_t code = potirehu_gtd7_column(0, 172, fields, 8, NULL, 0, on, 24, altitudes, ALTITUDES, rows, 11 * ALTITUDES);
    return POTIREHU_REFUSED(code) ? 0.0 : rows[11 * (ALTITUDES - 1) + POTIREHU_ROW_DENSITY];
}

APART double struct_column(const double *altitudes, struct potirehu_row *rows) {
    const struct potirehu_record record = {0, 172, 29000.0, 0.0, 60.0, -70.0, 16.0, 150.0, 150.0, 4.0, NULL};
    struct potirehu_answer answer = potirehu_struct_gtd7_column(&record, &named_on, altitudes, ALTITUDES, rows, ALTITUDES);
    return answer.number ? 0.0 : rows[ALTITUDES - 1].density;
}

APART double bare_station_gtd7(const int32_t *whole, const double *numbers, double alt, double *row) {
    uint64_t code = potirehu_station_gtd7(whole, POTIREHU_STATION_WHOLE, numbers, POTIREHU_STATION_NUMBERS, alt, row, 11);
    return POTIREHU_REFUSED(code) ? 0.0 : row[POTIREHU_ROW_DENSITY];
}

APART double struct_station_gtd7(const struct potirehu_prepared *station, double alt, struct potirehu_row *row) {
    struct potirehu_answer answer = potirehu_struct_station_gtd7(station, alt, row);
    return answer.number ? 0.0 : row->density;
}

int main(void) {
    const struct potirehu_record record = {0, 172, 29000.0, 0.0, 60.0, -70.0, 16.0, 150.0, 150.0, 4.0, NULL};
    static double altitudes[ALTITUDES], rows[11 * ALTITUDES];
    static struct potirehu_row named[ALTITUDES];
    static struct potirehu_prepared station;
    struct potirehu_answer answer = potirehu_struct_station(&record, &named_on, &station);
    if (answer.number) return 1;
    for (int i = 0; i < ALTITUDES; i++) altitudes[i] = 50.0 + 150.0 * i;
    for (int k = 0; k < ROUNDS; k++) {
        for (int i = 0; i < ALTITUDES; i++) {
            const double alt = altitudes[i];
            if (bare_gtd7(alt, rows) != struct_gtd7(alt, named)) return 1;
            if (bare_station_gtd7(station.whole, station.numbers, alt, rows) != struct_station_gtd7(&station, alt, named)) return 1;
        }
        if (bare_column(altitudes, rows) != struct_column(altitudes, named)) return 1;
    }
    return 0;
}
