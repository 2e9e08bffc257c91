/* cases.h: the inputs of every call in one struct, what is lent to it, and a record to begin with, for the programs that run on the boards. */
#ifndef CASES_H
#define CASES_H

#include "generator.h"
#include "potirehu.h"

#include <string.h>

#define ALTITUDES 513
#define RECORDS 16
#define SETTINGS 10001
#define LOG 257
#define TEXT 4096

/* What is given to a call, and with what lengths. */
static struct {
    int32_t year, doy;
    double fields[9], ap_array[8];
    int32_t switches[25];
    double nine[10];
    uint32_t known;
    int32_t days[RECORDS + 1];
    double many_fields[8 * RECORDS + 1], ap_arrays[7 * RECORDS + 1];
    double altitudes[ALTITUDES], level;
    int64_t start;
    int32_t settings[SETTINGS];
    uint8_t text[TEXT];
    int64_t metre;
    uint64_t seconds_1[LOG], bits_1[LOG], seconds_2[LOG], bits_2[LOG], tolerance;
    double alt, sec, lst, g_long, f107a, f107; /* asked of a station */
    int32_t next_switches[25];
    struct {
        uint64_t days, many_fields, ap_arrays, answers, many_rows;
        uint64_t fields, ap_array, switches, row, nine, altitudes, rows, list, counts, whole, numbers, next_switches, settings, losses, end, text, table;
        uint64_t seconds_1, bits_1, seconds_2, bits_2, report;
    } n;
} given;

/* What is lent to a call, each one longer than the call needs. */
static double row[12], rows[11 * ALTITUDES + 1], numbers[POTIREHU_STATION_NUMBERS + 1];
static uint64_t answers[RECORDS + 2], list[ALTITUDES];
static int32_t counts[POTIREHU_COUNTS + 1], whole[POTIREHU_STATION_WHOLE + 1], table[POTIREHU_BANDS + 1];
static int64_t losses[SETTINGS], end[4];
static uint32_t report[513];

#define RECORD given.year, given.doy, given.fields, given.n.fields, given.ap_array, given.n.ap_array, given.switches, given.n.switches
#define MANY_RECORDS given.days, given.n.days, given.many_fields, given.n.many_fields, given.ap_arrays, given.n.ap_arrays
#define STATION whole, given.n.whole, numbers, given.n.numbers

static const char bands_text[] = "(band 0 120000 (switches 1 1 1 1 1 1 1 1 1 1 1 1 1 1 1 1 1 1 1 1 1 1 1 1))\n"
                                 "(band 120000 450000 (switches 1 1 1 1 1 1 1 0 0 0 0 1 1 1 0 1 1 1 1 1 1 1 1 1))\n"
                                 "(band 450000 2500001 (switches 1 0 1 1 1 1 1 1 1 1 2 1 1 1 1 1 1 1 1 1 1 1 1 1))\n";

static void give_text(const char *text) {
    given.n.text = strlen(text);
    memcpy(given.text, text, (size_t)given.n.text);
}

/* What is given as a record becomes the i-th of many. */
static void give_as_one_of_many(int i) {
    given.days[i] = given.doy;
    memcpy(given.many_fields + 8 * i, given.fields, 8 * sizeof(double));
    memcpy(given.ap_arrays + 7 * i, given.ap_array, 7 * sizeof(double));
}

static void give_number_of_records(uint64_t n, int histories) {
    given.n.days = given.n.answers = n;
    given.n.many_fields = 8 * n;
    given.n.ap_arrays = histories ? 7 * n : 0;
    given.n.many_rows = 11 * n;
}

/* The first published sample, eight records from it on, a column over it, a descent, a table of bands, two logs; every length as it should be. */
static void give_first(void) {
    static const double fields[8] = {29000, 400, 60, -70, 16, 150, 150, 4}, nine[9] = {831.4, 28.95, 200, 300, 160, 250, 240, 320, 450};
    memset(&given, 0, sizeof given);
    given.year = 2026;
    given.doy = 172;
    memcpy(given.fields, fields, sizeof fields);
    memcpy(given.nine, nine, sizeof nine);
    for (int i = 0; i < 8; i++) given.ap_array[i] = 100;
    for (int i = RECORDS - 1; i >= 0; i--) { /* 10 s apart, back to the sample itself */
        given.fields[0] = 29000 + 10 * i;
        given.fields[2] = 60 - 0.5 * i;
        given.fields[3] = -70 + 0.75 * i;
        given.fields[4] = 16 + 0.0625 * i;
        give_as_one_of_many(i);
    }
    give_number_of_records(8, 0);
    for (int i = 0; i < 24; i++) given.switches[i] = given.next_switches[i] = 1;
    given.next_switches[7] = 0;
    given.known = 0x3ff;
    for (int i = 0; i < ALTITUDES; i++) given.altitudes[i] = 60.0 + 90.0 * i;
    given.level = 1e-11;
    given.start = 400000000;
    for (int i = 0; i < SETTINGS; i++) given.settings[i] = 1 + i % 4;
    give_text(bands_text);
    given.metre = 400000;
    for (int i = 0; i < LOG; i++) {
        given.seconds_1[i] = 10 * (uint64_t)i;
        given.seconds_2[i] = 10 * (uint64_t)i + (uint64_t)i % 3;
        given.bits_1[i] = given.bits_2[i] = 0x3d91eaf4c0000000u + (uint64_t)i;
    }
    given.tolerance = 1;
    given.alt = 400;
    given.sec = 30000;
    given.lst = 17;
    given.g_long = -60;
    given.f107a = 140;
    given.f107 = 160;
    given.n.fields = 8;
    given.n.switches = given.n.next_switches = 24;
    given.n.row = 11;
    given.n.nine = POTIREHU_NINE;
    given.n.altitudes = 8;
    given.n.rows = 11 * 8;
    given.n.list = 8;
    given.n.counts = POTIREHU_COUNTS;
    given.n.whole = POTIREHU_STATION_WHOLE;
    given.n.numbers = POTIREHU_STATION_NUMBERS;
    given.n.settings = given.n.losses = 4;
    given.n.end = 3;
    given.n.table = POTIREHU_BANDS;
    given.n.seconds_1 = given.n.bits_1 = given.n.seconds_2 = given.n.bits_2 = 20;
    given.n.report = 512;
}

/* ---- by the generator */

/* any altitude, the lower ones and the edges of the model oftener */
static inline double altitude(void) {
    static const double edges[] = {0, 32.5, 72.5, 62.5, 120, 123.435, 500, 1000, 2500, 15, 90};
    switch (below(16)) {
    case 0: return edges[below(sizeof edges / sizeof *edges)];
    case 1:
    case 2:
    case 3: return between(0, 72.5);
    case 4:
    case 5:
    case 6: return between(72.5, 125);
    case 7: return between(0, 2500);
    default: return between(100, 1000);
    }
}

static inline void give_row(int32_t *switches) {
    const uint64_t kind = below(4);
    for (int i = 0; i < 24; i++) switches[i] = kind < 2 ? 1 : kind == 2 ? (int32_t)below(3) : (int32_t)below(4) - 1;
    if (below(8)) switches[15] = 1;
    if (below(8)) switches[9] = (int32_t)below(3) - 1;
}

/* A record that is accepted, save where the row asks for a history that is not there, or for N2 that is not mixed. */
static inline void give_record(void) {
    give_first();
    given.doy = 1 + (int32_t)below(366);
    given.fields[0] = between(0, 86400);
    given.fields[1] = altitude();
    given.fields[2] = between(-90, 90);
    given.fields[3] = between(-180, 360);
    given.fields[4] = between(0, 24);
    given.fields[5] = between(60, 400);
    given.fields[6] = between(60, 400);
    given.fields[7] = between(0, 400);
    for (int i = 0; i < 7; i++) given.ap_array[i] = between(0, 400);
    given.n.ap_array = below(4) ? 7 : 0;
    give_row(given.switches);
}

static inline void give_altitudes(int rising) {
    given.n.altitudes = below(17);
    given.n.rows = 11 * given.n.altitudes;
    given.n.list = given.n.altitudes;
    for (uint64_t i = 0; i < given.n.altitudes; i++) {
        given.altitudes[i] = rising ? (i ? given.altitudes[i - 1] : 0) + between(0, 120) : altitude();
    }
    given.level = from_bits((1023 - below(60)) << 52 | next() >> 12);
}

#endif
