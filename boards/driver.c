/* driver.c: runs every call of potirehu.h on the same inputs on each board and writes all that they answer and lend into driver.out, for a comparison byte
   for byte; any NaN is written as one. Prints, of each part, how many calls there were, how many were refused, and where in the file it ends. A new call is a
   function here and a line in 'calls'; what it may be refused for goes into 'vary'. SHARE divides the counts of those by the generator. */
#include "cases.h"

#include <stdio.h>
#include <stdlib.h>

#ifndef SHARE
#define SHARE 1
#endif
#define COUNT(n) ((n) / SHARE > 0 ? (n) / SHARE : 1)

static FILE *out;
static long calls_made, refusals;
static uint32_t numbers_given; /* bit n: a refusal with number n was given */
static unsigned long long written;

static void put(const void *from, size_t size) {
    if (fwrite(from, 1, size, out) != size) {
        printf("driver: cannot write driver.out\n");
        exit(1);
    }
    written += size;
}

static void put_doubles(const double *x, size_t n) {
    static uint64_t bits[11 * ALTITUDES + 1];
    for (size_t i = 0; i < n; i++) bits[i] = x[i] == x[i] ? bits_of(x[i]) : 0x7ff8000000000000u;
    put(bits, n * sizeof *bits);
}

static void put_answer(uint64_t answer) {
    calls_made++;
    refusals += POTIREHU_REFUSED(answer);
    numbers_given |= 1u << POTIREHU_NUMBER(answer) % 32;
    put(&answer, sizeof answer);
}

static void part(const char *name) {
    printf("%s: %ld calls, %ld refused, to byte %llu\n", name, calls_made, refusals, written);
    calls_made = refusals = 0;
}

/* what is lent holds numbers of its own before a call, so that what stays is seen */
static void fill_doubles(double *x, size_t n) {
    for (size_t i = 0; i < n; i++) x[i] = 0.5 + (double)i;
}

/* ---- each call, on what is given */

static void ask_row(uint64_t answer) {
    put_answer(answer);
    put_doubles(row, 12);
    fill_doubles(row, 12);
}

static void gtd7(void) { ask_row(potirehu_gtd7(RECORD, row, given.n.row)); }
static void gtd7d(void) { ask_row(potirehu_gtd7d(RECORD, row, given.n.row)); }
static void gtd7_known(void) { ask_row(potirehu_gtd7_known(given.known, RECORD, row, given.n.row)); }
static void gtd7_with(void) { ask_row(potirehu_gtd7_with(given.nine, given.n.nine, RECORD, row, given.n.row)); }

static void which_count(void) {
    memset(counts, 7, sizeof counts);
    put_answer(potirehu_counts(given.switches, given.n.switches, counts, given.n.counts));
    put(counts, sizeof counts);
}

static void gtd7_records(void) {
    memset(answers, 7, sizeof answers);
    fill_doubles(rows, 11 * (RECORDS + 1));
    const uint64_t answer = potirehu_gtd7_records(MANY_RECORDS, given.switches, given.n.switches, answers, given.n.answers, rows, given.n.many_rows);
    put_answer(answer);
    for (uint64_t i = 0; i < given.n.days && answer == 0; i++) put_answer(answers[i]);
    put(answers, sizeof answers);
    put_doubles(rows, 11 * (RECORDS + 1));
}

static void column(void) {
    const size_t n = given.n.altitudes < 512 ? (size_t)given.n.altitudes : 512;
    fill_doubles(rows, 11 * n + 1);
    put_answer(potirehu_gtd7_column(RECORD, given.altitudes, given.n.altitudes, rows, given.n.rows));
    put_doubles(rows, 11 * n + 1);
}

static void crossings(void) {
    memset(list, 7, sizeof list);
    put_answer(potirehu_crossings(RECORD, given.altitudes, given.n.altitudes, given.level, list, given.n.list));
    put(list, 20 * sizeof *list);
}

static void first_below(void) {
    ask_row(potirehu_first_below(RECORD, given.altitudes, given.n.altitudes, given.level, row, given.n.row));
}

static void put_station(void) {
    put(whole, sizeof whole);
    put_doubles(numbers, POTIREHU_STATION_NUMBERS + 1);
}

static void station(void) { put_answer(potirehu_station(RECORD, STATION)); }
static void station_gtd7(void) { ask_row(potirehu_station_gtd7(STATION, given.alt, row, given.n.row)); }
static void station_gtd7d(void) { ask_row(potirehu_station_gtd7d(STATION, given.alt, row, given.n.row)); }
static void station_sec(void) { put_answer(potirehu_station_sec(STATION, given.sec)); }
static void station_lst(void) { put_answer(potirehu_station_lst(STATION, given.lst)); }
static void station_g_long(void) { put_answer(potirehu_station_g_long(STATION, given.g_long)); }
static void station_fluxes(void) { put_answer(potirehu_station_fluxes(STATION, given.f107a, given.f107)); }
static void station_move(void) { put_answer(potirehu_station_move(STATION, given.sec, given.lst, given.g_long)); }
static void station_switches(void) { put_answer(potirehu_station_switches(STATION, given.next_switches, given.n.next_switches)); }

static void descent(void) {
    const size_t n = given.n.settings < 64 ? (size_t)given.n.settings + 1 : 64;
    memset(losses, 7, sizeof losses);
    memset(end, 7, sizeof end);
    put_answer(potirehu_descent(RECORD, given.start, given.settings, given.n.settings, losses, given.n.losses, end, given.n.end));
    put(losses, n * sizeof *losses);
    put(end, sizeof end);
}

static void bands(void) {
    put_answer(potirehu_bands(given.text, given.n.text, table, given.n.table));
    put(table, sizeof table);
}

static void bands_gtd7(void) {
    ask_row(potirehu_bands_gtd7(table, given.n.table, given.metre, given.year, given.doy, given.fields, given.n.fields, given.ap_array, given.n.ap_array,
                                row, given.n.row));
}

static void logs(void) {
    memset(report, 7, sizeof report);
    put_answer(potirehu_logs(given.seconds_1, given.n.seconds_1, given.bits_1, given.n.bits_1, given.seconds_2, given.n.seconds_2, given.bits_2,
                             given.n.bits_2, given.tolerance, report, given.n.report));
    put(report, sizeof report);
}

/* Each call with the numbers that it refuses with. Those of a station, and of a table of bands, are made on one that was prepared. */
static const struct {
    const char *name;
    void (*call)(void);
    const char *refusals;
    int of_a_station, of_bands;
} calls[] = {
    {"gtd7", gtd7, " 1 2 3 4 10", 0, 0},
    {"gtd7d", gtd7d, " 1 2 3 4 10", 0, 0},
    {"gtd7_known", gtd7_known, " 1 2 3 4 10", 0, 0},
    {"gtd7_with", gtd7_with, " 1 2 3 4 10 16", 0, 0},
    {"counts", which_count, " 4", 0, 0},
    {"gtd7_records", gtd7_records, " 1 2 3 4 10", 0, 0},
    {"gtd7_column", column, " 1 2 3 4 5 10", 0, 0},
    {"crossings", crossings, " 1 2 3 4 5 8 9 10", 0, 0},
    {"first_below", first_below, " 1 2 3 4 5 10", 0, 0},
    {"station", station, " 1 2 3 4", 1, 0},
    {"station_gtd7", station_gtd7, " 2 3 4 10", 1, 0},
    {"station_gtd7d", station_gtd7d, " 2 3 4 10", 1, 0},
    {"station_sec", station_sec, " 2 3 4", 1, 0},
    {"station_lst", station_lst, " 2 3 4", 1, 0},
    {"station_g_long", station_g_long, " 2 3 4", 1, 0},
    {"station_fluxes", station_fluxes, " 2 3 4", 1, 0},
    {"station_move", station_move, " 2 3 4", 1, 0},
    {"station_switches", station_switches, " 1 3 4", 1, 0}, /* 3 on arrays that were never prepared */
    {"descent", descent, " 1 2 3 4 17 18 19", 0, 0},
    {"bands", bands, " 4 11 12 13", 0, 1},
    {"bands_gtd7", bands_gtd7, " 1 2 3 4 10", 0, 1},
    {"logs", logs, " 4 14 15", 0, 0},
};

/* ---- what a call may be refused for, and what is odd: each call is made with each of these */

static const double odd[] = {-1.0, 0.0, -0.0, 72.0, 72.5, 32.5, 90.5, 1000.5, 2500.0, 2500.5, 86400.5, 401.0, 1e300, -1e300, 5e-324};
#define ODD (sizeof odd / sizeof *odd)

static double strange(uint64_t k) {
    return k < ODD ? odd[k] : from_bits(k == ODD ? 0x7ff8000000000000u : k == ODD + 1 ? 0x7ff0000000000000u : 0xfff0000000000000u);
}

/* The k-th; 0 where there is none. */
static int vary(uint64_t k) {
    uint64_t *const lengths[] = {&given.n.fields, &given.n.ap_array, &given.n.switches, &given.n.row, &given.n.nine, &given.n.altitudes, &given.n.rows,
                                 &given.n.list, &given.n.counts, &given.n.whole, &given.n.numbers, &given.n.next_switches, &given.n.settings,
                                 &given.n.losses, &given.n.end, &given.n.text, &given.n.table, &given.n.seconds_1, &given.n.bits_1, &given.n.seconds_2,
                                 &given.n.bits_2, &given.n.report, &given.n.days, &given.n.many_fields, &given.n.ap_arrays, &given.n.answers,
                                 &given.n.many_rows};
    const uint64_t n_lengths = sizeof lengths / sizeof *lengths;
    double *const values[] = {&given.fields[0], &given.fields[1], &given.fields[2], &given.fields[3], &given.fields[4], &given.fields[5], &given.fields[6],
                              &given.fields[7], &given.ap_array[0], &given.ap_array[3], &given.ap_array[6], &given.nine[0], &given.nine[1], &given.nine[4],
                              &given.nine[8], &given.altitudes[0], &given.altitudes[3], &given.altitudes[7], &given.level, &given.alt, &given.sec,
                              &given.lst, &given.g_long, &given.f107a, &given.f107, &given.many_fields[0], &given.many_fields[8 + 1],
                              &given.many_fields[8 * 7 + 7], &given.ap_arrays[7 + 3]};
    const uint64_t n_values = sizeof values / sizeof *values;
    static const int32_t whole_values[] = {0, 1, 2, -1, 5, 367, 366, -2147483647 - 1, 2147483647};
    static const double masses[] = {1, 4, 14, 16, 28, 32, 40};
    static const char *const texts[] = {"", "\n", "(band 0 2500001 (switches 1 1 1 1 1 1 1 1 1 1 1 1 1 1 1 1 1 1 1 1 1 1 1 1))",
                                        "(band 0 2500001 (switches 1 1 1 1 1 1 1 1 1 1 1 1 1 1 1 1 1 1 1 1 1 1 1))",
                                        "(band 0 2500002 (switches 1 1 1 1 1 1 1 1 1 1 1 1 1 1 1 1 1 1 1 1 1 1 1 1))",
                                        "(band 0 100 (switches 1 1 1 1 1 1 1 1 1 1 1 1 1 1 1 1 1 1 1 1 1 1 1 1))",
                                        "(band 0 100 (switches 1 1 1 1 1 1 1 1 1 1 1 1 1 1 1 1 1 1 1 1 1 1 1 1))\n"
                                        "(band 90 2500001 (switches 1 1 1 1 1 1 1 1 1 1 1 1 1 1 1 1 1 1 1 1 1 1 1 1))",
                                        "(band 0 100 (switches 1 1 1 1 1 1 1 1 1 1 1 1 1 1 1 1 1 1 1 1 1 1 1 1))\n"
                                        "(band 110 2500001 (switches 1 1 1 1 1 1 1 1 1 1 1 1 1 1 1 1 1 1 1 1 1 1 1 1))",
                                        "(band 0 2500001 (switches 1 1 1 1 1 1 1 1 1 -1 1 1 1 1 1 1 1 1 1 1 1 1 1 1))",
                                        "(band 0 2500001 (switches 1 1 1 1 1 1 1 1 1 1 1 1 1 1 1 0 1 1 1 1 1 1 1 1))",
                                        "(band 100 100 (switches 1 1 1 1 1 1 1 1 1 1 1 1 1 1 1 1 1 1 1 1 1 1 1 1))", "(band -0 100 (switches 1))", "\xff"};
    static const int64_t large[] = {-1, 0, 1, 72000, 199999999, 200000000, 1000000000, 1000000001, 2500000, 2500001, INT64_MIN, INT64_MAX};
    if (k == 0) return 1;
    k--;
    if (k < 4 * n_lengths) {
        uint64_t *const length = lengths[k / 4];
        const uint64_t lengths_tried[] = {*length + 1, *length - (*length > 0), 0, length == &given.n.altitudes ? 513 : *length + 1};
        *length = lengths_tried[k % 4];
        return 1;
    }
    k -= 4 * n_lengths;
    if (k < (ODD + 3) * n_values) {
        *values[k / (ODD + 3)] = strange(k % (ODD + 3));
        given.n.ap_array = 7;
        given.n.ap_arrays = 7 * given.n.days;
        return 1;
    }
    k -= (ODD + 3) * n_values;
    if (k < 9 * 5) {
        int32_t *const wholes[] = {&given.year, &given.doy, &given.settings[2], &given.settings[0], &given.days[1]};
        *wholes[k / 9] = whole_values[k % 9];
        return 1;
    }
    k -= 9 * 5;
    if (k < 9 * 24) { /* an entry of a row, and of a station's next one */
        given.switches[k / 9] = given.next_switches[k / 9] = whole_values[k % 9];
        return 1;
    }
    k -= 9 * 24;
    if (k < 4) { /* the history asked for, there and not there; below 72.5 km with N2 not mixed */
        given.switches[9] = given.next_switches[9] = -1;
        given.n.ap_array = k % 2 ? 7 : 0;
        given.n.ap_arrays = k % 2 ? 7 * given.n.days : 0;
        if (k / 2) given.switches[15] = 0, given.next_switches[15] = 0, given.fields[1] = given.alt = given.altitudes[0] = given.many_fields[8 + 1] = 50;
        return 1;
    }
    k -= 4;
    if (k < 7) {
        given.nine[1] = masses[k];
        return 1;
    }
    k -= 7;
    if (k < 1) { /* the N2 altitude below 72.5 */
        given.nine[4] = 70;
        given.fields[1] = 60;
        return 1;
    }
    k -= 1;
    if (k < 13) {
        give_text(texts[k]);
        given.metre = 50000;
        return 1;
    }
    k -= 13;
    if (k < 12) {
        given.start = given.metre = large[k];
        return 1;
    }
    k -= 12;
    if (k < 12) { /* fields that are not known, and may be anything */
        given.known = k < 10 ? 0x3ffu & ~(1u << k) : k == 10 ? 0 : 0xffffffffu;
        if (k > 1 && k < 10) given.fields[k - 2] = strange(ODD);
        return 1;
    }
    k -= 12;
    if (k < 2) { /* what is left counts under a row without longitude, time and activity */
        given.known = 0x3ffu & ~(1u << 2 | 1u << 5 | 1u << 6 | 1u << 9);
        for (int i = 0; i < 8; i += 1) given.fields[i] = i == 0 || i == 3 || i == 4 || i == 7 ? strange(ODD) : given.fields[i];
        if (k) given.switches[7] = given.switches[8] = given.switches[9] = given.switches[10] = given.switches[14] = 0;
        return 1;
    }
    k -= 2;
    if (k < 5) { /* logs too long, uneven, not rising */
        if (k == 0) given.n.seconds_1 = given.n.bits_1 = 257;
        if (k == 1) given.n.seconds_2 = given.n.bits_2 = 257;
        if (k == 2) given.seconds_1[7] = given.seconds_1[6];
        if (k == 3) given.seconds_2[19] = 0;
        if (k == 4) given.n.seconds_1 = given.n.bits_1 = given.n.seconds_2 = given.n.bits_2 = 256;
        return 1;
    }
    k -= 5;
    if (k < 4) {
        static const uint64_t tolerances[] = {0, 2, UINT64_MAX, UINT64_MAX - 1};
        given.tolerance = tolerances[k];
        return 1;
    }
    k -= 4;
    if (k < 1) {
        given.n.settings = SETTINGS;
        given.n.losses = SETTINGS;
        return 1;
    }
    return 0;
}

/* A station and a table of bands of what is given; what they answer is not looked at. */
static void prepare(int of_a_station, int of_bands) {
    if (of_a_station) {
        fill_doubles(numbers, POTIREHU_STATION_NUMBERS + 1);
        memset(whole, 7, sizeof whole);
        if (POTIREHU_REFUSED(potirehu_station(RECORD, STATION))) memset(whole, 0, sizeof whole);
    }
    if (of_bands) {
        memset(table, 7, sizeof table);
        if (POTIREHU_REFUSED(potirehu_bands(given.text, given.n.text, table, given.n.table))) memset(table, 0, sizeof table);
    }
}

/* Each call with each of 'vary', those of a station or of bands on the first one and on one that was varied too. A call that refuses with other numbers than
   it should stops the driver. */
static void every_refusal(void) {
    for (size_t c = 0; c < sizeof calls / sizeof *calls; c++) {
        const int prepared = calls[c].of_a_station || calls[c].of_bands;
        char seen[64] = "";
        numbers_given = 0;
        for (int late = 0; late <= prepared; late++) {
            for (uint64_t k = 0;; k++) {
                give_first();
                if (!late) prepare(calls[c].of_a_station, calls[c].of_bands);
                if (!vary(k)) break;
                if (late) prepare(calls[c].of_a_station, calls[c].of_bands);
                calls[c].call();
                if (calls[c].of_a_station) put_station();
            }
        }
        for (int n = 1; n < 32; n++) {
            if (numbers_given >> n & 1) sprintf(seen + strlen(seen), " %d", n);
        }
        if (strcmp(seen, calls[c].refusals) != 0) {
            printf("driver: potirehu_%s refuses with%s, and should with%s\n", calls[c].name, seen, calls[c].refusals);
            exit(1);
        }
    }
    part("every call with each of its refusals");
}

/* ---- the published samples */

static void samples(void) {
    static const struct {
        int32_t doy;
        double fields[8];
        int history;
    } published[17] = {
        {172, {29000, 400, 60, -70, 16, 150, 150, 4}, 0},  {81, {29000, 400, 60, -70, 16, 150, 150, 4}, 0},  {172, {75000, 1000, 60, -70, 16, 150, 150, 4}, 0},
        {172, {29000, 100, 60, -70, 16, 150, 150, 4}, 0},  {172, {29000, 400, 0, -70, 16, 150, 150, 4}, 0},  {172, {29000, 400, 60, 0, 16, 150, 150, 4}, 0},
        {172, {29000, 400, 60, -70, 4, 150, 150, 4}, 0},   {172, {29000, 400, 60, -70, 16, 70, 150, 4}, 0},  {172, {29000, 400, 60, -70, 16, 150, 180, 4}, 0},
        {172, {29000, 400, 60, -70, 16, 150, 150, 40}, 0}, {172, {29000, 0, 60, -70, 16, 150, 150, 4}, 0},   {172, {29000, 10, 60, -70, 16, 150, 150, 4}, 0},
        {172, {29000, 30, 60, -70, 16, 150, 150, 4}, 0},   {172, {29000, 50, 60, -70, 16, 150, 150, 4}, 0},  {172, {29000, 70, 60, -70, 16, 150, 150, 4}, 0},
        {172, {29000, 400, 60, -70, 16, 150, 150, 4}, 1},  {172, {29000, 100, 60, -70, 16, 150, 150, 4}, 1},
    };
    for (int i = 0; i < 17; i++) {
        give_first();
        given.year = 0;
        given.doy = published[i].doy;
        memcpy(given.fields, published[i].fields, sizeof published[i].fields);
        given.switches[0] = 0;
        if (published[i].history) {
            given.switches[9] = -1;
            given.n.ap_array = 7;
        }
        gtd7();
    }
    part("published samples");
}

/* ---- by the generator */

/* A record; one of sixteen has a field that is odd. */
static void give_any_record(void) {
    give_record();
    if (below(16) == 0) given.fields[below(8)] = strange(below(ODD + 3));
}

static void records(void) {
    for (long k = 0; k < COUNT(100000); k++) {
        give_any_record();
        gtd7();
    }
    part("records");
    for (long k = 0; k < COUNT(10000); k++) {
        give_any_record();
        gtd7d();
        which_count();
        given.known = 0x3ffu & ~(uint32_t)(below(2) ? 0 : 1u << below(10));
        gtd7_known();
        for (int i = 0; i < 9; i++) given.nine[i] *= below(2) ? 1.0 : between(0.8, 1.2);
        gtd7_with();
    }
    part("records for drag, known in part, with nine constants, and which fields count");
}

/* A list of records: days, altitudes and places that change or stay, one row for all. */
static void many_records(void) {
    for (long k = 0; k < COUNT(5000); k++) {
        const uint64_t n = below(RECORDS + 1);
        int32_t doy, days[2], switches[24], many_days[RECORDS];
        double alt, many_fields[8 * RECORDS], ap_arrays[7 * RECORDS];
        give_record();
        doy = days[0] = days[1] = given.doy;
        alt = given.fields[1];
        memcpy(switches, given.switches, sizeof switches);
        for (uint64_t i = 0; i < n; i++) {
            give_any_record();
            days[1] = below(8) ? days[1] : given.doy;
            doy = below(3) ? doy : days[below(2)];
            alt = below(3) ? alt : given.fields[1];
            many_days[i] = below(32) ? doy : 367;
            memcpy(many_fields + 8 * i, given.fields, 8 * sizeof(double));
            many_fields[8 * i + 1] = below(16) ? alt : given.fields[1];
            memcpy(ap_arrays + 7 * i, given.ap_array, 7 * sizeof(double));
        }
        memcpy(given.switches, switches, sizeof switches);
        memcpy(given.days, many_days, (size_t)n * sizeof *many_days);
        memcpy(given.many_fields, many_fields, 8 * (size_t)n * sizeof(double));
        memcpy(given.ap_arrays, ap_arrays, 7 * (size_t)n * sizeof(double));
        give_number_of_records(n, below(4) != 0);
        if (n < RECORDS) {
            given.n.answers += below(2);
            given.n.many_rows += below(12);
        }
        gtd7_records();
    }
    part("lists of records, the lists and each record");
}

static void columns(void) {
    for (long k = 0; k < COUNT(10000); k++) {
        give_any_record();
        give_altitudes(0);
        column();
    }
    part("columns");
    for (long k = 0; k < COUNT(2000); k++) {
        give_any_record();
        give_altitudes(1);
        crossings();
        first_below();
    }
    part("crossings and first altitudes");
}

static void stations(void) {
    static void (*const changes[])(void) = {station_sec, station_lst, station_g_long, station_fluxes, station_move, station_switches};
    for (long k = 0; k < COUNT(10000); k++) {
        give_any_record();
        memset(whole, 7, sizeof whole);
        fill_doubles(numbers, POTIREHU_STATION_NUMBERS + 1);
        station();
        put_station();
        for (int step = 0; step < 4; step++) {
            for (int i = 0; i < 2; i++) {
                given.alt = altitude();
                station_gtd7();
            }
            station_gtd7d();
            given.sec = between(0, 86400);
            given.lst = between(0, 24);
            given.g_long = below(16) ? between(-180, 360) : strange(below(ODD + 3));
            given.f107a = between(60, 400);
            given.f107 = between(60, 400);
            give_row(given.next_switches);
            changes[below(6)]();
        }
        put_station();
    }
    part("stations with changes and new rows");
}

static void descents(void) {
    for (long k = 0; k < COUNT(1000); k++) {
        give_any_record();
        given.start = 200000000 + (int64_t)below(800000000);
        given.n.settings = given.n.losses = below(33);
        for (int i = 0; i < 33; i++) given.settings[i] = 1 + (int32_t)below(4);
        descent();
    }
    part("descents");
}

/* a text of one to five bands that cover all, one of four with a byte changed */
static void give_bands(void) {
    char text[TEXT];
    int at = 0, from = 0, n = 1 + (int)below(5);
    for (int i = 0; i < n; i++) {
        const int to = i == n - 1 ? 2500001 : from + 1 + (int)below((uint64_t)(2500001 - from - n));
        int32_t switches[24];
        give_row(switches);
        at += sprintf(text + at, "(band %d %d (switches", from, to);
        for (int j = 0; j < 24; j++) at += sprintf(text + at, " %ld", (long)switches[j]);
        at += sprintf(text + at, "))\n");
        from = to;
    }
    give_text(text);
    if (below(4) == 0) given.text[below(given.n.text)] = (uint8_t)(below(2) ? 48 + below(10) : next());
}

static void banded(void) {
    for (long k = 0; k < COUNT(2000); k++) {
        give_any_record();
        give_bands();
        memset(table, 7, sizeof table);
        bands();
        for (int i = 0; i < 4; i++) {
            given.metre = (int64_t)below(2500001);
            bands_gtd7();
        }
    }
    part("tables of bands and densities in them");
}

static void give_log(uint64_t *seconds, uint64_t *bits, uint64_t *n, uint64_t *n_bits) {
    uint64_t second = below(10);
    *n = *n_bits = below(257);
    for (uint64_t i = 0; i < *n; i++) {
        seconds[i] = second;
        second += below(1024) ? 1 + below(5) : below(2) << 40;
        bits[i] = below(3);
    }
}

static void held(void) {
    for (long k = 0; k < COUNT(2000); k++) {
        give_first();
        give_log(given.seconds_1, given.bits_1, &given.n.seconds_1, &given.n.bits_1);
        give_log(given.seconds_2, given.bits_2, &given.n.seconds_2, &given.n.bits_2);
        given.tolerance = below(4);
        logs();
    }
    part("boards' logs");
}

/* an argument: of every size, near 1, of the size that the model has, any bits, or odd */
static double argument(void) {
    switch (below(8)) {
    case 0: return from_bits(next());
    case 1: return strange(below(ODD + 3));
    case 2: return between(0.5, 2);
    case 3: return between(-1, 1);
    case 4: return between(-750, 750);
    case 5: return between(-70000, 70000);
    default: return between(-40, 40);
    }
}

static void elementary(void) {
    double (*const functions[])(double) = {elementary_exp, elementary_log, elementary_sin, elementary_cos, elementary_sqrt};
    for (int f = 0; f < 6; f++) {
        for (long k = 0; k < COUNT(100000); k++) {
            const double x = argument(), y = f < 5 ? functions[f](x) : elementary_pow(x, below(2) ? argument() : (double)below(40) - 4);
            put_doubles(&y, 1);
            calls_made++;
        }
    }
    part("elementary functions");
}

int main(void) {
    out = fopen("driver.out", "wb");
    if (!out) {
        printf("driver: cannot open driver.out\n");
        return 1;
    }
    fill_doubles(row, 12);
    samples();
    every_refusal();
    records();
    many_records();
    columns();
    stations();
    descents();
    banded();
    held();
    elementary();
    if (fclose(out) != 0) {
        printf("driver: cannot close driver.out\n");
        return 1;
    }
    return 0;
}
