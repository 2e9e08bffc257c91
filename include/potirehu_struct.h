/* Each call of potirehu.h once more, over structs with named members: potirehu_struct_X is potirehu_X, with its rules, numbers and places. A latitude and a
   longitude cannot change places here, lengths that are fixed are not given, and a call's answer cannot be cut to 32 bits. All of it is static inline, for C99
   and C++, and is compiled away. In C fill a struct by its names, {.doy = 172, .alt = 400.0}: what is not named is 0, a history absent. */
#ifndef POTIREHU_STRUCT_H
#define POTIREHU_STRUCT_H

#include "potirehu.h"

/* ---- what goes in */

/* The magnetic history, ap_array of potirehu.h, 0 to 400 each: the day's, 3-hour values, and means over hours before. */
struct potirehu_history {
    double daily, now, before_3_hours, before_6_hours, before_9_hours, mean_12_to_33_hours, mean_36_to_57_hours;
};

/* A record. The history is read where switch 9 is -1; NULL where it is absent. Where a call has altitudes of its own, alt is not looked at. */
struct potirehu_record {
    int32_t year;   /* read by nothing */
    int32_t doy;    /* day of the year, 1 to 366 */
    double sec;     /* UT, 0 to 86,400 s */
    double alt;     /* 0 to 2,500 km */
    double g_lat;   /* -90 to 90 degrees */
    double g_long;  /* -1,000 to 1,000 degrees east */
    double lst;     /* -24 to 48 hours; does not follow sec or g_long by itself */
    double f107a;   /* 81-day mean, 0 to 1,000 */
    double f107;    /* the day before, 0 to 1,000 */
    double ap;      /* daily, 0 to 400 */
    const struct potirehu_history *history;
};

/* n records without their years, one behind the other: each one's doy, its fields, and its history, or NULL where the histories are absent. */
struct potirehu_fields {
    double sec, alt, g_lat, g_long, lst, f107a, f107, ap; /* as in potirehu_record */
};

struct potirehu_records {
    uint64_t n;
    const int32_t *days;
    const struct potirehu_fields *fields;
    const struct potirehu_history *histories;
};

/* A switch row: entry[POTIREHU_SWITCH_..]. */
struct potirehu_switches {
    int32_t entry[24];
};

/* All on, in m and kg. */
static inline struct potirehu_switches potirehu_all_on(void) {
    struct potirehu_switches switches = {{1, 1, 1, 1, 1, 1, 1, 1, 1, 1, 1, 1, 1, 1, 1, 1, 1, 1, 1, 1, 1, 1, 1, 1}};
    return switches;
}

/* The constants of potirehu_gtd7_with; he to n are the altitudes in km as far as which each is mixed. */
struct potirehu_parameters {
    double rgas, xmm, he, o, n2, o2, ar, h, n;
};

/* The model's own. */
static inline struct potirehu_parameters potirehu_present(void) {
    struct potirehu_parameters nine = {831.4, 28.95, 200.0, 300.0, 160.0, 250.0, 240.0, 320.0, 450.0};
    return nine;
}

/* A board's log: n seconds, and n densities by their bits. */
struct potirehu_log {
    const uint64_t *seconds, *bits;
    uint64_t n;
};

/* ---- what comes out */

/* The row, in m^-3, kg/m^3 and K; in cm^-3, g/cm^3 and K where switch 0 is not 1. */
struct potirehu_row {
    double he, o, n2, o2, ar, density, h, n, anomalous_o, temperature_exo, temperature_alt;
};

/* Number 0 is accepted; else it is the refusal's, with its place, and what was lent is as it was. */
struct potirehu_answer {
    unsigned long number, place;
};

/* The same with how many there are; 0 where it is refused. */
struct potirehu_count_answer {
    unsigned long number, place;
    uint64_t count;
};

/* The same with an index where found is 1. Where it is refused or nowhere, found is 0 and index no index. */
struct potirehu_index_answer {
    unsigned long number, place;
    int found;
    uint64_t index;
};

/* Which fields count: field[POTIREHU_FIELD_..] is 1 or 0. */
struct potirehu_counting {
    int32_t field[POTIREHU_COUNTS];
};

/* How a descent ended, its last altitude in millimetres, and how many losses it took. */
struct potirehu_end {
    int64_t ending, altitude, taken;
};

enum potirehu_ending { POTIREHU_NO_DENSITY = 1, POTIREHU_REACHED = 2, POTIREHU_SPENT = 3 };

/* What potirehu_struct_logs finds, in order. */
struct potirehu_report {
    uint32_t finding[512];
};

enum potirehu_finding { POTIREHU_SAME_PAIR = 1, POTIREHU_OTHER_PAIR = 2, POTIREHU_SINGLE_1 = 3, POTIREHU_SINGLE_2 = 4 };

/* A prepared station and a table of bands: the library's own. */
struct potirehu_prepared {
    int32_t whole[POTIREHU_STATION_WHOLE];
    double numbers[POTIREHU_STATION_NUMBERS];
};

struct potirehu_band_table {
    int32_t numbers[POTIREHU_BANDS];
};

/* A struct of numbers is lent to the library as a slice of them: nothing may lie between them. */
typedef char potirehu_history_is_7_numbers[sizeof(struct potirehu_history) == 7 * sizeof(double) ? 1 : -1];
typedef char potirehu_fields_are_8_numbers[sizeof(struct potirehu_fields) == 8 * sizeof(double) ? 1 : -1];
typedef char potirehu_parameters_are_9_numbers[sizeof(struct potirehu_parameters) == 9 * sizeof(double) ? 1 : -1];
typedef char potirehu_row_is_11_numbers[sizeof(struct potirehu_row) == 11 * sizeof(double) ? 1 : -1];
typedef char potirehu_end_is_3_numbers[sizeof(struct potirehu_end) == 3 * sizeof(int64_t) ? 1 : -1];

static inline struct potirehu_answer potirehu_answer_of(uint64_t answer) {
    struct potirehu_answer of = {POTIREHU_NUMBER(answer), POTIREHU_PLACE(answer)};
    return of;
}

static inline struct potirehu_count_answer potirehu_count_of(uint64_t answer) {
    struct potirehu_count_answer of = {0, 0, (uint64_t)answer};
    if (POTIREHU_REFUSED(answer)) {
        of.number = POTIREHU_NUMBER(answer);
        of.place = POTIREHU_PLACE(answer);
        of.count = 0;
    }
    return of;
}

static inline struct potirehu_index_answer potirehu_index_of(uint64_t answer) {
    struct potirehu_index_answer of = {0, 0, 0, UINT64_MAX};
    if (POTIREHU_REFUSED(answer)) {
        of.number = POTIREHU_NUMBER(answer);
        of.place = POTIREHU_PLACE(answer);
    } else if (answer != POTIREHU_NOWHERE) {
        of.found = 1;
        of.index = (uint64_t)answer;
    }
    return of;
}

/* The record in the words of potirehu.h: for calls with 'fields' of eight, and its history as a slice of 7 or 0. */
#define POTIREHU_FIELDS_OF(r) {(r)->sec, (r)->alt, (r)->g_lat, (r)->g_long, (r)->lst, (r)->f107a, (r)->f107, (r)->ap}
#define POTIREHU_HISTORY_OF(r) (const double *)(r)->history, (r)->history ? 7 : 0
#define POTIREHU_RECORD_OF(r) (r)->year, (r)->doy, fields, 8, POTIREHU_HISTORY_OF(r)

/* ---- one altitude */

POTIREHU_CHECKED
static inline struct potirehu_answer potirehu_struct_gtd7(const struct potirehu_record *record, const struct potirehu_switches *switches,
                                                          struct potirehu_row *row) {
    const double fields[8] = POTIREHU_FIELDS_OF(record);
    return potirehu_answer_of(potirehu_gtd7(POTIREHU_RECORD_OF(record), switches->entry, 24, (double *)row, 11));
}

POTIREHU_CHECKED
static inline struct potirehu_answer potirehu_struct_gtd7d(const struct potirehu_record *record, const struct potirehu_switches *switches,
                                                           struct potirehu_row *row) {
    const double fields[8] = POTIREHU_FIELDS_OF(record);
    return potirehu_answer_of(potirehu_gtd7d(POTIREHU_RECORD_OF(record), switches->entry, 24, (double *)row, 11));
}

POTIREHU_CHECKED
static inline struct potirehu_answer potirehu_struct_gtd7_with(const struct potirehu_parameters *nine, const struct potirehu_record *record,
                                                               const struct potirehu_switches *switches, struct potirehu_row *row) {
    const double fields[8] = POTIREHU_FIELDS_OF(record);
    return potirehu_answer_of(
        potirehu_gtd7_with((const double *)nine, POTIREHU_NINE, POTIREHU_RECORD_OF(record), switches->entry, 24, (double *)row, 11));
}

/* known has the bit 1u << POTIREHU_FIELD_.. of each field that is known, the history apart. */
POTIREHU_CHECKED
static inline struct potirehu_answer potirehu_struct_gtd7_known(uint32_t known, const struct potirehu_record *record,
                                                                const struct potirehu_switches *switches, struct potirehu_row *row) {
    const double fields[8] = POTIREHU_FIELDS_OF(record);
    return potirehu_answer_of(potirehu_gtd7_known(known, POTIREHU_RECORD_OF(record), switches->entry, 24, (double *)row, 11));
}

POTIREHU_CHECKED
static inline struct potirehu_answer potirehu_struct_counts(const struct potirehu_switches *switches, struct potirehu_counting *counting) {
    return potirehu_answer_of(potirehu_counts(switches->entry, 24, counting->field, POTIREHU_COUNTS));
}

/* ---- many records */

/* answers[i] and rows[i] are the i-th record's; potirehu_answer_of(answers[i]) has its number and place. n_rows counts rows; the place of 4 counts numbers, 11
   a row. */
POTIREHU_CHECKED
static inline struct potirehu_answer potirehu_struct_gtd7_records(const struct potirehu_records *records, const struct potirehu_switches *switches,
                                                                  uint64_t *answers, uint64_t n_answers, struct potirehu_row *rows, uint64_t n_rows) {
    return potirehu_answer_of(potirehu_gtd7_records(records->days, records->n, (const double *)records->fields, 8 * records->n,
                                                    (const double *)records->histories, records->histories ? 7 * records->n : 0, switches->entry, 24,
                                                    answers, n_answers, (double *)rows, 11 * n_rows));
}

/* ---- many altitudes */

/* rows and n_rows count rows; the place of 4 counts numbers, 11 a row. */
POTIREHU_CHECKED
static inline struct potirehu_answer potirehu_struct_gtd7_column(const struct potirehu_record *record, const struct potirehu_switches *switches,
                                                                 const double *altitudes, uint64_t n, struct potirehu_row *rows, uint64_t n_rows) {
    const double fields[8] = POTIREHU_FIELDS_OF(record);
    return potirehu_answer_of(potirehu_gtd7_column(POTIREHU_RECORD_OF(record), switches->entry, 24, altitudes, n, (double *)rows, 11 * n_rows));
}

POTIREHU_CHECKED
static inline struct potirehu_count_answer potirehu_struct_crossings(const struct potirehu_record *record, const struct potirehu_switches *switches,
                                                                     const double *altitudes, uint64_t n, double level, uint64_t *list, uint64_t n_list) {
    const double fields[8] = POTIREHU_FIELDS_OF(record);
    return potirehu_count_of(potirehu_crossings(POTIREHU_RECORD_OF(record), switches->entry, 24, altitudes, n, level, list, n_list));
}

POTIREHU_CHECKED
static inline struct potirehu_index_answer potirehu_struct_first_below(const struct potirehu_record *record, const struct potirehu_switches *switches,
                                                                       const double *altitudes, uint64_t n, double level, struct potirehu_row *row) {
    const double fields[8] = POTIREHU_FIELDS_OF(record);
    return potirehu_index_of(potirehu_first_below(POTIREHU_RECORD_OF(record), switches->entry, 24, altitudes, n, level, (double *)row, 11));
}

/* ---- a station */

POTIREHU_CHECKED
static inline struct potirehu_answer potirehu_struct_station(const struct potirehu_record *record, const struct potirehu_switches *switches,
                                                             struct potirehu_prepared *station) {
    const double fields[8] = POTIREHU_FIELDS_OF(record);
    return potirehu_answer_of(potirehu_station(POTIREHU_RECORD_OF(record), switches->entry, 24, station->whole, POTIREHU_STATION_WHOLE,
                                               station->numbers, POTIREHU_STATION_NUMBERS));
}

#define POTIREHU_STATION_OF(station) (station)->whole, POTIREHU_STATION_WHOLE, (station)->numbers, POTIREHU_STATION_NUMBERS

POTIREHU_CHECKED
static inline struct potirehu_answer potirehu_struct_station_gtd7(const struct potirehu_prepared *station, double alt, struct potirehu_row *row) {
    return potirehu_answer_of(potirehu_station_gtd7(POTIREHU_STATION_OF(station), alt, (double *)row, 11));
}

POTIREHU_CHECKED
static inline struct potirehu_answer potirehu_struct_station_gtd7d(const struct potirehu_prepared *station, double alt, struct potirehu_row *row) {
    return potirehu_answer_of(potirehu_station_gtd7d(POTIREHU_STATION_OF(station), alt, (double *)row, 11));
}

POTIREHU_CHECKED
static inline struct potirehu_answer potirehu_struct_station_sec(struct potirehu_prepared *station, double sec) {
    return potirehu_answer_of(potirehu_station_sec(POTIREHU_STATION_OF(station), sec));
}

POTIREHU_CHECKED
static inline struct potirehu_answer potirehu_struct_station_lst(struct potirehu_prepared *station, double lst) {
    return potirehu_answer_of(potirehu_station_lst(POTIREHU_STATION_OF(station), lst));
}

POTIREHU_CHECKED
static inline struct potirehu_answer potirehu_struct_station_g_long(struct potirehu_prepared *station, double g_long) {
    return potirehu_answer_of(potirehu_station_g_long(POTIREHU_STATION_OF(station), g_long));
}

POTIREHU_CHECKED
static inline struct potirehu_answer potirehu_struct_station_fluxes(struct potirehu_prepared *station, double f107a, double f107) {
    return potirehu_answer_of(potirehu_station_fluxes(POTIREHU_STATION_OF(station), f107a, f107));
}

POTIREHU_CHECKED
static inline struct potirehu_answer potirehu_struct_station_move(struct potirehu_prepared *station, double sec, double lst, double g_long) {
    return potirehu_answer_of(potirehu_station_move(POTIREHU_STATION_OF(station), sec, lst, g_long));
}

POTIREHU_CHECKED
static inline struct potirehu_answer potirehu_struct_station_switches(struct potirehu_prepared *station, const struct potirehu_switches *switches) {
    return potirehu_answer_of(potirehu_station_switches(POTIREHU_STATION_OF(station), switches->entry, 24));
}

/* ---- a descent, bands, logs */

POTIREHU_CHECKED
static inline struct potirehu_answer potirehu_struct_descent(const struct potirehu_record *record, const struct potirehu_switches *switches,
                                                             int64_t start, const int32_t *settings, uint64_t n_settings, int64_t *losses,
                                                             uint64_t n_losses, struct potirehu_end *end) {
    const double fields[8] = POTIREHU_FIELDS_OF(record);
    return potirehu_answer_of(potirehu_descent(POTIREHU_RECORD_OF(record), switches->entry, 24, start, settings, n_settings, losses, n_losses,
                                               (int64_t *)end, 3));
}

POTIREHU_CHECKED
static inline struct potirehu_answer potirehu_struct_bands(const uint8_t *text, uint64_t n_text, struct potirehu_band_table *table) {
    return potirehu_answer_of(potirehu_bands(text, n_text, table->numbers, POTIREHU_BANDS));
}

POTIREHU_CHECKED
static inline struct potirehu_answer potirehu_struct_bands_gtd7(const struct potirehu_band_table *table, int64_t metre,
                                                                const struct potirehu_record *record, struct potirehu_row *row) {
    const double fields[8] = POTIREHU_FIELDS_OF(record);
    return potirehu_answer_of(potirehu_bands_gtd7(table->numbers, POTIREHU_BANDS, metre, POTIREHU_RECORD_OF(record), (double *)row, 11));
}

POTIREHU_CHECKED
static inline struct potirehu_count_answer potirehu_struct_logs(const struct potirehu_log *board_1, const struct potirehu_log *board_2,
                                                                uint64_t tolerance, struct potirehu_report *report) {
    return potirehu_count_of(potirehu_logs(board_1->seconds, board_1->n, board_1->bits, board_1->n, board_2->seconds, board_2->n, board_2->bits,
                                           board_2->n, tolerance, report->finding, 512));
}

#undef POTIREHU_FIELDS_OF
#undef POTIREHU_HISTORY_OF
#undef POTIREHU_RECORD_OF
#undef POTIREHU_STATION_OF

#endif
