/* Each call of potirehu_struct.h beside its call of potirehu.h, over records with every field its own, accepted and refused: the same answer and, to the bit,
   the same memory. C99 and C++11. Prints how many calls were held against each other; ends with 1 at the first that differs. */
#include <math.h>
#include <stdio.h>
#include <stdlib.h>
#include <string.h>

#include "potirehu_struct.h"
/* both headers twice */
#include "potirehu.h"
#include "potirehu_struct.h"

static unsigned long calls;

static void same(const char *call, uint64_t bare, unsigned long number, unsigned long place, const void *one, const void *other, size_t size) {
    calls++;
    if (POTIREHU_REFUSED(bare) == (number != 0) && POTIREHU_NUMBER(bare) == number && (number == 0 || POTIREHU_PLACE(bare) == place) &&
        memcmp(one, other, size) == 0)
        return;
    printf("struct_test: %s differs, call %lu: %lu at %lu, %lu at %lu\n", call, calls, POTIREHU_NUMBER(bare), POTIREHU_PLACE(bare), number, place);
    exit(1);
}

/* The memory that both calls get: any bits. */
static void fill(void *one, void *other, size_t size) {
    memset(one, 0x5a, size);
    memset(other, 0x5a, size);
}

/* What a record is, once as the struct and once as the slices. */
struct both {
    struct potirehu_record record;
    struct potirehu_history history;
    int32_t year, doy;
    double fields[8], ap_array[7];
    size_t n_ap;
    struct potirehu_switches switches;
    int32_t row[24];
};

#define SLICES(b) (b)->year, (b)->doy, (b)->fields, 8, (b)->ap_array, (b)->n_ap
#define ROW(b) (b)->row, 24

enum { ALTITUDES = 6, ORBITS = 20, TEXT = 512 };

static const double altitudes[ALTITUDES] = {80.0, 100.0, 200.0, 400.0, 800.0, 1600.0};

static void one_altitude(const struct both *b) {
    double row[11];
    struct potirehu_row named;
    struct potirehu_answer answer;
    uint64_t bare;
    fill(row, &named, sizeof row);
    bare = potirehu_gtd7(SLICES(b), ROW(b), row, 11);
    answer = potirehu_struct_gtd7(&b->record, &b->switches, &named);
    same("gtd7", bare, answer.number, answer.place, row, &named, sizeof row);
    /* the row's members are its numbers */
    const double *const members[11] = {&named.he, &named.o, &named.n2, &named.o2, &named.ar, &named.density, &named.h, &named.n, &named.anomalous_o,
                                       &named.temperature_exo, &named.temperature_alt};
    const int numbers[11] = {POTIREHU_ROW_HE, POTIREHU_ROW_O, POTIREHU_ROW_N2, POTIREHU_ROW_O2, POTIREHU_ROW_AR, POTIREHU_ROW_DENSITY, POTIREHU_ROW_H,
                             POTIREHU_ROW_N, POTIREHU_ROW_ANOMALOUS_O, POTIREHU_ROW_TEMPERATURE_EXO, POTIREHU_ROW_TEMPERATURE_ALT};
    for (int i = 0; i < 11 && !answer.number; i++)
        if (numbers[i] != i || memcmp(members[i], row + i, sizeof *row)) same("a member of the row", 0, 1, 1, row, row, 8);

    fill(row, &named, sizeof row);
    bare = potirehu_gtd7d(SLICES(b), ROW(b), row, 11);
    answer = potirehu_struct_gtd7d(&b->record, &b->switches, &named);
    same("gtd7d", bare, answer.number, answer.place, row, &named, sizeof row);

    /* each of the nine its own, and then one of them unfit */
    for (int unfit = 0; unfit < 2; unfit++) {
        const double nine[9] = {832.0, unfit ? 28.0 : 28.9, 201.0, 302.0, 163.0, 254.0, 245.0, 326.0, 457.0};
        struct potirehu_parameters parameters = potirehu_present();
        parameters.rgas = nine[0];
        parameters.xmm = nine[1];
        parameters.he = nine[2];
        parameters.o = nine[3];
        parameters.n2 = nine[4];
        parameters.o2 = nine[5];
        parameters.ar = nine[6];
        parameters.h = nine[7];
        parameters.n = nine[8];
        fill(row, &named, sizeof row);
        bare = potirehu_gtd7_with(nine, 9, SLICES(b), ROW(b), row, 11);
        answer = potirehu_struct_gtd7_with(&parameters, &b->record, &b->switches, &named);
        same("gtd7_with", bare, answer.number, answer.place, row, &named, sizeof row);
    }
    /* all known, and one field after the other not */
    for (uint32_t known = 0; known <= 10; known++) {
        const uint32_t bits = 1023u & ~(1u << known);
        fill(row, &named, sizeof row);
        bare = potirehu_gtd7_known(bits, SLICES(b), ROW(b), row, 11);
        answer = potirehu_struct_gtd7_known(bits, &b->record, &b->switches, &named);
        same("gtd7_known", bare, answer.number, answer.place, row, &named, sizeof row);
    }
    int32_t fields[POTIREHU_COUNTS];
    struct potirehu_counting counting;
    fill(fields, &counting, sizeof fields);
    bare = potirehu_counts(ROW(b), fields, POTIREHU_COUNTS);
    answer = potirehu_struct_counts(&b->switches, &counting);
    same("counts", bare, answer.number, answer.place, fields, &counting, sizeof fields);
    const struct potirehu_parameters present = potirehu_present();
    fill(row, &named, sizeof row);
    bare = potirehu_gtd7(SLICES(b), ROW(b), row, 11);
    answer = potirehu_struct_gtd7_with(&present, &b->record, &b->switches, &named);
    same("gtd7_with, the present nine", bare, answer.number, answer.place, row, &named, sizeof row);
}

static void many_altitudes(const struct both *b) {
    double rows[11 * ALTITUDES];
    struct potirehu_row named[ALTITUDES];
    uint64_t bare, list[ALTITUDES], other_list[ALTITUDES];
    for (size_t room = ALTITUDES - 1; room <= ALTITUDES; room++) {
        fill(rows, named, sizeof rows);
        bare = potirehu_gtd7_column(SLICES(b), ROW(b), altitudes, ALTITUDES, rows, 11 * room);
        struct potirehu_answer answer = potirehu_struct_gtd7_column(&b->record, &b->switches, altitudes, ALTITUDES, named, room);
        same("gtd7_column", bare, answer.number, answer.place, rows, named, sizeof rows);
    }
    /* levels that are passed, and one that is not */
    for (double level = 1e-20; level < 1e10; level *= 1e5) {
        for (size_t room = 0; room <= ALTITUDES; room += ALTITUDES) {
            fill(list, other_list, sizeof list);
            bare = potirehu_crossings(SLICES(b), ROW(b), altitudes, ALTITUDES, level, list, room);
            struct potirehu_count_answer passed = potirehu_struct_crossings(&b->record, &b->switches, altitudes, ALTITUDES, level, other_list, room);
            same("crossings", bare, passed.number, passed.place, list, other_list, sizeof list);
            if (passed.count != (POTIREHU_REFUSED(bare) ? 0 : bare)) same("crossings' count", 0, 1, 1, list, list, 8);
        }
        fill(rows, named, sizeof *named);
        bare = potirehu_first_below(SLICES(b), ROW(b), altitudes, ALTITUDES, level, rows, 11);
        struct potirehu_index_answer first = potirehu_struct_first_below(&b->record, &b->switches, altitudes, ALTITUDES, level, named);
        same("first_below", bare, first.number, first.place, rows, named, sizeof *named);
        if (first.found ? first.number || first.index != bare : bare < POTIREHU_NOWHERE || first.index != UINT64_MAX)
            same("first_below's index", 0, 1, 1, rows, rows, 8);
    }
}

/* Records with a field of their own each, the given one first, without histories and with them, and with room for one too few. */
static void many_records(const struct both *b, const struct both *next) {
    enum { RECORDS = 5 };
    const struct both *const each[RECORDS] = {b, next, b, next, b};
    const double alts[RECORDS] = {b->record.alt, 50.0, 2600.0, 150.0, 0.0};
    int32_t days[RECORDS];
    double fields[8 * RECORDS], ap_arrays[7 * RECORDS], rows[11 * RECORDS + 11];
    struct potirehu_fields named_fields[RECORDS];
    struct potirehu_history histories[RECORDS];
    struct potirehu_row named[RECORDS + 1];
    uint64_t answers[RECORDS + 1], other_answers[RECORDS + 1];
    for (int i = 0; i < RECORDS; i++) {
        const struct potirehu_record *r = &each[i]->record;
        const struct potirehu_fields these = {r->sec, alts[i], r->g_lat, r->g_long, r->lst, r->f107a, r->f107, r->ap};
        days[i] = each[i]->doy;
        memcpy(fields + 8 * i, each[i]->fields, sizeof each[i]->fields);
        fields[8 * i + POTIREHU_FIELD_ALT - POTIREHU_FIELD_SEC] = alts[i];
        memcpy(ap_arrays + 7 * i, each[i]->ap_array, sizeof each[i]->ap_array);
        named_fields[i] = these;
        histories[i] = each[i]->history;
    }
    const struct potirehu_records records = {RECORDS, days, named_fields, b->n_ap ? histories : NULL};
    for (size_t room = RECORDS - 1; room <= RECORDS + 1; room++) {
        for (size_t answer_room = RECORDS - 1; answer_room <= RECORDS + 1; answer_room++) {
            fill(rows, named, sizeof rows);
            fill(answers, other_answers, sizeof answers);
            uint64_t bare = potirehu_gtd7_records(days, RECORDS, fields, 8 * RECORDS, ap_arrays, RECORDS * b->n_ap, ROW(b), answers, answer_room, rows,
                                                  11 * room);
            struct potirehu_answer answer = potirehu_struct_gtd7_records(&records, &b->switches, other_answers, answer_room, named, room);
            same("gtd7_records", bare, answer.number, answer.place, rows, named, sizeof rows);
            same("gtd7_records' answers", bare, answer.number, answer.place, answers, other_answers, sizeof answers);
        }
    }
    /* the last of these had room: each answer and row is the one-altitude call's */
    for (int i = 0; i < RECORDS; i++) {
        struct potirehu_record one = each[i]->record;
        struct potirehu_row row;
        one.alt = alts[i];
        one.history = records.histories ? &each[i]->history : NULL;
        memset(&row, 0x5a, sizeof row);
        struct potirehu_answer answer = potirehu_struct_gtd7(&one, &b->switches, &row);
        const struct potirehu_answer listed = potirehu_answer_of(other_answers[i]);
        same("a record of many", other_answers[i], answer.number, answer.place, &row, &named[i], sizeof row);
        same("its answer", other_answers[i], listed.number, listed.place, &row, &named[i], sizeof row);
    }
}

static void station(const struct both *b, const struct both *next) {
    int32_t whole[POTIREHU_STATION_WHOLE];
    double numbers[POTIREHU_STATION_NUMBERS];
    struct potirehu_prepared prepared;
    struct potirehu_answer answer;
    uint64_t bare;
#define STATION whole, POTIREHU_STATION_WHOLE, numbers, POTIREHU_STATION_NUMBERS
#define HELD(call) \
    same(call, bare, answer.number, answer.place, whole, prepared.whole, sizeof whole), \
        same(call, bare, answer.number, answer.place, numbers, prepared.numbers, sizeof numbers)
    fill(whole, prepared.whole, sizeof whole);
    fill(numbers, prepared.numbers, sizeof numbers);
    bare = potirehu_station(SLICES(b), ROW(b), STATION);
    answer = potirehu_struct_station(&b->record, &b->switches, &prepared);
    HELD("station");
    if (answer.number) return;
    for (int i = 0; i < ALTITUDES; i++) {
        double row[11];
        struct potirehu_row named;
        const double alt = i == 1 ? 2501.0 : altitudes[i];
        fill(row, &named, sizeof row);
        bare = potirehu_station_gtd7(STATION, alt, row, 11);
        answer = potirehu_struct_station_gtd7(&prepared, alt, &named);
        same("station_gtd7", bare, answer.number, answer.place, row, &named, sizeof row);
        fill(row, &named, sizeof row);
        bare = potirehu_station_gtd7d(STATION, alt, row, 11);
        answer = potirehu_struct_station_gtd7d(&prepared, alt, &named);
        same("station_gtd7d", bare, answer.number, answer.place, row, &named, sizeof row);
    }
    bare = potirehu_station_sec(STATION, next->record.sec);
    answer = potirehu_struct_station_sec(&prepared, next->record.sec);
    HELD("station_sec");
    bare = potirehu_station_lst(STATION, next->record.lst);
    answer = potirehu_struct_station_lst(&prepared, next->record.lst);
    HELD("station_lst");
    bare = potirehu_station_g_long(STATION, next->record.g_long);
    answer = potirehu_struct_station_g_long(&prepared, next->record.g_long);
    HELD("station_g_long");
    bare = potirehu_station_fluxes(STATION, next->record.f107a, next->record.f107);
    answer = potirehu_struct_station_fluxes(&prepared, next->record.f107a, next->record.f107);
    HELD("station_fluxes");
    bare = potirehu_station_move(STATION, b->record.sec, next->record.lst, b->record.g_long);
    answer = potirehu_struct_station_move(&prepared, b->record.sec, next->record.lst, b->record.g_long);
    HELD("station_move");
    bare = potirehu_station_switches(STATION, ROW(next));
    answer = potirehu_struct_station_switches(&prepared, &next->switches);
    HELD("station_switches");
}

/* A station of zeros: no altitude, 3 at doy; a NaN as altitude comes first. */
static void never_prepared(void) {
    static struct potirehu_prepared zeros;
    const uint64_t no_day = ((uint64_t)POTIREHU_OUT_OF_DOMAIN << 32) + POTIREHU_FIELD_DOY;
    const uint64_t no_altitude = ((uint64_t)POTIREHU_NON_FINITE_INPUT << 32) + POTIREHU_FIELD_ALT;
    struct potirehu_row row, kept;
    struct potirehu_answer answer;
    fill(&row, &kept, sizeof row);
    answer = potirehu_struct_station_gtd7(&zeros, 400.0, &row);
    same("station_gtd7, never prepared", no_day, answer.number, answer.place, &row, &kept, sizeof row);
    answer = potirehu_struct_station_gtd7d(&zeros, 2501.0, &row);
    same("station_gtd7d, never prepared", no_day, answer.number, answer.place, &row, &kept, sizeof row);
    answer = potirehu_struct_station_gtd7(&zeros, NAN, &row);
    same("station_gtd7, no altitude", no_altitude, answer.number, answer.place, &row, &kept, sizeof row);
}

static void descent(const struct both *b, int64_t start) {
    int32_t settings[ORBITS];
    int64_t losses[ORBITS], other_losses[ORBITS], end[3];
    struct potirehu_end named;
    for (int i = 0; i < ORBITS; i++) settings[i] = 1 + i % 4;
    for (size_t room = ORBITS - 1; room <= ORBITS; room++) {
        fill(losses, other_losses, sizeof losses);
        fill(end, &named, sizeof end);
        uint64_t bare = potirehu_descent(SLICES(b), ROW(b), start, settings, ORBITS, losses, room, end, 3);
        struct potirehu_answer answer = potirehu_struct_descent(&b->record, &b->switches, start, settings, ORBITS, other_losses, room, &named);
        same("descent", bare, answer.number, answer.place, losses, other_losses, sizeof losses);
        same("descent", bare, answer.number, answer.place, end, &named, sizeof end);
        if (!answer.number && (named.ending != end[0] || named.altitude != end[1] || named.taken != end[2])) same("end", 0, 1, 1, end, end, 8);
    }
}

static void bands(const struct both *b) {
    static const char *const texts[] = {
        "(band 0 90000 (switches 1 1 1 1 1 1 1 1 1 1 1 1 1 1 1 1 1 1 1 1 1 1 1 1))\n"
        "(band 90000 2500001 (switches 1 1 1 1 1 1 1 0 0 1 0 1 1 1 0 1 1 1 1 1 1 1 1 1))\n",
        "(band 0 90000 (switches 1 1 1 1 1 1 1 1 1 1 1 1 1 1 1 1 1 1 1 1 1 1 1 1))\n"};
    int32_t table[POTIREHU_BANDS];
    struct potirehu_band_table named;
    for (int i = 0; i < 2; i++) {
        uint8_t text[TEXT];
        const size_t n = strlen(texts[i]);
        memcpy(text, texts[i], n);
        fill(table, &named, sizeof table);
        uint64_t bare = potirehu_bands(text, n, table, POTIREHU_BANDS);
        struct potirehu_answer answer = potirehu_struct_bands(text, n, &named);
        same("bands", bare, answer.number, answer.place, table, &named, sizeof table);
        for (int64_t metre = -100000; metre <= 300000; metre += 100000) {
            double row[11];
            struct potirehu_row named_row;
            fill(row, &named_row, sizeof row);
            bare = potirehu_bands_gtd7(table, POTIREHU_BANDS, metre, SLICES(b), row, 11);
            answer = potirehu_struct_bands_gtd7(&named, metre, &b->record, &named_row);
            same("bands_gtd7", bare, answer.number, answer.place, row, &named_row, sizeof row);
        }
    }
}

static void logs(void) {
    const uint64_t seconds_1[4] = {1, 5, 9, 20}, bits_1[4] = {1, 2, 3, 4}, seconds_2[3] = {2, 9, 30}, bits_2[3] = {1, 9, 4}, falling[3] = {2, 2, 1};
    for (int i = 0; i < 2; i++) {
        const uint64_t *second = i ? falling : seconds_2;
        const struct potirehu_log board_1 = {seconds_1, bits_1, 4}, board_2 = {second, bits_2, 3};
        uint32_t report[512];
        struct potirehu_report named;
        fill(report, &named, sizeof report);
        uint64_t bare = potirehu_logs(seconds_1, 4, bits_1, 4, second, 3, bits_2, 3, 1, report, 512);
        struct potirehu_count_answer held = potirehu_struct_logs(&board_1, &board_2, 1, &named);
        same("logs", bare, held.number, held.place, report, &named, sizeof report);
        if (held.count != (POTIREHU_REFUSED(bare) ? 0 : bare)) same("logs' count", 0, 1, 1, report, report, 8);
    }
}

/* A record with one field set to value, none where field is -1. */
static struct both record(int field, double value, int history) {
    double all[17] = {2026.0, 172.0, 29000.0, 400.0, 60.0, -70.0, 16.0, 151.0, 149.0, 4.0, 5.0, 6.0, 7.0, 8.0, 9.0, 10.0, 11.0};
    struct both b;
    if (field >= 0) all[field] = value;
    b.year = b.record.year = (int32_t)all[POTIREHU_FIELD_YEAR];
    b.doy = b.record.doy = (int32_t)all[POTIREHU_FIELD_DOY];
    b.record.sec = all[POTIREHU_FIELD_SEC];
    b.record.alt = all[POTIREHU_FIELD_ALT];
    b.record.g_lat = all[POTIREHU_FIELD_G_LAT];
    b.record.g_long = all[POTIREHU_FIELD_G_LONG];
    b.record.lst = all[POTIREHU_FIELD_LST];
    b.record.f107a = all[POTIREHU_FIELD_F107A];
    b.record.f107 = all[POTIREHU_FIELD_F107];
    b.record.ap = all[POTIREHU_FIELD_AP];
    b.history.daily = all[POTIREHU_FIELD_AP_DAILY];
    b.history.now = all[POTIREHU_FIELD_AP_NOW];
    b.history.before_3_hours = all[POTIREHU_FIELD_AP_3_HOURS];
    b.history.before_6_hours = all[POTIREHU_FIELD_AP_6_HOURS];
    b.history.before_9_hours = all[POTIREHU_FIELD_AP_9_HOURS];
    b.history.mean_12_to_33_hours = all[POTIREHU_FIELD_AP_12_TO_33_HOURS];
    b.history.mean_36_to_57_hours = all[POTIREHU_FIELD_AP_36_TO_57_HOURS];
    memcpy(b.fields, all + POTIREHU_FIELD_SEC, sizeof b.fields);
    memcpy(b.ap_array, all + POTIREHU_FIELD_AP_DAILY, sizeof b.ap_array);
    b.n_ap = history ? 7 : 0;
    b.record.history = NULL;
    b.switches = potirehu_all_on();
    for (int i = 0; i < 24; i++) b.row[i] = 1;
    if (history == 1) b.switches.entry[POTIREHU_SWITCH_ACTIVITY] = b.row[9] = -1;
    return b;
}

int main(void) {
    const double values[] = {0.5, 3.5, 90.0, 300.0, 999.0, -1.0, 1e6, NAN};
    for (int field = -1; field < 17; field++) {
        for (size_t i = 0; i < sizeof values / sizeof *values; i++) {
            /* no NaN among whole numbers */
            if ((field == 0 || field == 1) && !(values[i] == values[i])) continue;
            /* without a history, with one that is asked for, and with one that is not */
            for (int history = 0; history < 3; history++) {
                struct both b = record(field, values[i], history), next = record(POTIREHU_FIELD_LST, 3.0, history);
                if (history) b.record.history = &b.history;
                if (history) next.record.history = &next.history;
                next.record.sec = next.fields[0] = 60.0;
                next.record.g_long = next.fields[3] = 123.0;
                next.record.f107a = next.fields[5] = 99.0;
                next.record.f107 = next.fields[6] = 101.0;
                next.switches.entry[14] = next.row[14] = 0;
                one_altitude(&b);
                many_altitudes(&b);
                many_records(&b, &next);
                station(&b, &next);
                station(&next, &b);
                descent(&b, field == POTIREHU_FIELD_ALT ? (int64_t)150000000 : (int64_t)300000000);
                bands(&b);
            }
        }
    }
    logs();
    never_prepared();
    printf("struct_test: %lu calls held against each other, 0 differ\n", calls);
    return 0;
}
