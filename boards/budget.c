/* budget.c: each call once for its instructions, or many times for its stack (-DSTACK), on any board. Instructions are counted by boards/budget in the
   emulator's trace, between two calls of 'mark'; the stack by painting what lies below the caller and looking how far down it was written. A new call is a
   line with CALL, one in 'measured' and one in 'calls'. */
#include "cases.h"

#include <stdio.h>
#include <stdlib.h>

#define AWAY __attribute__((noinline, noclone))

static uintptr_t at_call; /* the stack pointer where the call is made */
static uint64_t answer;

#if defined(__x86_64__)
#define SEE() __asm volatile("mov %%rsp, %0" : "=r"(at_call)::"memory")
#elif defined(__riscv)
#define SEE() __asm volatile("mv %0, sp" : "=r"(at_call)::"memory")
#else
#define SEE() __asm volatile("mov %0, sp" : "=r"(at_call)::"memory")
#endif

/* ---- each call */

#define CALL(name, ...)                        \
    AWAY static void ask_##name(void) {        \
        SEE();                                 \
        answer = potirehu_##name(__VA_ARGS__); \
    }

CALL(gtd7, RECORD, row, 11)
CALL(gtd7d, RECORD, row, 11)
CALL(gtd7_known, given.known, RECORD, row, 11)
CALL(gtd7_with, given.nine, 9, RECORD, row, 11)
CALL(counts, given.switches, 24, counts, 17)
CALL(gtd7_records, MANY_RECORDS, given.switches, 24, answers, given.n.answers, rows, given.n.many_rows)
CALL(gtd7_column, RECORD, given.altitudes, given.n.altitudes, rows, given.n.rows)
CALL(crossings, RECORD, given.altitudes, given.n.altitudes, given.level, list, given.n.list)
CALL(first_below, RECORD, given.altitudes, given.n.altitudes, given.level, row, 11)
CALL(station, RECORD, STATION)
CALL(station_gtd7, STATION, given.alt, row, 11)
CALL(station_gtd7d, STATION, given.alt, row, 11)
CALL(station_sec, STATION, given.sec)
CALL(station_lst, STATION, given.lst)
CALL(station_g_long, STATION, given.g_long)
CALL(station_fluxes, STATION, given.f107a, given.f107)
CALL(station_move, STATION, given.sec, given.lst, given.g_long)
CALL(station_switches, STATION, given.next_switches, 24)
CALL(descent, RECORD, given.start, given.settings, given.n.settings, losses, given.n.losses, end, 3)
CALL(bands, given.text, given.n.text, table, given.n.table)
CALL(bands_gtd7, table, given.n.table, given.metre, given.year, given.doy, given.fields, given.n.fields, given.ap_array, given.n.ap_array, row, 11)
CALL(logs, given.seconds_1, given.n.seconds_1, given.bits_1, given.n.bits_1, given.seconds_2, given.n.seconds_2, given.bits_2, given.n.bits_2,
     given.tolerance, report, 512)

static volatile double argument = 0.7, result;

#define FUNCTION(name, ...)                      \
    AWAY static void ask_##name(void) {          \
        SEE();                                   \
        result = elementary_##name(__VA_ARGS__); \
    }

FUNCTION(exp, argument)
FUNCTION(log, argument)
FUNCTION(sin, argument)
FUNCTION(cos, argument)
FUNCTION(sqrt, argument)
FUNCTION(pow, argument, 1.7)

/* a station and a table of bands of what is given */
static void prepared(void) {
    ask_bands();
    ask_station();
}

#ifndef STACK
/* ---- instructions */

AWAY void mark(void) { __asm volatile("" ::: "memory"); }
AWAY static void nothing(void) { SEE(); }

static int accepted = 1;

static void measure(const char *name, void (*call)(void)) {
    answer = 0;
    mark();
    call();
    mark();
    printf("%s", name);
    if (call == ask_first_below) printf(", at index %lu", POTIREHU_PLACE(answer));
    printf("\n");
    if (POTIREHU_REFUSED(answer)) accepted = 0;
}

static void measured(void) {
    static const int altitudes[6] = {0, 50, 90, 150, 400, 1000};
    static const struct {
        const char *name;
        void (*call)(void);
    } others[] = {
        {"for drag, 400 km", ask_gtd7d},
        {"known in part, 400 km", ask_gtd7_known},
        {"nine constants, 400 km", ask_gtd7_with},
        {"which fields count", ask_counts},
        {"8 records of one day, 400 km", ask_gtd7_records},
        {"a column of 8 altitudes from 60 to 690 km", ask_gtd7_column},
        {"crossings of the same", ask_crossings},
        {"the first altitude thin enough of the same", ask_first_below},
        {"a station prepared", ask_station},
        {"a station's altitude for drag, 400 km", ask_station_gtd7d},
        {"a station's sec", ask_station_sec},
        {"a station's lst", ask_station_lst},
        {"a station's g_long", ask_station_g_long},
        {"a station's fluxes", ask_station_fluxes},
        {"a station's move", ask_station_move},
        {"a station's new row, entry 7 another", ask_station_switches},
        {"a station's new row, entry 16 another", ask_station_switches},
        {"a table of three bands read", ask_bands},
        {"in bands, 400 km, entries 7 to 10 and 14 off", ask_bands_gtd7},
        {"logs of 20 and 20", ask_logs},
        {"exp(0.7)", ask_exp},
        {"log(0.7)", ask_log},
        {"sin(0.7)", ask_sin},
        {"cos(0.7)", ask_cos},
        {"sqrt(0.7)", ask_sqrt},
        {"pow(0.7, 1.7)", ask_pow},
    };
    char name[80];
    give_first();
    measure("nothing", nothing);
    for (int history = 0; history <= 1; history++) {
        for (int i = 0; i < 6; i++) {
            give_first();
            given.fields[1] = altitudes[i];
            given.n.ap_array = history ? 7 : 0;
            if (history) given.switches[9] = -1;
            sprintf(name, "one altitude, %d km, %s", altitudes[i], history ? "history" : "daily ap");
            measure(name, ask_gtd7);
        }
    }
    give_first();
    prepared();
    for (int i = 0; i < 6; i++) {
        given.alt = altitudes[i];
        sprintf(name, "a station's altitude, %d km", altitudes[i]);
        measure(name, ask_station_gtd7);
    }
    for (size_t i = 0; i < sizeof others / sizeof *others; i++) {
        give_first();
        if (strstr(others[i].name, "entry 16")) given.next_switches[16] = 0;
        measure(others[i].name, others[i].call);
    }
    give_first();
    given.n.settings = given.n.losses = 1;
    measure("a descent of one orbit from 400 km", ask_descent);
    given.n.settings = given.n.losses = 2;
    measure("a descent of two orbits from 400 km", ask_descent);
}

int main(void) {
    measured();
    printf(accepted ? "all accepted\n" : "a call was refused\n");
    return 0;
}

#else
/* ---- stack */

#define DEPTH 32768
#define PAINT 0xa5c396f1u

AWAY static void paint(void) {
    volatile uint32_t area[DEPTH / 4];
    for (int i = 0; i < DEPTH / 4; i++) area[i] = PAINT;
    __asm volatile("" ::"m"(area));
}

/* how far below the call the stack was written */
AWAY static long reached(void) {
    volatile uint32_t area[DEPTH / 4];
    int i = 0;
    __asm volatile("" : "=m"(area));
    while (i < DEPTH / 4 && area[i] == PAINT) i++;
    return i == 0 ? DEPTH : (long)(at_call - (uintptr_t)&area[i]);
}

#define OF(name) {"potirehu_" #name, ask_##name}
#define OF_ELEMENTARY(name) {"elementary_" #name, ask_##name}

static const struct {
    const char *name;
    void (*call)(void);
} calls[] = {
    OF(gtd7),           OF(gtd7d),          OF(gtd7_known),         OF(gtd7_with),          OF(counts),
    OF(gtd7_records),   OF(gtd7_column),    OF(crossings),          OF(first_below),        OF(station),
    OF(station_gtd7),   OF(station_gtd7d),  OF(station_sec),        OF(station_lst),        OF(station_g_long),
    OF(station_fluxes), OF(station_move),   OF(station_switches),   OF(descent),            OF(bands),
    OF(bands_gtd7),     OF(logs),           OF_ELEMENTARY(exp),     OF_ELEMENTARY(log),     OF_ELEMENTARY(sin),
    OF_ELEMENTARY(cos), OF_ELEMENTARY(sqrt), OF_ELEMENTARY(pow),
};

int main(void) {
    for (size_t c = 0; c < sizeof calls / sizeof *calls; c++) {
        long most = 0;
        for (int k = 0; k < 200; k++) {
            do {
                give_record();
                given.n.ap_array = 7;
                if (k % 2) given.switches[9] = -1;
                given.switches[15] = 1;
                give_altitudes(1);
                if (given.n.altitudes) given.alt = given.fields[1];
                for (int i = 0; i < RECORDS; i++) {
                    given.fields[1] = altitude();
                    give_as_one_of_many(i);
                }
                give_number_of_records(RECORDS, k % 2);
                give_row(given.next_switches);
                argument = between(-40, 40);
                prepared();
            } while (POTIREHU_REFUSED(answer));
            paint();
            calls[c].call();
            const long depth = reached();
            if (depth > most) most = depth;
        }
        printf("%s %ld\n", calls[c].name, most);
    }
    return 0;
}
#endif
