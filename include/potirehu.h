/* What libpotirehu.a offers: NRLMSISE-00 at one altitude, also for drag, with constants of the caller's and for a record known in part, on many records, at a
   column of altitudes, where its density passes a level and where it is first thin enough, in bands of switch rows, from a prepared station and orbit by orbit
   in a descent, two boards' logs held against each other, and the elementary functions it is built on. Nothing is kept between calls; only memcpy and memset
   are needed from outside. docs/RULES.md has every rule.

   The archive of 'scripts/staticlib potirehu' is for x86-64 Linux; boards/build makes those for other processors, and docs/BOARDS.md has them. Lengths are
   uint64_t on every processor.

   An answer of 2^32 or more is a refusal: its number times 2^32 plus a place, which is cut to its lower 32 bits (only 18, of more than 2^32 settings, and 4, of
   very many records, have a place that this changes). potirehu_struct.h has each call once more, over structs with named members.

   Slices lent to one call must not overlap, where the call writes one of them; two that are only read may be the same.
   The library is reentrant and keeps no data: calls may interrupt each other and run side by side, as long as none writes what another reads; so a station
   that is being changed may not be read.
   The floating-point unit must round to nearest and trap nothing. Where it flushes numbers below 2^-1022 to zero, species as rare as that, and arguments and
   results of the elementary functions as small, count as 0. Nothing else of it matters. */
#ifndef POTIREHU_H
#define POTIREHU_H

#include <stddef.h> /* NULL */
#include <stdint.h>

#ifdef __cplusplus
extern "C" {
#endif

/* Of an answer: whether it is a refusal, its number (0 where it is none) and its place. Keep an answer in 64 bits: cut to an int, 17 at 0 reads as 0, accepted,
   and a refused potirehu_first_below as an index. Of anything narrower these do not compile. */
#define POTIREHU_ANSWER(answer) ((uint64_t)(answer) + 0u * sizeof(char[sizeof(answer) == sizeof(uint64_t) ? 1 : -1]))
#define POTIREHU_REFUSED(answer) (POTIREHU_ANSWER(answer) >> 32 != 0)
#define POTIREHU_NUMBER(answer) ((unsigned long)(POTIREHU_ANSWER(answer) >> 32))
#define POTIREHU_PLACE(answer) ((unsigned long)(POTIREHU_ANSWER(answer) & 0xffffffff))

/* Before each call: a compiler that can warns where its answer is not looked at. */
#if defined(__GNUC__)
#define POTIREHU_CHECKED __attribute__((warn_unused_result))
#elif (defined(__cplusplus) && __cplusplus >= 201703L) || (defined(__STDC_VERSION__) && __STDC_VERSION__ >= 202311L)
#define POTIREHU_CHECKED [[nodiscard]]
#else
#define POTIREHU_CHECKED
#endif

/* The numbers of refusals. No call of this library gives 6 or 7. */
enum potirehu_number {
    POTIREHU_MISSING_AP_ARRAY = 1,      /* switch 9 is -1, and the history is absent; or a field that counts is not known */
    POTIREHU_NON_FINITE_INPUT = 2,      /* a field is NaN or infinite */
    POTIREHU_OUT_OF_DOMAIN = 3,         /* a field is out of range */
    POTIREHU_WRONG_LENGTH = 4,          /* a slice has not the length needed, which is the place */
    POTIREHU_TOO_MANY_ALTITUDES = 5,    /* more than 512 */
    POTIREHU_WRONG_COEFFICIENTS = 6,    /* a coefficient set of the wrong length */
    POTIREHU_NO_FORM = 7,               /* a line that is no form of the line program */
    POTIREHU_ALTITUDES_NOT_RISING = 8,  /* at the lowest index not above the one before it */
    POTIREHU_LIST_TOO_SHORT = 9,        /* a buffer shorter than its list; the place is the length needed */
    POTIREHU_N2_NOT_MIXED = 10,         /* below 72.5 km, where there is no density without mixed N2 */
    POTIREHU_NO_BAND = 11,              /* a line of a table of bands that is no band */
    POTIREHU_BAND_OVERLAP = 12,         /* a band that overlaps the one before it */
    POTIREHU_BAND_GAP = 13,             /* a gap before a band, or a table that ends short */
    POTIREHU_UNFIT_LOG = 14,            /* a board's log too long or uneven; the place is the board */
    POTIREHU_SECONDS_NOT_RISING = 15,   /* of a board; the place is the index, 256 more for board 2 */
    POTIREHU_UNFIT_CONSTANT = 16,       /* one of nine; the place is its position from 1 */
    POTIREHU_START_OUT_OF_RANGE = 17,   /* a descent's, 200 to 1,000 km */
    POTIREHU_UNFIT_SETTING = 18,        /* of a flap, 1 to 4; the place is the orbit from 1 */
    POTIREHU_TOO_MANY_SETTINGS = 19     /* more than 10,000, or too short a list of losses */
};

/* The fields as the places of 1, 2, 3 and 10 count them. The slice fields begins with sec: fields[place - POTIREHU_FIELD_SEC], up to ap. */
enum potirehu_field {
    POTIREHU_FIELD_YEAR = 0,
    POTIREHU_FIELD_DOY = 1,
    POTIREHU_FIELD_SEC = 2,
    POTIREHU_FIELD_ALT = 3,
    POTIREHU_FIELD_G_LAT = 4,
    POTIREHU_FIELD_G_LONG = 5,
    POTIREHU_FIELD_LST = 6,
    POTIREHU_FIELD_F107A = 7,
    POTIREHU_FIELD_F107 = 8,
    POTIREHU_FIELD_AP = 9,
    POTIREHU_FIELD_AP_DAILY = 10,            /* the history, ap_array[0] to ap_array[6] */
    POTIREHU_FIELD_AP_NOW = 11,
    POTIREHU_FIELD_AP_3_HOURS = 12,
    POTIREHU_FIELD_AP_6_HOURS = 13,
    POTIREHU_FIELD_AP_9_HOURS = 14,
    POTIREHU_FIELD_AP_12_TO_33_HOURS = 15,
    POTIREHU_FIELD_AP_36_TO_57_HOURS = 16,
    POTIREHU_FIELD_ALTITUDES = 17            /* plus its index, an altitude of a column */
};

/* The row's numbers. */
enum potirehu_row_number {
    POTIREHU_ROW_HE = 0,
    POTIREHU_ROW_O = 1,
    POTIREHU_ROW_N2 = 2,
    POTIREHU_ROW_O2 = 3,
    POTIREHU_ROW_AR = 4,
    POTIREHU_ROW_DENSITY = 5,
    POTIREHU_ROW_H = 6,
    POTIREHU_ROW_N = 7,
    POTIREHU_ROW_ANOMALOUS_O = 8,
    POTIREHU_ROW_TEMPERATURE_EXO = 9,
    POTIREHU_ROW_TEMPERATURE_ALT = 10
};

/* The switches; docs/RULES.md, section 4, says what each switches, 16 to 23 under the names of the C release. */
enum potirehu_switch {
    POTIREHU_SWITCH_METRIC = 0,
    POTIREHU_SWITCH_F107 = 1,
    POTIREHU_SWITCH_TIME_INDEPENDENT = 2,
    POTIREHU_SWITCH_SYMMETRICAL_ANNUAL = 3,
    POTIREHU_SWITCH_SYMMETRICAL_SEMIANNUAL = 4,
    POTIREHU_SWITCH_ASYMMETRICAL_ANNUAL = 5,
    POTIREHU_SWITCH_ASYMMETRICAL_SEMIANNUAL = 6,
    POTIREHU_SWITCH_DIURNAL = 7,
    POTIREHU_SWITCH_SEMIDIURNAL = 8,
    POTIREHU_SWITCH_ACTIVITY = 9,
    POTIREHU_SWITCH_ALL_UT_LONGITUDE = 10,
    POTIREHU_SWITCH_LONGITUDINAL = 11,
    POTIREHU_SWITCH_UT = 12,
    POTIREHU_SWITCH_UT_LONGITUDE_ACTIVITY = 13,
    POTIREHU_SWITCH_TERDIURNAL = 14,
    POTIREHU_SWITCH_MIXING = 15,
    POTIREHU_SWITCH_TINF = 16,
    POTIREHU_SWITCH_TLB = 17,
    POTIREHU_SWITCH_TN1 = 18,
    POTIREHU_SWITCH_S = 19,
    POTIREHU_SWITCH_TN2 = 20,
    POTIREHU_SWITCH_NLB = 21,
    POTIREHU_SWITCH_TN3 = 22,
    POTIREHU_SWITCH_TURBO = 23
};

/* The air at one altitude.
     year      read by nothing
     doy       day of the year, 1 to 366
     fields    8: sec (UT, 0 to 86400), alt (km, 0 to 2500), g_lat (degrees, -90 to 90), g_long (degrees east, -1000 to 1000),
               lst (hours, -24 to 48; sec / 3600 + g_long / 15 where nothing else is known), f107a (81-day mean) and f107 (day before),
               0 to 1000, ap (daily, 0 to 400); fluxes of 0 are in range and do not mean 'not known': at 400 km they
               give at most some 0.02 of the density that 150 gives
     ap_array  0 values, or the magnetic history of 7 (daily ap; 3-hour ap now, 3, 6, 9 hours before; means of 12 to 33 and 36 to 57 hours
               before), 0 to 400 each; NULL will do for 0 values
     switches  24: 1 on, 0 off, 2 main effect off and cross effect on; entry 0: m and kg; entry 9: 1 daily ap, -1 history, 0 neither.
               Any other value is taken too: above 0 as 2, below 0 as 0; but in entry 9 as a factor of every magnetic term
     row       11: He, O, N2, O2, Ar, mass density, H, N, anomalous O, exospheric temperature, temperature
   Answers 0 and writes the row, or answers a refusal's number times 2^32 plus its place and leaves row as it was:
     4 at the length needed, a row, fields, ap_array or switches of another length, in this order;
     2 at the lowest field that is NaN or infinite (0 year, 1 doy, 2 sec, 3 alt, 4 g_lat, 5 g_long, 6 lst, 7 f107a, 8 f107, 9 ap, 10 to 16
       the history);
     1 at 10, switch 9 is -1 and the history is absent;
     3 at the lowest field that is out of range;
     10 at 3, an altitude below 72.5 km where switch 15 is not 1.
   A field that the switches shut off must still be finite and in range: write 0. An accepted row can hold NaN: at exactly 32.5 km, and with
   extreme fluxes or an entry 9 of the switches far from -1, 0 and 1. */
POTIREHU_CHECKED
uint64_t potirehu_gtd7(int32_t year, int32_t doy, const double *fields, uint64_t n_fields, const double *ap_array, uint64_t n_ap,
                       const int32_t *switches, uint64_t n_switches, double *row, uint64_t n_row);

/* The same on n records, as many as there are, under one switch row. They lie one behind the other: days has the doy of each, fields the eight of the first,
   then those of the second, and so on, ap_arrays likewise the seven of each, or 0 values where the histories are absent; a year, which nothing reads, is not
   given. Each record gets in answers what potirehu_gtd7 answers for it, and in its part of rows, eleven numbers, what that writes; one that is refused leaves
   its part as it was and does not stop the others. What lies behind the n answers and the 11 n numbers stays. Answers 0, also where records are refused: look
   at answers; or leaves answers and rows as they were and answers 4 at the length needed, cut to its lower 32 bits: rows shorter than 11 n, answers shorter
   than n, fields of another length than 8 n, ap_arrays of neither 0 nor 7 n, switches of another than 24, in this order.
   Records that follow each other on one day at altitudes of one kind (below 32.5 km, to 72.5, to 123.435, to 300, or above) share what the day gives, which
   takes a good part of a call: so sort records by day, and those of one day by altitude. A satellite's track is sorted as it is. */
POTIREHU_CHECKED
uint64_t potirehu_gtd7_records(const int32_t *days, uint64_t n, const double *fields, uint64_t n_fields, const double *ap_arrays, uint64_t n_aps,
                               const int32_t *switches, uint64_t n_switches, uint64_t *answers, uint64_t n_answers, double *rows, uint64_t n_rows);

/* potirehu_gtd7 at n altitudes (km), 0 to 512 of them, the record's own altitude not looked at: each altitude's eleven numbers go into their own
   part of rows, and what lies behind them stays. Altitudes that lie inside rows give wrong rows. After the lengths of fields, ap_array and switches:
   5 at 512 for more than 512 altitudes; 4 at 11 n for a shorter buffer; the record as above; each altitude 2, else 3, at 17 plus its index; once all
   have passed those, 10 at 17 plus the lowest index below 72.5 km where switch 15 is not 1. */
POTIREHU_CHECKED
uint64_t potirehu_gtd7_column(int32_t year, int32_t doy, const double *fields, uint64_t n_fields, const double *ap_array, uint64_t n_ap,
                              const int32_t *switches, uint64_t n_switches, const double *altitudes, uint64_t n, double *rows, uint64_t n_rows);

/* Where the mass density of a column passes a level: at or above it at one altitude and below it at the next, or the other way round. The level is in
   kg/m^3 where switch 0 is 1, else in g/cm^3. The n altitudes (km), 0 to 512 of them, must rise strictly; the record's own
   altitude is not looked at. The index of the lower altitude of each such pair goes to the start of list, lowest first, and what lies behind stays; a
   NaN at either altitude or as level makes no pair. Answers how long
   the list is, at most 511; or a refusal, and leaves list as it was. After the lengths of fields, ap_array and switches: 5 at 512 for more than
   512 altitudes; the record as above; each altitude 2, else 3, at 17 plus its index; once all have passed those, 10 at 17 plus the lowest index below
   72.5 km where switch 15 is not 1; 8 at the lowest index whose altitude is not above the one
   before it; 9 at the length needed, for a list that does not fit. A refusal is 2^32 or more, the list's length below. */
POTIREHU_CHECKED
uint64_t potirehu_crossings(int32_t year, int32_t doy, const double *fields, uint64_t n_fields, const double *ap_array, uint64_t n_ap,
                            const int32_t *switches, uint64_t n_switches, const double *altitudes, uint64_t n, double level, uint64_t *list,
                            uint64_t n_list);

/* The first of n altitudes (km), 0 to 512 of them, whose mass density is below a level, for a caller who has no time for the rest: all are checked,
   then none behind the first is worked out. They need not rise; the record's own altitude is not looked at; the level is in kg/m^3 where switch 0 is 1,
   else in g/cm^3. Answers its index, at most 511, and writes
   row, 11 numbers, as potirehu_gtd7_column has them there; or POTIREHU_NOWHERE, 2^32 - 1, where no density is below the level, as a NaN never is and
   nothing is below a NaN, and leaves row as it was; or a refusal, which is 2^32 or more, and leaves row as it was. After the lengths of row, fields,
   ap_array and switches: 5 at 512 for more than 512 altitudes; the record as above; each altitude 2, else 3, at 17 plus its index; once all have passed
   those, 10 at 17 plus the lowest index below 72.5 km where switch 15 is not 1. */
#define POTIREHU_NOWHERE 4294967295
POTIREHU_CHECKED
uint64_t potirehu_first_below(int32_t year, int32_t doy, const double *fields, uint64_t n_fields, const double *ap_array, uint64_t n_ap,
                              const int32_t *switches, uint64_t n_switches, const double *altitudes, uint64_t n, double level, double *row,
                              uint64_t n_row);

/* potirehu_gtd7 for drag: row[5], the mass density, is summed again with the anomalous oxygen in it (16 times row[8]), which counts above 500 km.
   Answers, refusals and the other ten numbers are those of potirehu_gtd7. */
POTIREHU_CHECKED
uint64_t potirehu_gtd7d(int32_t year, int32_t doy, const double *fields, uint64_t n_fields, const double *ap_array, uint64_t n_ap,
                        const int32_t *switches, uint64_t n_switches, double *row, uint64_t n_row);

/* potirehu_gtd7 with nine constants of the caller's in place of the model's own, for research: nine has the gas constant (831.4), the mass of mixed
   air (28.95), and the altitudes in km as far as which gts7 mixes He (200), O (300), N2 (160), O2 (250), Ar (240), H (320) and N (450). With the
   values in brackets, the present ones, answer and row are those of potirehu_gtd7. Refused:
     4 at 9, nine of another length;
     16 at its position from 1, the first of the nine that is NaN, infinite or not above 0, or a mass of mixed air of 1, 4, 14, 16, 28, 32 or 40,
       a species' own; before every check that follows;
     then as potirehu_gtd7, 4 for the row first; 10 at 3, for an altitude below 72.5 km, also where the N2 altitude is below 72.5.
   Constants far from the present ones can give NaN and infinities where those give numbers. */
#define POTIREHU_NINE 9
POTIREHU_CHECKED
uint64_t potirehu_gtd7_with(const double *nine, uint64_t n_nine, int32_t year, int32_t doy, const double *fields, uint64_t n_fields,
                            const double *ap_array, uint64_t n_ap, const int32_t *switches, uint64_t n_switches, double *row, uint64_t n_row);

/* Which fields count under a switch row: fields, 17 numbers, gets 1 where the field of that number (POTIREHU_FIELD_..) counts and 0 where the row shuts it
   off; of the history POTIREHU_FIELD_AP_DAILY never counts. Two accepted records that agree in the fields marked 1 give the same row. Answers 0; or
   leaves fields as it was and answers 4 at 17 for fields, then 4 at 24 for switches of another length. */
#define POTIREHU_COUNTS 17
POTIREHU_CHECKED
uint64_t potirehu_counts(const int32_t *switches, uint64_t n_switches, int32_t *fields, uint64_t n_fields);

/* potirehu_gtd7 for a record of which only some fields are known, as after a restart: bit k of known, 1u << POTIREHU_FIELD_.., says that field k is known, k
   from 0, year, to 9, ap; higher bits are not looked at, and the history is known where it is there. A field that is not known is not looked at: anything may
   stand in it, a NaN too, whether in year, doy or fields. Answers 0 and writes the row of the record with 0 in the fields that are not known, which is the
   row of every accepted record that agrees in the known ones; or leaves row as it was and answers, after the lengths as potirehu_gtd7:
     2 at the lowest known field that is NaN or infinite;
     1 at the lowest field that counts under the row (potirehu_counts) and is not known, or at 10 as potirehu_gtd7;
     3 at the lowest known field that is out of range;
     10 at 3, as potirehu_gtd7.
   doy, alt and g_lat always count. With bits 0 to 9 all set it is potirehu_gtd7. */
POTIREHU_CHECKED
uint64_t potirehu_gtd7_known(uint32_t known, int32_t year, int32_t doy, const double *fields, uint64_t n_fields, const double *ap_array, uint64_t n_ap,
                             const int32_t *switches, uint64_t n_switches, double *row, uint64_t n_row);

/* A prepared station is a record and a switch row with the values stored that do not depend on the altitude: two arrays of the caller's, of these
   lengths. What they hold is the library's own; they may be copied and moved, and need not be given back. An altitude asked of it works out no
   expansion. What is said here of a station holds for one that these calls gave. While a call changes it no other may read it. It has no guard against
   bits that flip in its arrays: they give wrong rows and no refusal. Where that can happen keep a copy and compare it before use, or prepare anew from
   the record now and then. */
#define POTIREHU_STATION_WHOLE 27
#define POTIREHU_STATION_NUMBERS 259

/* Prepares a station in whole and numbers, the record's own altitude not looked at. Answers 0; or 4 at the length needed, for whole, numbers,
   fields, ap_array or switches of another length, in this order, then what potirehu_gtd7 refuses of the record, and leaves whole and numbers as
   they were. */
POTIREHU_CHECKED
uint64_t potirehu_station(int32_t year, int32_t doy, const double *fields, uint64_t n_fields, const double *ap_array, uint64_t n_ap,
                          const int32_t *switches, uint64_t n_switches, int32_t *whole, uint64_t n_whole, double *numbers, uint64_t n_numbers);

/* The station's air at one altitude (km): the row that potirehu_gtd7 gives on record and row as the station now has them, with this altitude. Answers 0
   and writes the row; or 4 at the length needed, for row, whole or numbers of another length, in this order, then 2 at 3 for the altitude, 3 at 1 where the
   station's doy is outside 1 to 366, as in arrays of zeros that were never prepared, 3 or 10 at 3 for the altitude, and leaves row as it was. */
POTIREHU_CHECKED
uint64_t potirehu_station_gtd7(const int32_t *whole, uint64_t n_whole, const double *numbers, uint64_t n_numbers, double alt, double *row, uint64_t n_row);

/* The same for drag: the row that potirehu_gtd7d gives on that record. Answers and refusals are those of potirehu_station_gtd7. */
POTIREHU_CHECKED
uint64_t potirehu_station_gtd7d(const int32_t *whole, uint64_t n_whole, const double *numbers, uint64_t n_numbers, double alt, double *row, uint64_t n_row);

/* Changes sec, the seconds of the day. Answers 0; or 4 at the length needed, for whole or numbers, then what potirehu_gtd7 refuses of the changed
   record, its altitude not looked at, and leaves the station as it was. */
POTIREHU_CHECKED
uint64_t potirehu_station_sec(const int32_t *whole, uint64_t n_whole, double *numbers, uint64_t n_numbers, double sec);

/* Changes lst, the local time, as potirehu_station_sec changes sec; lst does not follow sec or g_long by itself. */
POTIREHU_CHECKED
uint64_t potirehu_station_lst(const int32_t *whole, uint64_t n_whole, double *numbers, uint64_t n_numbers, double lst);

/* Changes g_long, the longitude, in the same way. */
POTIREHU_CHECKED
uint64_t potirehu_station_g_long(const int32_t *whole, uint64_t n_whole, double *numbers, uint64_t n_numbers, double g_long);

/* Changes f107a and f107 together, in the same way. */
POTIREHU_CHECKED
uint64_t potirehu_station_fluxes(const int32_t *whole, uint64_t n_whole, double *numbers, uint64_t n_numbers, double f107a, double f107);

/* Moves the station: sec, lst and g_long in one change, in the same way, so that it is never of two times or places at once; refused, all three stay. What
   has no change, doy, g_lat, ap and the history, is prepared anew; that takes as long as a change (docs/FIGURES.md). */
POTIREHU_CHECKED
uint64_t potirehu_station_move(const int32_t *whole, uint64_t n_whole, double *numbers, uint64_t n_numbers, double sec, double lst, double g_long);

/* Gives the station a new switch row: from then on every altitude and change gives what a station newly prepared with the same record and this row
   gives. Where the two rows mean the same in entries 1 to 14, no expansion is worked out again. Answers 0; or 4 at the length needed, for whole,
   numbers or switches, in this order, then 1 at 10 where the row asks for a history that the record has not, and leaves the station as it was. */
POTIREHU_CHECKED
uint64_t potirehu_station_switches(int32_t *whole, uint64_t n_whole, double *numbers, uint64_t n_numbers, const int32_t *switches, uint64_t n_switches);

/* Simulates a descent, orbit by orbit: start in whole millimetres, a setting of 1 to 4 for each orbit. The density d[5] is potirehu_gtd7's at millimetres
   / 1E6 km with switch 0 taken as 1, the record's own altitude not looked at. Each orbit loses the whole part of (d[5] * 1E15) * setting millimetres; it
   ends as 1, no density, where that product is negative, NaN or above 1E9; else as 2, reached, where the loss would take it below 200 km, and that
   loss is not taken; as 3, spent, when all orbits are done. Answers 0 and writes the losses taken at the start of losses, the rest stays as it was, and
   in end the ending, the last altitude in millimetres and how many losses were taken: start minus that altitude is their sum. Or leaves both as they
   were and answers 4 at the length needed, for end of another length than 3, for fields, ap_array or switches, in this order; what potirehu_gtd7 refuses of
   the record; 17 at 0 for a start outside 200,000,000 to 1,000,000,000; 18 at the first orbit, counted from 1, with a setting outside 1 to 4; 19 at 10,000
   for more settings than that, else at the length needed for losses shorter than settings. All settings are read before 19 can be answered, however many
   there are; losses that lie over settings or over end give wrong losses. */
POTIREHU_CHECKED
uint64_t potirehu_descent(int32_t year, int32_t doy, const double *fields, uint64_t n_fields, const double *ap_array, uint64_t n_ap,
                          const int32_t *switches, uint64_t n_switches, int64_t start, const int32_t *settings, uint64_t n_settings, int64_t *losses,
                          uint64_t n_losses, int64_t *end, uint64_t n_end);

/* A table of bands has a switch row for each height band: an array of the caller's, of this length. What it holds is the library's own; it may
   be copied and moved, and need not be given back. What is said here of a table holds for one that potirehu_bands gave. */
#define POTIREHU_BANDS 1601

/* Reads a text of bands into table, one a line: (band FROM TO (switches ..)), whole metres, FROM included and TO not, 24 switches, single spaces, numbers
   with an optional minus and 1 to 9 digits, no leading zero, no -0; the bands, in line order, cover 0 to 2,500,000 with no gap or overlap, the last TO being
   2,500,001, in at most 64 lines; the last may lack its newline. Answers 0; or leaves table as it was and answers 4 at the length needed; 11 at the first
   line that is not a band, has FROM not below TO, ends past 2,500,001, or is the 65th; then, line by line, 12 at an overlap, FROM below the last TO, 13 at a
   gap, FROM above it; 13 at one past the last line where the table ends short. Lines are counted from 1. n_text counts the text's bytes: with a C string's
   closing NUL it is one too many, and its last line no band. */
POTIREHU_CHECKED
uint64_t potirehu_bands(const uint8_t *text, uint64_t n_text, int32_t *table, uint64_t n_table);

/* potirehu_gtd7 at a whole metre, with the row of the band in which it lies, at metre / 1000 km; fields has its eight, the altitude among them is
   not looked at. Answers 0 and writes the row; or leaves it as it was and answers 4 at the length needed, for row, table, fields or ap_array of
   another length, in this order; 3 at 3 for a metre outside 0 to 2,500,000; then what potirehu_gtd7 refuses with that row. */
POTIREHU_CHECKED
uint64_t potirehu_bands_gtd7(const int32_t *table, uint64_t n_table, int64_t metre, int32_t year, int32_t doy, const double *fields, uint64_t n_fields,
                             const double *ap_array, uint64_t n_ap, double *row, uint64_t n_row);

/* Two boards' logs held against each other: of each board its seconds, strictly rising, and its densities d[5] by their 64 bits, up to 256
   entries. Of the two front entries, those no further apart than tolerance pair up, else the earlier stands alone; once a log is used up, the
   rest of the other stand alone. Answers how many of these there are and writes report, 512 numbers: in the order they arise 1 for a pair whose
   density bits agree, 2 for a pair whose bits don't, 3 for a single of board 1, 4 of board 2, and 0 behind them. Or answers a refusal's number
   times 2^32 plus its place and leaves report as it was: 4 at 512 for a report of another length, before all else; 14 at the board, 1 first,
   whose log is over 256 entries or whose seconds and densities differ in number; then 15 at the index of the first entry not above the one
   before it in board 1, else at 256 plus that in board 2. */
POTIREHU_CHECKED
uint64_t potirehu_logs(const uint64_t *seconds_1, uint64_t n_seconds_1, const uint64_t *bits_1, uint64_t n_bits_1, const uint64_t *seconds_2,
                       uint64_t n_seconds_2, const uint64_t *bits_2, uint64_t n_bits_2, uint64_t tolerance, uint32_t *report, uint64_t n_report);

/* The elementary functions of docs/ELEMENTARY.md: total, never refused. */
double elementary_exp(double x);
double elementary_log(double x);
double elementary_sin(double x);
double elementary_cos(double x);
double elementary_sqrt(double x);
double elementary_pow(double b, double e);

#ifdef __cplusplus
}
#endif

#endif
