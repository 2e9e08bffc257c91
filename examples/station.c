/* A controller over one place: prepares a station once, asks it for altitude after altitude, moves it on between the orbits, and then
   takes another switch row. A change or a row that is refused leaves the station as it was. The last line is the density that a drag model takes.
   All switches are on but where said, densities in kg/m^3. */
#include <math.h>
#include <stdio.h>

#include "potirehu_struct.h"

static struct potirehu_prepared station;

/* One line of densities, from 200 km up. */
static struct potirehu_answer profile(const char *name) {
    struct potirehu_answer answer = {0, 0};
    printf("%-22s", name);
    for (double alt = 200.0; alt <= 600.0; alt += 100.0) {
        struct potirehu_row row;
        answer = potirehu_struct_station_gtd7(&station, alt, &row);
        if (answer.number) return answer;
        printf("  %.5e", row.density);
    }
    puts("");
    return answer;
}

static int refused(struct potirehu_answer answer) {
    printf("refused %lu %lu\n", answer.number, answer.place);
    return 1;
}

int main(void) {
    const struct potirehu_record record = {.doy = 172, .g_lat = 45.0, .g_long = 15.0, .lst = 1.0, .f107a = 150.0, .f107 = 150.0, .ap = 4.0};
    struct potirehu_switches switches = potirehu_all_on();
    struct potirehu_answer answer = potirehu_struct_station(&record, &switches, &station);
    if (answer.number) return refused(answer);

    puts("lst (hours)             200 km       300 km       400 km       500 km       600 km");
    /* sixteen orbits of an hour and a half; lst is sec / 3600 + g_long / 15 */
    for (int orbit = 0; orbit < 16; orbit++) {
        char name[32];
        double seconds = 5400.0 * orbit, hours = seconds / 3600.0 + 1.0;
        if ((answer = potirehu_struct_station_move(&station, seconds, hours, record.g_long)).number) return refused(answer);
        snprintf(name, sizeof name, "%.1f", hours);
        if ((answer = profile(name)).number) return refused(answer);
    }

    printf("lst NaN: ");
    refused(potirehu_struct_station_lst(&station, NAN));
    if ((answer = profile("the last line again")).number) return refused(answer);

    /* a row that asks for a magnetic history, which this record has not; then one without the variations of switches 16 to 23 */
    switches.entry[POTIREHU_SWITCH_ACTIVITY] = -1;
    printf("switch 9 at -1: ");
    refused(potirehu_struct_station_switches(&station, &switches));
    switches = potirehu_all_on();
    for (int i = POTIREHU_SWITCH_TINF; i <= POTIREHU_SWITCH_TURBO; i++) switches.entry[i] = 0;
    if ((answer = potirehu_struct_station_switches(&station, &switches)).number) return refused(answer);
    if ((answer = profile("switches 16 to 23 off")).number) return refused(answer);
    switches = potirehu_all_on();
    if ((answer = potirehu_struct_station_switches(&station, &switches)).number) return refused(answer);

    struct potirehu_row row;
    if ((answer = potirehu_struct_station_gtd7d(&station, 600.0, &row)).number) return refused(answer);
    printf("for drag, 600 km        %.5e\n", row.density);
    return 0;
}
