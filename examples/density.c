/* Densities from lines: each line of standard input has doy sec alt g_lat g_long lst f107a f107 ap, and may go on with seven values of the
   magnetic history, which switch 9 then asks for; a line that begins with # is passed over. All switches are on, output is in m^-3, kg/m^3 and K. */
#include <stdio.h>

#include "potirehu_struct.h"

int main(void) {
    char line[1024];
    puts("alt_km density_kg_m3 T_exo_K T_K");
    while (fgets(line, sizeof line, stdin)) {
        int doy;
        struct potirehu_record record = {0};
        struct potirehu_history history;
        struct potirehu_row row;
        if (line[0] == '#') continue;
        int n = sscanf(line, "%d %lf %lf %lf %lf %lf %lf %lf %lf %lf %lf %lf %lf %lf %lf %lf", &doy, &record.sec, &record.alt, &record.g_lat,
                       &record.g_long, &record.lst, &record.f107a, &record.f107, &record.ap, &history.daily, &history.now,
                       &history.before_3_hours, &history.before_6_hours, &history.before_9_hours, &history.mean_12_to_33_hours,
                       &history.mean_36_to_57_hours);
        if (n != 9 && n != 16) {
            puts("no record");
            continue;
        }
        record.doy = doy;
        struct potirehu_switches switches = potirehu_all_on();
        if (n == 16) {
            record.history = &history;
            switches.entry[POTIREHU_SWITCH_ACTIVITY] = -1;
        }
        struct potirehu_answer answer = potirehu_struct_gtd7(&record, &switches, &row);
        if (answer.number)
            printf("refused %lu %lu\n", answer.number, answer.place);
        else
            printf("%g %.6e %.2f %.2f\n", record.alt, row.density, row.temperature_exo, row.temperature_alt);
    }
    return 0;
}
