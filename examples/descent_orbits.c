/* Draws a descent with its flap settings: altitude down, orbits to the right, each mark the setting flown there. All switches are on. */
#include <stdio.h>

#include "potirehu_struct.h"

#define ORBITS 10000
#define WIDE 100
#define LINES 21

static int32_t settings[ORBITS];
static int64_t losses[ORBITS];

/* The marks of the losses taken, from start millimetres; a line is 5 km. */
static void draw(int64_t start, int64_t taken) {
    char page[LINES][WIDE + 1];
    for (int i = 0; i < LINES; i++) {
        for (int k = 0; k < WIDE; k++) page[i][k] = ' ';
        page[i][WIDE] = 0;
    }
    int64_t a = start;
    for (int64_t i = 0; i < taken; i++) {
        a -= losses[i];
        page[(300000000 - a) / 5000000][i * WIDE / ORBITS] = (char)('0' + settings[i]);
    }
    for (int i = 0; i < LINES; i++) printf("%3d km |%s\n", 300 - 5 * i, page[i]);
}

int main(void) {
    const struct potirehu_record record = {
        .doy = 172, .sec = 29000.0, .g_lat = 60.0, .g_long = -70.0, .lst = 16.0, .f107a = 150.0, .f107 = 150.0, .ap = 4.0};
    const char *const endings[] = {"", "no density", "reached", "spent"};
    const struct potirehu_switches switches = potirehu_all_on();
    struct potirehu_end end;

    /* flaps in, half out, in again, and out for good */
    for (int i = 0; i < ORBITS; i++) settings[i] = i < 1500 ? 1 : i < 2500 ? 3 : i < 4000 ? 1 : 4;
    const int64_t start = 300000000;
    struct potirehu_answer answer = potirehu_struct_descent(&record, &switches, start, settings, ORBITS, losses, ORBITS, &end);
    if (answer.number) {
        printf("refused %lu %lu\n", answer.number, answer.place);
        return 1;
    }
    draw(start, end.taken);
    printf("%s after %ld orbits at %.3f km\n", endings[end.ending], (long)end.taken, (double)end.altitude / 1e6);

    /* a setting that no flap has */
    settings[2] = 5;
    answer = potirehu_struct_descent(&record, &switches, start, settings, ORBITS, losses, ORBITS, &end);
    printf("setting 5 on the third orbit: refused %lu %lu\n", answer.number, answer.place);
    return 0;
}
