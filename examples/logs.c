/* Two boards' logs held against each other: board 2 starts a second later, skips one entry and has one density of its own. Each board logs its second
   count and the bits of the mass density of the first published sample, one altitude after another. */
#include <stdio.h>
#include <string.h>

#include "potirehu_struct.h"

int main(void) {
    static const char *words[] = {"", "pair, same bits", "pair, other bits", "single of board 1", "single of board 2"};
    struct potirehu_record record = {
        .doy = 172, .sec = 29000.0, .g_lat = 60.0, .g_long = -70.0, .lst = 16.0, .f107a = 150.0, .f107 = 150.0, .ap = 4.0};
    const struct potirehu_switches switches = potirehu_all_on();
    uint64_t seconds[2][8], bits[2][8];
    size_t n[2] = {0, 0};
    for (unsigned i = 0; i < 6; i++) {
        struct potirehu_row row;
        record.alt = 400.0 - i;
        struct potirehu_answer answer = potirehu_struct_gtd7(&record, &switches, &row);
        if (answer.number) {
            printf("refused %lu %lu\n", answer.number, answer.place);
            return 1;
        }
        for (unsigned board = 0; board < 2; board++) {
            if (board == 1 && i == 2) continue; /* skipped */
            if (board == 1 && i == 4) row.density *= 1.5;
            seconds[board][n[board]] = 1000 + 60 * i + board;
            memcpy(&bits[board][n[board]++], &row.density, sizeof row.density);
        }
    }
    const struct potirehu_log board_1 = {seconds[0], bits[0], n[0]}, board_2 = {seconds[1], bits[1], n[1]};
    struct potirehu_report report;
    struct potirehu_count_answer held = potirehu_struct_logs(&board_1, &board_2, 2, &report);
    if (held.number) {
        printf("refused %lu %lu\n", held.number, held.place);
        return 1;
    }
    for (size_t i = 0; i < held.count; i++) printf("%u %s\n", (unsigned)i + 1, words[report.finding[i]]);
    return 0;
}
