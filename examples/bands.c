/* Densities by band beside the all-on profile: reads a table of bands from the file named, as examples/bands.txt, and prints for each height the mass
   density with the band's row and with all switches on, in kg/m^3. First published sample but for the altitude. */
#include <stdio.h>
#include <string.h>

#include "potirehu_struct.h"

/* Of a line that is no band, the byte at fault where it is one that an editor puts there. */
static void print_fault(const uint8_t *text, size_t n, unsigned long line) {
    size_t start = 0, end;
    for (unsigned long i = 1; i < line; i++) start = (size_t)((const uint8_t *)memchr(text + start, '\n', n - start) - text) + 1;
    const uint8_t *newline = memchr(text + start, '\n', n - start);
    end = newline ? (size_t)(newline - text) : n;
    if (end == start)
        printf(": it is empty, at byte %lu of the text", (unsigned long)start);
    else if (text[end - 1] == '\r')
        printf(": it ends with a carriage return, byte %lu of the text; lines end with a newline alone", (unsigned long)(end - 1));
}

int main(int argc, char **argv) {
    static uint8_t text[65536];
    static struct potirehu_band_table table;
    FILE *file = argc > 1 ? fopen(argv[1], "rb") : NULL;
    if (!file) return puts("a file with a table of bands is wanted"), 2;
    size_t n = fread(text, 1, sizeof text, file);
    if (ferror(file)) return puts("the table cannot be read"), 2;
    fclose(file);
    struct potirehu_answer answer = potirehu_struct_bands(text, n, &table);
    if (answer.number) {
        printf("refused %lu at line %lu", answer.number, answer.place);
        if (answer.number == POTIREHU_NO_BAND) print_fault(text, n, answer.place);
        puts("");
        return 1;
    }
    struct potirehu_record record = {
        .doy = 172, .sec = 29000.0, .g_lat = 60.0, .g_long = -70.0, .lst = 16.0, .f107a = 150.0, .f107 = 150.0, .ap = 4.0};
    const struct potirehu_switches on = potirehu_all_on();
    puts("metre    by band      all on       ratio");
    for (long metre = 0; metre <= 1000000; metre += 25000) {
        struct potirehu_row row, all;
        record.alt = (double)metre / 1000.0;
        answer = potirehu_struct_bands_gtd7(&table, metre, &record, &row);
        if (!answer.number) answer = potirehu_struct_gtd7(&record, &on, &all);
        if (answer.number) {
            printf("refused %lu %lu\n", answer.number, answer.place);
            return 1;
        }
        printf("%7ld  %.5e  %.5e  %.4f\n", metre, row.density, all.density, row.density / all.density);
    }
    return 0;
}
