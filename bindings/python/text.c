/* Plain records out of a text, and lines of a table into one: what ./density does with most lines of most files, without Python in between. It is linked into
   libpotirehu.so beside the proved library, on which nothing of it bears; where it is not there, density.py does the same by itself, and whatever is not plain
   (a comment inside, a field that is not known, a word that is no number, a refused record) is left to it. */
#include <math.h>
#include <stdint.h>
#include <stdio.h>
#include <stdlib.h>
#include <string.h>

enum { LONGEST = 63, FIELDS = 8, HISTORY = 7, ROW = 11, PLACES = 9 };

static const double POWERS[23] = {1e0,  1e1,  1e2,  1e3,  1e4,  1e5,  1e6,  1e7,  1e8,  1e9,  1e10, 1e11,
                                  1e12, 1e13, 1e14, 1e15, 1e16, 1e17, 1e18, 1e19, 1e20, 1e21, 1e22};

static int is_blank(char c) { return c == ' ' || c == '\t' || c == '\r' || c == '\v' || c == '\f'; }

/* The number in a word: 1, or 0 where it is none that float of Python reads to the same value. */
static int number(const char *word, uint64_t length, double *value) {
    const char *p = word, *end = word + length;
    int negative = 0, digits = 0, significant = 0, exponent = 0;
    uint64_t whole = 0;
    if (length == 0 || length > LONGEST) return 0;
    if (*p == '+' || *p == '-') negative = *p++ == '-';
    for (; p < end && *p >= '0' && *p <= '9'; p++, digits++)
        if (whole || *p != '0') {
            significant++;
            whole = whole * 10 + (uint64_t)(*p - '0');
        }
    if (p < end && *p == '.')
        for (p++; p < end && *p >= '0' && *p <= '9'; p++, digits++, exponent--)
            if (whole || *p != '0') {
                significant++;
                whole = whole * 10 + (uint64_t)(*p - '0');
            }
    if (digits == 0) return 0;
    if (p < end && (*p == 'e' || *p == 'E')) {
        int down = 0, by = 0, any = 0;
        p++;
        if (p < end && (*p == '+' || *p == '-')) down = *p++ == '-';
        for (; p < end && *p >= '0' && *p <= '9'; p++, any = 1)
            if (by < 100000) by = by * 10 + (*p - '0');
        if (!any) return 0;
        exponent += down ? -by : by;
    }
    if (p != end) return 0;
    if (significant <= 15 && exponent >= -22 && exponent <= 22) {
        /* both are whole numbers of a double's width: one operation, rounded once */
        double exact = exponent < 0 ? (double)whole / POWERS[-exponent] : (double)whole * POWERS[exponent];
        *value = negative ? -exact : exact;
        return 1;
    }
    char copy[LONGEST + 1], *read;
    memcpy(copy, word, length);
    copy[length] = 0;
    *value = strtod(copy, &read);
    return read == copy + length;
}

/* Reads records of width words, 9 or 16, from the start of text on, at most most of them: of each its doy, fields and history, the number of its line, from 0,
   and start and length of each word. Empty lines and comment lines between them are passed over. It stops before the first line that is no plain record, and
   answers how many it read; used gets the bytes and lines that it went past. text ends with a whole line. */
uint64_t potirehu_text_read(const char *text, uint64_t n_text, uint64_t width, uint64_t most, int32_t *days, double *fields, double *histories, uint32_t *lines,
                            uint32_t *starts, uint8_t *lengths, uint64_t used[2]) {
    uint64_t at = 0, line = 0, count = 0;
    while (at < n_text && count < most) {
        uint64_t p = at, words = 0;
        double values[PLACES + HISTORY];
        const char *found = memchr(text + at, '\n', n_text - at);
        uint64_t end = found ? (uint64_t)(found - text) : n_text, next = found ? end + 1 : n_text;
        while (p < end && is_blank(text[p])) p++;
        if (p < end && text[p] != '#') {
            for (;;) {
                uint64_t start = p;
                while (p < end && !is_blank(text[p]) && text[p] != ',') p++;
                if (words == width || !number(text + start, p - start, &values[words])) goto stop;
                starts[count * width + words] = (uint32_t)start;
                lengths[count * width + words] = (uint8_t)(p - start);
                words++;
                while (p < end && is_blank(text[p])) p++;
                if (p == end) break;
                if (text[p] == ',') {
                    p++;
                    while (p < end && is_blank(text[p])) p++;
                }
            }
            if (words != width || values[0] != floor(values[0]) || fabs(values[0]) > 2147483647.0) goto stop;
            days[count] = (int32_t)values[0];
            memcpy(fields + FIELDS * count, values + 1, FIELDS * sizeof(double));
            if (width > PLACES) memcpy(histories + HISTORY * count, values + PLACES, HISTORY * sizeof(double));
            lines[count++] = (uint32_t)line;
        }
        at = next;
        line++;
    }
stop:
    used[0] = at;
    used[1] = line;
    return count;
}

/* How many records have a local time that is more than an hour off sec and longitude; first gets the index of the first of them. */
uint64_t potirehu_text_lst(const double *fields, uint64_t n, uint64_t *first) {
    uint64_t count = 0;
    for (uint64_t i = 0; i < n; i++) {
        const double *f = fields + FIELDS * i;
        double off = fmod(f[4] - f[0] / 3600.0 - f[3] / 15.0, 24.0);
        if (off < 0) off += 24.0;
        if (off > 1.0 && off < 23.0 && count++ == 0) *first = i;
    }
    return count;
}

/* Whether any record has a doy, latitude or flux that is out of its range or beyond what was measured. */
uint64_t potirehu_text_odd(const int32_t *days, const double *fields, uint64_t n) {
    for (uint64_t i = 0; i < n; i++) {
        const double *f = fields + FIELDS * i;
        int plain = days[i] >= 1 && days[i] <= 366 && f[2] >= -90.0 && f[2] <= 90.0 && f[5] >= 50.0 && f[5] <= 300.0 && f[6] >= 50.0 && f[6] <= 500.0;
        if (!plain) return 1;
    }
    return 0;
}

static char *padded(char *out, const char *word, int length, int width) {
    for (int i = length; i < width; i++) *out++ = ' ';
    memcpy(out, word, (size_t)length);
    return out + length;
}

static char *digits_of(char *end, uint64_t whole, int least) {
    for (int i = 0; i < least || whole; i++, whole /= 10) *--end = (char)('0' + whole % 10);
    return end;
}

/* whole with the nearest whole number, 1; 0 where that is not safe to say, because value, which is right to some 2^-60, lies about halfway */
static int rounded(long double value, uint64_t *whole) {
    *whole = (uint64_t)value;
    long double part = value - (long double)*whole;
    if (part > 0.499999L && part < 0.500001L) return 0;
    *whole += part > 0.5L;
    return 1;
}

/* value as printf has it with %16.6e, but for a NaN's sign */
static char *scientific(char *out, double value) {
    char room[40], *end = room + sizeof room;
    uint64_t whole;
    if (isnan(value)) return padded(out, "nan", 3, 16);
    if (value >= 1e-25 && value < 1e6) {
        int exponent = (int)floor(log10(value));
        for (int tries = 0; tries < 2; tries++) {
            /* 10^27 is the largest power that a long double has exactly, so the scaling is one rounded operation or two */
            int up = 6 - exponent;
            long double scaled = up <= 22 ? (long double)value * POWERS[up] : (long double)value * POWERS[22] * POWERS[up - 22];
            if (!rounded(scaled, &whole)) break;
            if (whole >= 1000000 && whole < 10000000) {
                char *begin = end;
                int size = abs(exponent);
                begin = digits_of(begin, (uint64_t)size, 2);
                *--begin = exponent < 0 ? '-' : '+';
                *--begin = 'e';
                begin = digits_of(begin, whole % 1000000, 6);
                *--begin = '.';
                *--begin = (char)('0' + whole / 1000000);
                return padded(out, begin, (int)(end - begin), 16);
            }
            exponent += whole >= 10000000 ? 1 : -1;
        }
    }
    return padded(out, room, snprintf(room, sizeof room, "%.6e", value), 16);
}

/* value as printf has it with %9.2f, but for a NaN's sign */
static char *hundredths(char *out, double value) {
    char room[400], *end = room + sizeof room;
    uint64_t whole;
    if (isnan(value)) return padded(out, "nan", 3, 9);
    if (value >= 0.0 && !signbit(value) && value < 1e9 && rounded((long double)value * 100.0L, &whole)) {
        char *begin = digits_of(end, whole % 100, 2);
        *--begin = '.';
        begin = digits_of(begin, whole / 100, 1);
        return padded(out, begin, (int)(end - begin), 9);
    }
    return padded(out, room, snprintf(room, sizeof room, "%.2f", value), 9);
}

/* Writes the lines of records that are accepted, from index from on, up to the first that is refused: nine words as wide as widths says, density and the two
   temperatures, before, the words of a history, after. Answers the index behind the last; written gets the bytes. out has room for all of it: for each record
   what the words and widths take, before and after, and 1,024 bytes. */
uint64_t potirehu_text_write(const char *text, const uint32_t *starts, const uint8_t *lengths, uint64_t width, uint64_t from, uint64_t n,
                             const uint64_t *answers, const double *rows, const int32_t widths[9], const char *before, uint64_t n_before,
                             const char *after, uint64_t n_after, char *out, uint64_t *written) {
    char *p = out;
    uint64_t i = from;
    for (; i < n && answers[i] == 0; i++) {
        const uint32_t *start = starts + width * i;
        const uint8_t *length = lengths + width * i;
        const double *row = rows + ROW * i;
        for (int k = 0; k < PLACES; k++) {
            if (k) *p++ = ' ';
            p = padded(p, text + start[k], length[k], widths[k]);
        }
        *p++ = ' ';
        p = scientific(p, row[5]);
        *p++ = ' ';
        p = hundredths(p, row[9]);
        *p++ = ' ';
        p = hundredths(p, row[10]);
        memcpy(p, before, n_before);
        p += n_before;
        for (uint64_t k = PLACES; k < width; k++) {
            *p++ = ' ';
            p = padded(p, text + start[k], length[k], 0);
        }
        memcpy(p, after, n_after);
        p += n_after;
        *p++ = '\n';
    }
    *written = (uint64_t)(p - out);
    return i;
}
