/* Uses that must not pass: WRONG names one, and the compiler must refuse it under -Wall -Wextra -Wconversion -Werror; 0 is none, and must pass. C99 and
   C++11. */
#include "potirehu_struct.h"

int used(const struct potirehu_record *record, const struct potirehu_switches *switches, struct potirehu_row *row, const double *fields, double *numbers,
         const double *altitudes);

int used(const struct potirehu_record *record, const struct potirehu_switches *switches, struct potirehu_row *row, const double *fields, double *numbers,
         const double *altitudes) {
    (void)record, (void)switches, (void)row, (void)fields, (void)numbers, (void)altitudes;
#if WRONG == 0
    uint64_t code = potirehu_gtd7(0, 172, fields, 8, NULL, 0, switches->entry, 24, numbers, 11);
    struct potirehu_answer answer = potirehu_struct_gtd7(record, switches, row);
    struct potirehu_index_answer first = potirehu_struct_first_below(record, switches, altitudes, 1, 1e-12, row);
    uint64_t answers[1];
    const struct potirehu_records records = {0, NULL, NULL, NULL};
    struct potirehu_answer many = potirehu_struct_gtd7_records(&records, switches, answers, 1, row, 1);
    return POTIREHU_REFUSED(code) || answer.number || first.found || many.number;
#elif WRONG == 1 /* an answer cut to an int */
    int code = potirehu_gtd7(0, 172, fields, 8, NULL, 0, switches->entry, 24, numbers, 11);
    return code;
#elif WRONG == 2 /* a cut answer looked at; no warning is needed to refuse it */
    int code = (int)potirehu_gtd7(0, 172, fields, 8, NULL, 0, switches->entry, 24, numbers, 11);
    return POTIREHU_REFUSED(code);
#elif WRONG == 3
    uint32_t code = (uint32_t)potirehu_first_below(0, 172, fields, 8, NULL, 0, switches->entry, 24, altitudes, 1, 1e-12, numbers, 11);
    return POTIREHU_NUMBER(code) == 2;
#elif WRONG == 4 /* an answer that is not looked at */
    potirehu_gtd7(0, 172, fields, 8, NULL, 0, switches->entry, 24, numbers, 11);
    return 0;
#elif WRONG == 5
    potirehu_struct_gtd7(record, switches, row);
    return 0;
#elif WRONG == 6 /* a struct's answer as a number, and as a truth */
    int code = potirehu_struct_gtd7(record, switches, row);
    return code;
#elif WRONG == 7
    if (potirehu_struct_gtd7(record, switches, row)) return 1;
    return 0;
#elif WRONG == 8 /* a refused call taken for an index */
    return altitudes[potirehu_struct_first_below(record, switches, altitudes, 1, 1e-12, row)] > 0.0;
#elif WRONG == 9 /* a slice of any length for a switch row, and a row for a record */
    return potirehu_struct_gtd7(record, switches->entry, row).number != 0;
#elif WRONG == 10
    return potirehu_struct_gtd7(row, switches, row).number != 0;
#elif WRONG == 11 /* a list of answers of 32 bits each */
    uint32_t answers[1];
    const struct potirehu_records records = {0, NULL, NULL, NULL};
    return potirehu_struct_gtd7_records(&records, switches, answers, 1, row, 1).number != 0;
#endif
}
