/* Finds the pair of two models of the field of 343 elements (document 01, example D), checks it, sends a table there and back and
 * prints the report. */
#include "yokebean.h"
#include <stdio.h>

static void print(const char *name, const uint32_t *words, size_t count) {
    printf("%s", name);
    for (size_t i = 0; i < count; i++)
        printf("%s%u", i ? ", " : "[", words[i]);
    printf("]\n");
}

int main(void) {
    const uint32_t t1[] = {5, 0, 0}, t2[] = {4, 0, 0}, table[] = {1, 2, 3, 0, 1, 0};
    uint32_t s[3], r[3], image[6], again[6];
    if (yokebean_find(7, 3, t1, 3, t2, 3, s, 3, r, 3) != 0 || yokebean_check(7, 3, t1, 3, t2, 3, s, 3, r, 3) != 0)
        return 1;
    print("S = ", s, 3);
    print("R = ", r, 3);
    yokebean_step step = yokebean_session_load(yokebean_session_new(), 7, 3, t1, 3, t2, 3);
    if (step.number == 0)
        step = yokebean_session_find(step.session);
    if (step.number == 0)
        step = yokebean_session_forward(step.session, table, 6, image, 6);
    if (step.number == 0)
        step = yokebean_session_back(step.session, image, 6, again, 6);
    if (step.number != 0)
        return 1;
    print("table ", table, 6);
    print("image ", image, 6);
    print("again ", again, 6);
    uint8_t report[64];
    size_t length = yokebean_session_report_length(step.session);
    if (length > sizeof report || yokebean_session_report(step.session, report, length).number != 0)
        return 1;
    fwrite(report, 1, length, stdout);
    return 0;
}
