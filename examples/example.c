/* Where both of two masks are: reads a mask file from bytes, and prints the records and the area of a*b as the program does. */
#include "laukavesp.h"

#include <stdio.h>

static const uint8_t file[] = {0x01, 0x00, 0x02, 0x14, 0x00, 0x15, 0x0A, 0x01, 0x02, 0x1C, 0x04, 0x11, 0x0C};
static const uint8_t expression[] = {'a', '*', 'b'};

/* Room for every mask file and its edges, and for 2048 records. */
static int32_t rings[12288], edges[16384], records[8192];

static int print_answer(laukavesp_answer a) {
    printf("%llu %llu\n", (unsigned long long)a.number, (unsigned long long)a.value);
    return a.number != 0;
}

int main(void) {
    laukavesp_answer read, made, run, area;
    const int32_t *r;
    size_t i;

    read = laukavesp_read(file, sizeof file, rings, 12288);
    if (read.number != 0) return print_answer(read);
    made = laukavesp_edges(rings, (size_t)read.value, edges, 16384);
    if (made.number != 0) return print_answer(made);
    run = laukavesp_run(edges, (size_t)made.value, expression, sizeof expression, records, 8192);
    if (run.number != 0) return print_answer(run);
    area = laukavesp_area(edges, (size_t)made.value, expression, sizeof expression);
    if (area.number != 0) return print_answer(area);

    print_answer(run);
    for (i = 0; i < run.value; i++) {
        r = records + 4 * i;
        printf("%ld %ld %ld %ld\n", (long)r[0], (long)r[1], (long)r[2], (long)r[3]);
    }
    printf("area %llu\n", (unsigned long long)area.value);
    return 0;
}
