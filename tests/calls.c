/* Each C function once accepted and once refused, lists of no elements among them; prints the answers, and what buffers hold past them. */
#include "laukavesp.h"

#include <stdio.h>

static const uint8_t file[] = {0x01, 0x00, 0x02, 0x14, 0x00, 0x15, 0x0A, 0x01, 0x02, 0x1C, 0x04, 0x11, 0x0C};
static const int32_t square[] = {0, 0, 10, 0, 0, 5, 0, 10};
static const uint8_t letter[] = {'a'}, unbounded[] = {'!', 'a'};

static void say(const char *call, laukavesp_answer a) { printf("%s %llu %llu\n", call, (unsigned long long)a.number, (unsigned long long)a.value); }

static void numbers(const int32_t *list, size_t n) {
    size_t i;
    for (i = 0; i < n; i++) printf("%s%ld", i == 0 ? "" : " ", (long)list[i]);
    printf("\n");
}

static void draw(int32_t zoom, int32_t kind, int32_t place, int32_t from, int32_t to) {
    laukavesp_drawn d = laukavesp_draw(0, 0, zoom, kind, place, from, to);
    printf("draw %lu %lu %g %g %g\n", (unsigned long)d.number, (unsigned long)d.upright, (double)d.place, (double)d.from, (double)d.to);
}

int main(void) {
    int32_t list[18] = {7, 7, 7, 7, 7, 7, 7, 7, 7, 7, 7, 7, 7, 7, 7, 7, 7, 7}, rings[12];
    uint8_t bytes[14] = {9, 9, 9, 9, 9, 9, 9, 9, 9, 9, 9, 9, 9, 9};
    size_t i, same = 0;

    printf("sizes %lu %lu\n", (unsigned long)sizeof(laukavesp_answer), (unsigned long)sizeof(laukavesp_drawn));
    say("read", laukavesp_read(file, sizeof file, list, 11));
    say("read", laukavesp_read(NULL, 0, NULL, 0));
    say("read", laukavesp_read(file, sizeof file, list, 18));
    numbers(list, 18);
    for (i = 0; i < 12; i++) rings[i] = list[i];
    say("write", laukavesp_write(rings, 11, bytes, 14));
    say("write", laukavesp_write(rings, 12, bytes, 14));
    for (i = 0; i < sizeof file; i++) same += bytes[i] == file[i];
    printf("%lu %lu\n", (unsigned long)same, (unsigned long)bytes[13]);
    say("edges", laukavesp_edges(rings, 12, list, 15));
    say("edges", laukavesp_edges(rings, 12, list, 18));
    numbers(list, 18);
    say("run", laukavesp_run(NULL, 0, letter, 1, NULL, 0));
    say("run", laukavesp_run(square, 8, letter, 1, NULL, 0));
    say("run", laukavesp_run(square, 8, letter, 1, list, 18));
    numbers(list, 18);
    say("area", laukavesp_area(square, 8, letter, 1));
    say("area", laukavesp_area(square, 8, unbounded, 2));
    draw(1, 0, 5, 6, 10);
    draw(0, 1, -3, 16777216, -16777216);
    draw(0, 1, -3, 16777217, -16777216);
    draw(17, 0, 5, 6, 10);
    return 0;
}
