/* Asks the library: reads questions from standard input and writes its answers to standard output, until the input ends.
   A question is three counts (edge numbers, bytes of text, room in numbers) as 32-bit words, the edges and the text. Its answer is number and value of the run and of
   the area as 64-bit words, and then the whole buffer that the run was lent, which held 7 everywhere. */
#include "laukavesp.h"

long read(int, void *, size_t);
long write(int, const void *, size_t);

enum { EDGES = 20000, TEXT = 100, ROOM = 1 << 21 };
static int32_t edges[EDGES], records[ROOM];
static uint8_t text[TEXT];

static int all(int in, void *to, size_t n) {
    size_t at = 0;
    while (at < n) {
        long k = in ? read(0, (uint8_t *)to + at, n - at) : write(1, (uint8_t *)to + at, n - at);
        if (k <= 0) return 0;
        at += (size_t)k;
    }
    return 1;
}

int main(void) {
    uint32_t counts[3];
    while (all(1, counts, sizeof counts)) {
        size_t i;
        laukavesp_answer told[2];
        if (counts[0] > EDGES || counts[1] > TEXT || counts[2] > ROOM) return 1;
        if (!all(1, edges, counts[0] * sizeof *edges) || !all(1, text, counts[1])) return 1;
        for (i = 0; i < counts[2]; i++) records[i] = 7;
        told[0] = laukavesp_run(edges, counts[0], text, counts[1], records, counts[2]);
        told[1] = laukavesp_area(edges, counts[0], text, counts[1]);
        if (!all(0, told, sizeof told) || !all(0, records, counts[2] * sizeof *records)) return 1;
    }
    return 0;
}
