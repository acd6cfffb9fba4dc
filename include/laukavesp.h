/* Laukavesp: the edges and the area of an expression over axis-parallel masks, mask files, and drawn numbers.
 *
 * For C99 and later, and for C++. Link target/staticlib/libexports.a, which `./archive` proves and writes for x86-64 Linux.
 *
 * Every input has an answer: no number and no text that is handed over breaks a call, and none takes or keeps memory. The caller answers for
 * its pointers alone:
 *   - a list is a pointer and the number of its elements, not of its bytes, all of which may be read, and written where the pointer is not const;
 *   - a list of 0 elements may have any pointer, NULL too;
 *   - a buffer that is written overlaps no other list of the same call;
 *   - about 1 MB of stack is free.
 * Calls may run at the same time in several threads, each with its own buffers.
 *
 * Sizes: coordinates from -1073741824 to 1073741824 (2^30 each way); layers 0 to 7, in expressions the letters a to h; at most 4096 edges; an
 * expression of 1 to 64 bytes, at most 16 parentheses open; a mask file of at most 49152 bytes with at most 4096 pairs; zoom 0 to 16.
 *
 * An edge       four numbers: layer, y, from, to. It is horizontal at y. Going west (from > to) it has opaque above it, going east below it.
 * A record      four numbers: kind, place, from, to. Kind 0 is horizontal at y = place, kind 1 vertical at x = place; the inside lies on the
 *               right of the direction from -> to. All of kind 0 come first; within a kind the order is by place, then by the lesser end.
 * A ring list   for each ring: layer, k, x1, y1, .. xk, yk. The ring visits (x1,y1), (x2,y1), (x2,y2), .. (xk,yk), (x1,yk) and closes.
 * An expression letters a to h, ! not, * and, - and not, + or, ^ exclusive or, parentheses, no blanks; ! binds tightest, then * and -,
 *               then + and ^, each from left to right. It is bytes with a length: no 0 at the end is needed, or counted.
 */
#ifndef LAUKAVESP_H
#define LAUKAVESP_H

#include <stddef.h>
#include <stdint.h>

#ifdef __cplusplus
extern "C" {
#endif

/* What every call answers: a number, which is 0 where the call is accepted, and a value.
 *
 * On 0 the value is how many records (run), cells (area), numbers (read, edges) or bytes (write) there are. Those stand at the front of the
 * buffer, four numbers a record, and the rest of the buffer is as it was. On every other number the whole buffer is as it was.
 *
 *   No.  given when                                                                  value
 *    1   the edge list's length is not a multiple of 4                               0
 *    2   there are over 4096 edges                                                   0
 *    3   an edge has a layer that is not 0 to 7 or a coordinate out of range;        the edge, from 0; 0 for draw
 *        in draw, the kind is not 0 or 1, or the record has such a coordinate
 *    4   an edge, or in draw the record, has from equal to to                        the edge, from 0; 0 for draw
 *    5   the edges are not closed: for some layer and column, the edges spanning     0
 *        the column that go west and those that go east are not equal in number
 *    6   the expression has 0 bytes, or over 64                                      0
 *    7   some beginning of the expression has over 16 more ( than )                  0
 *    8   the expression is not well formed                                           0
 *    9   the expression holds where no layer covers, as !a does: the result would    0
 *        have no bounds
 *   10   records has room for under four numbers a record                            the records needed
 *   11   the file has over 49152 bytes                                               0
 *   12   the file or the ring list ends inside a number or a ring, or the file has   its length
 *        no edition
 *   13   a number in the file is not written in the shortest way, is minus zero, or  where the number starts
 *        has a fifth group that says that a sixth follows
 *   14   the file's edition is not 1                                                 0
 *   15   a ring's layer is not 0 to 7, its k is under 2, or a coordinate is out of   where the number starts
 *        range
 *   16   two neighbours in a ring, the last and the first too, have the same x or    where the number starts
 *        the same y
 *   17   the rings have over 4096 pairs                                              where the k starts
 *   18   the buffer that is written is too short                                     the numbers or bytes needed
 *   19   the view is out of range: its origin or its zoom                            0
 *   20   an offset in the view is over 16777216 in size                              0
 *
 * Places and lengths count bytes in a file and numbers in a ring list. Where several apply: run and area answer 1, 2, then for the first faulty
 * edge 3 or else 4, then 5 to 10 as numbered; read answers 11, then 12 to 17 for the first faulty number from the front, then 18; write and
 * edges answer 12 and 15 to 17 likewise, then 18; draw answers 19, 3, 4, 20. */
typedef struct {
    uint64_t number, value;
} laukavesp_answer;

/* What draw answers: the number; upright, which is 0 for a level edge (kind 0) and 1 for an upright one (kind 1); the edge's place and its two
 * ends in the view. On a refusal upright is 0, and so are the floats. */
typedef struct {
    uint32_t number, upright;
    float place, from, to;
} laukavesp_drawn;

/* The records of an expression over an edge list: 0 with how many records, or 1 to 10. With a buffer of 0 numbers a result that has records is
 * answered by 10 and how many. */
laukavesp_answer laukavesp_run(const int32_t *edges, size_t edges_length, const uint8_t *expression, size_t expression_length,
                               int32_t *records, size_t records_length);

/* The area of an expression over an edge list: 0 with the number of inside cells, which is at most 2^62, or 1 to 9. */
laukavesp_answer laukavesp_area(const int32_t *edges, size_t edges_length, const uint8_t *expression, size_t expression_length);

/* The ring list of a mask file: 0 with how many numbers, or 11 to 18. 12288 numbers are room enough for every file. */
laukavesp_answer laukavesp_read(const uint8_t *file, size_t file_length, int32_t *rings, size_t rings_length);

/* The mask file of a ring list: 0 with how many bytes, or 12, 15 to 18. 49152 bytes are room enough for every ring list. */
laukavesp_answer laukavesp_write(const int32_t *rings, size_t rings_length, uint8_t *file, size_t file_length);

/* The edges of a ring list: 0 with how many numbers, four an edge, or 12, 15 to 18. 16384 numbers are room enough for every ring list. */
laukavesp_answer laukavesp_edges(const int32_t *rings, size_t rings_length, int32_t *edges, size_t edges_length);

/* The record (kind, place, from, to) in the view with the origin (ox, oy) and the zoom: each coordinate, less the origin of its axis, divided by
 * 2^zoom, exactly. 0, or 19, 3, 4, 20. */
laukavesp_drawn laukavesp_draw(int32_t ox, int32_t oy, int32_t zoom, int32_t kind, int32_t place, int32_t from, int32_t to);

#ifdef __cplusplus
}
#endif

#endif
