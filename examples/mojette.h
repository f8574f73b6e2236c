/*
 * The Mojette bench for programs in C: projecting a picture, rebuilding a tile, and reading a bracket file, at sum words. It stands in the static
 * library crates/exported/out/libexported.a, which `rt lib` makes in crates/exported. The rules are in docs/RULES.md, the refusals in
 * docs/REFUSALS.md, the file in docs/FORMAT.md.
 *
 * Every array is the caller's own, and crosses as a pointer and the number of its elements. Any numbers and any lengths may be handed in. The
 * caller owes what a pointer always owes in C: it points to so many elements (also for 0 elements it is not null and is aligned), and what a call
 * writes overlaps nothing else that the call is handed. No call allocates, prints or keeps a pointer.
 *
 * Every call writes *refusal: four zeros where it is served; else the number of the refusal, and its three values (0 where it tells nothing). A
 * refused call answers 0.
 */
#ifndef MOJETTE_H
#define MOJETTE_H

#include <stddef.h>
#include <stdint.h>

#ifdef __cplusplus
extern "C" {
#endif

/* A sum word: a whole number modulo 65,536. It lies in memory as a uint16_t alone. */
typedef struct {
    uint16_t value;
} mojette_word;

/* The direction (p, q): p columns to the right and q rows down. */
typedef struct {
    int32_t p;
    int32_t q;
} mojette_direction;

/* A place: its direction, and why its sums are lost; cause 0 for a whole place. */
typedef struct {
    mojette_direction direction;
    uint8_t cause;
} mojette_record;

/* The columns, the rows and the number of places of a file. */
typedef struct {
    size_t columns;
    size_t rows;
    size_t places;
} mojette_sizes;

/* A refusal: its number in docs/REFUSALS.md, and the three values that it tells. */
typedef struct {
    size_t number;
    size_t first;
    size_t second;
    size_t third;
} mojette_refusal;

/*
 * Projects a picture of columns by rows pixels along the direction (p, q).
 *
 *   picture  the pixels, row by row: columns * rows words, the first cells of the array
 *   sums     where the sums go, a word for each bin: (columns - 1) * q + (rows - 1) * |p| + 1 words
 *
 * Answers the number of bins, and has written as many sums; the further cells are as they were.
 * Refuses, and writes no sum: 1 columns or rows outside 1 to 64; 3 a direction that is not lawful (first value 0); 5 an array too short (first value
 * 1 the picture, 3 the sums).
 */
size_t mojette_project(size_t columns, size_t rows, int32_t p, int32_t q, const mojette_word *picture, size_t picture_length,
                       mojette_word *sums, size_t sums_length, mojette_refusal *refusal);

/*
 * Rebuilds the picture of columns by rows pixels from the sums of its whole places. With T the number of bins of all places, lost ones too:
 *
 *   records  the places, 1 to 16, each of a lawful direction before the next one's (docs/RULES.md)
 *   run      the sums, place after place: exactly T words. Those of a lost place are not read
 *   picture  where the picture goes, row by row: columns * rows words
 *   marks    a byte for each pixel: columns * rows
 *   sums     a word for each bin: T
 *   counts   a byte for each bin: T
 *   queue    a number for each bin: T
 *
 * The five tables may hold anything before, and may be longer: the further cells are as they were. They hold the tile's work afterwards: marks 1 in
 * each pixel, sums 0 and counts 0 in each bin.
 *
 * Answers the number of pixels, columns * rows: the picture is the only one with these sums.
 * Refuses, and writes no table: 1 columns or rows outside 1 to 64; 2 no place, or more than 16; 3 a direction that is not lawful, 4 a direction not
 * after the one before (first value the place, from 0); 19 a run that is not T long (first value T); 5 a table too short (first value 1 picture,
 * 2 marks, 3 sums, 4 counts, 5 queue).
 * Refuses with 9 where too few places are whole (first value the |p| of all whole places, second their q): the picture then holds a ghost, a picture
 * that is not zero and whose sums are zero in every whole place, and `sums` what was loaded.
 * Refuses with 15 where no picture has these sums (first value a place, second its bin, where a sum is left over): the tables are as the work left them.
 */
size_t mojette_rebuild(size_t columns, size_t rows, const mojette_record *records, size_t records_length, const mojette_word *run, size_t run_length,
                       mojette_word *picture, size_t picture_length, uint8_t *marks, size_t marks_length, mojette_word *sums, size_t sums_length,
                       uint8_t *counts, size_t counts_length, uint16_t *queue, size_t queue_length, mojette_refusal *refusal);

/*
 * Reads a bracket file of sum words, and tells its sizes and its places.
 *
 *   text     the bytes of the file
 *   records  where the places go, a record each; a file has 1 to 16
 *
 * Answers the number of places; *sizes and as many records are written, and the further cells are as they were.
 * Refuses, and writes neither: 20 a text that is no such file (first value the line, from 1; second the byte, from 0, where the wrong token begins;
 * third the reason, docs/FORMAT.md); 21 fewer records than places (first value the number of places).
 */
size_t mojette_read(const uint8_t *text, size_t text_length, mojette_sizes *sizes, mojette_record *records, size_t records_length,
                    mojette_refusal *refusal);

/*
 * Reads a bracket file of sum words, and asks it for the sums of all its places: the run that mojette_rebuild takes.
 *
 *   text     the bytes of the file
 *   sums     where the sums go, place after place: a word for each of the T bins of all places, 0 in those of a lost place
 *
 * Answers T, and has written as many sums; the further cells are as they were.
 * Refuses, and writes no sum: 20 a text that is no such file, as above; 5 fewer than T cells (first value 3).
 */
size_t mojette_ask(const uint8_t *text, size_t text_length, mojette_word *sums, size_t sums_length, mojette_refusal *refusal);

#ifdef __cplusplus
}
#endif

#endif
