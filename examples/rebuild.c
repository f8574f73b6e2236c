/*
 * The worked tile, 1 2 over 3 4, by way of the calls of mojette.h: its bracket file is read and asked, its picture is rebuilt, and projected along the
 * direction that was lost; and three calls are refused. tools/c_example builds and runs this program, and compares what it prints.
 */
#include "mojette.h"

#include <stdio.h>
#include <string.h>

/* A tile of two columns and two rows has four pixels; the three directions of the file have 3, 2 and 3 bins. */
enum { COLUMNS = 2, ROWS = 2, PIXELS = 4, PLACES = 3, BINS = 8 };

static const char FILE_TEXT[] =
    "(tile sum 2 2)\n"
    "(dir 1 1 (bins 0002 0005 0003))\n"
    "(dir 0 1 (lost 4))\n"
    "(dir -1 1 (bins 0004 0005 0001))\n"
    "(end)\n";

/* The tables that a rebuild is lent. */
struct tables {
    mojette_word picture[PIXELS];
    uint8_t marks[PIXELS];
    mojette_word sums[BINS];
    uint8_t counts[BINS];
    uint16_t queue[BINS];
};

static void print_words(const char *name, const mojette_word *words, size_t length) {
    printf("%s", name);
    for (size_t i = 0; i < length; i++) {
        printf(" %u", (unsigned)words[i].value);
    }
    printf("\n");
}

/* Whether a call was served, or how it was refused. */
static void print_answer(const char *name, mojette_refusal refusal) {
    if (refusal.number == 0) {
        printf("%s served\n", name);
    } else {
        printf("%s refused %zu %zu %zu %zu\n", name, refusal.number, refusal.first, refusal.second, refusal.third);
    }
}

/* Rebuilds the tile of these places and this run with so many cells of queue. */
static mojette_refusal rebuild(const mojette_record *records, size_t places, const mojette_word *run, size_t queue_length, struct tables *lent) {
    mojette_refusal refusal;
    mojette_rebuild(COLUMNS, ROWS, records, places, run, BINS, lent->picture, PIXELS, lent->marks, PIXELS, lent->sums, BINS, lent->counts, BINS,
                    lent->queue, queue_length, &refusal);
    return refusal;
}

/* The file's places and its run; what is refused ends the program. */
static int read_file(mojette_record records[PLACES], mojette_word run[BINS]) {
    const uint8_t *text = (const uint8_t *)FILE_TEXT;
    mojette_sizes sizes;
    mojette_refusal refusal;
    mojette_read(text, strlen(FILE_TEXT), &sizes, records, PLACES, &refusal);
    if (refusal.number != 0) {
        print_answer("read", refusal);
        return 0;
    }
    printf("file %zu %zu %zu\n", sizes.columns, sizes.rows, sizes.places);
    size_t bins = mojette_ask(text, strlen(FILE_TEXT), run, BINS, &refusal);
    if (refusal.number != 0) {
        print_answer("ask", refusal);
        return 0;
    }
    print_words("run", run, bins);
    return 1;
}

int main(void) {
    mojette_record records[PLACES];
    mojette_word run[BINS];
    struct tables lent;
    memset(&lent, 7, sizeof lent);
    if (!read_file(records, run)) {
        return 1;
    }

    print_answer("short queue", rebuild(records, PLACES, run, BINS - 1, &lent));
    print_words("picture", lent.picture, PIXELS);

    print_answer("rebuild", rebuild(records, PLACES, run, BINS, &lent));
    print_words("picture", lent.picture, PIXELS);

    mojette_word sums[3] = {{9}, {9}, {9}};
    mojette_refusal refusal;
    size_t bins = mojette_project(COLUMNS, ROWS, 0, 1, lent.picture, PIXELS, sums, 3, &refusal);
    printf("bins %zu\n", bins);
    print_words("sums", sums, 3);

    run[0].value = 3;
    print_answer("another sum", rebuild(records, PLACES, run, BINS, &lent));

    records[0].cause = 1;
    print_answer("one place", rebuild(records, PLACES, run, BINS, &lent));
    print_words("ghost", lent.picture, PIXELS);
    return 0;
}
