/* Reads a capture of a scan's response bytes, makes one record of each turn, and writes the ring image that keeps the last of them.
 *
 *     record CAPTURE IMAGE
 *
 * Prints how many turns were kept. */
#include "bernkessel.h"

#include <stdio.h>

static uint8_t ring[BK_RING_BYTES];
static uint16_t filling[BK_CELLS], closed[BK_CELLS];
static const uint8_t serial[BK_SERIAL_BYTES] = {0};

/* Adds the turn in `closed` to the ring, as turn number `number`. */
static uint8_t keep(uint32_t number, uint16_t count)
{
    uint8_t rec[BK_RECORD_BYTES];
    bk_written written = bk_record_write(number, count, serial, closed, rec, sizeof rec);
    return written.refusal != BK_NONE ? written.refusal : bk_ring_add(ring, sizeof ring, rec, sizeof rec);
}

/* Gathers a row of words; each turn that closes is kept. */
static uint8_t gather(bk_gatherer *gatherer, const uint16_t *words, size_t n, uint32_t *kept)
{
    size_t at = 0;
    while (at < n) {
        bk_row_gathered row = bk_gatherer_row(*gatherer, words + at, n - at, filling, closed);
        uint8_t refusal = row.gathered.refusal;
        if (refusal == BK_NONE && row.gathered.turn > 0)
            refusal = keep(++*kept, row.gathered.turn);
        if (refusal != BK_NONE)
            return refusal;
        *gatherer = row.gathered.gatherer;
        at += row.words;
    }
    return BK_NONE;
}

/* Reads a capture to its end, piece by piece, as the answer to SCAN. */
static uint8_t record(FILE *capture, uint32_t *kept)
{
    uint8_t input[4096];
    uint16_t words[BK_SAMPLE_WORDS * 256];
    bk_gatherer gatherer = bk_gatherer_new();
    bk_told told = bk_reader_tell(bk_reader_new(), BK_SCAN);
    bk_reader reader = told.reader;
    size_t n;
    while ((n = fread(input, 1, sizeof input, capture)) > 0) {
        size_t at = 0;
        while (at < n) {
            bk_reading reading = bk_reader_read(reader, input + at, n - at, words, sizeof words / sizeof *words);
            uint8_t refusal = gather(&gatherer, words, reading.words, kept);
            if (refusal != BK_NONE)
                return refusal;
            reader = reading.reader;
            at += reading.taken;
        }
    }
    return told.refusal;
}

int main(int argc, char **argv)
{
    FILE *capture, *image;
    uint32_t kept = 0;
    uint8_t refusal;
    if (argc != 3) {
        fprintf(stderr, "usage: record CAPTURE IMAGE\n");
        return 2;
    }
    capture = fopen(argv[1], "rb");
    if (capture == NULL) {
        fprintf(stderr, "record: cannot read %s\n", argv[1]);
        return 2;
    }
    refusal = record(capture, &kept);
    if (ferror(capture)) {
        fprintf(stderr, "record: cannot read %s\n", argv[1]);
        return 2;
    }
    fclose(capture);
    if (refusal != BK_NONE) {
        fprintf(stderr, "record: refused %d\n", refusal);
        return 1;
    }
    image = fopen(argv[2], "wb");
    if (image == NULL || fwrite(ring, 1, sizeof ring, image) != sizeof ring || fclose(image) != 0) {
        fprintf(stderr, "record: cannot write %s\n", argv[2]);
        return 2;
    }
    printf("kept %u\n", (unsigned)kept);
    return 0;
}
