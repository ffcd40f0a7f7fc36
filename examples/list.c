/*
 * Lists the reads of a file of blocks:
 *
 *   list REFERENCE_FILE BLOCKS_FILE
 *
 * The reference file is the number of bases in 8 bytes, the lowest first, and then the reference.
 * Each block gives a line with its b_id and counts, and a line for each read; the last line is
 * `end blocks N`, or `refused NUMBER BLOCK READ`. Names are read and not printed. A reference file
 * or a block has at most 32 KiB.
 *
 * Exit status: 0 if all blocks are listed, 1 after a refusal, 2 if a file cannot be read.
 */
#include <inttypes.h>
#include <stdio.h>
#include <string.h>

#include "ora.h"

enum { WINDOW = 32768, LETTERS = 32768, ENDS = 4096, NAMES = 32768, NAME_ENDS = 4096 };

/* One byte more than is allowed, so that a longer reference file is told from a full one. */
static uint8_t reference[WINDOW + 1];
static uint8_t window[WINDOW];
static uint8_t letters[LETTERS];
static uint32_t ends[ENDS];
static uint8_t names[NAMES];
static uint32_t name_ends[NAME_ENDS];

static int refused(uint64_t number, uint64_t block, uint64_t read) {
    printf("refused %" PRIu64 " %" PRIu64 " %" PRIu64 "\n", number, block, read);
    return 1;
}

static void print_block(uint64_t id, const uint64_t answer[ORA_ANSWER_SLOTS]) {
    printf("block %" PRIu64 " reads %" PRIu64 " letters %" PRIu64, id, answer[ORA_READS],
           answer[ORA_LETTERS]);
    printf(" entries %" PRIu64 " differences %" PRIu64 " top %" PRIu64 "\n", answer[ORA_ENTRIES],
           answer[ORA_DIFFERENCES], answer[ORA_TOP]);
    uint32_t start = 0;
    for (uint64_t read = 0; read < answer[ORA_READS]; read++) {
        printf("%.*s\n", (int)(ends[read] - start), (const char *)letters + start);
        start = ends[read];
    }
}

/* Lists block after block out of a window that is filled up before each. */
static int list(uint64_t bases, size_t reference_len, FILE *blocks) {
    uint64_t answer[ORA_ANSWER_SLOTS];
    uint64_t block = 0;
    size_t used = 0;
    if (ora_validate(bases, reference + 8, reference_len, window, 0, answer) != 0) {
        return refused(answer[ORA_REFUSAL], 0, 0);
    }
    for (;;) {
        used += fread(window + used, 1, WINDOW - used, blocks);
        if (ferror(blocks)) {
            return 2;
        }
        if (used == 0) {
            printf("end blocks %" PRIu64 "\n", block);
            return 0;
        }
        if (ora_decode(bases, reference + 8, reference_len, window, used, letters, LETTERS, ends,
                       ENDS, names, NAMES, name_ends, NAME_ENDS, answer) != 0) {
            return refused(answer[ORA_REFUSAL], block, answer[ORA_READ_INDEX]);
        }
        print_block(ora_block_id(window, used), answer);
        used -= (size_t)answer[ORA_BLOCK_LENGTH];
        memmove(window, window + answer[ORA_BLOCK_LENGTH], used);
        block++;
    }
}

int main(int count, char **arguments) {
    FILE *first = count == 3 ? fopen(arguments[1], "rb") : NULL;
    FILE *second = count == 3 ? fopen(arguments[2], "rb") : NULL;
    if (first == NULL || second == NULL) {
        fputs(count == 3 ? "list: a file cannot be opened\n"
                         : "usage: list REFERENCE_FILE BLOCKS_FILE\n",
              stderr);
        return 2;
    }
    size_t size = fread(reference, 1, sizeof reference, first);
    uint64_t bases = 0;
    for (int i = 7; i >= 0; i--) {
        bases = bases << 8 | reference[i];
    }
    int status = 2;
    if (!ferror(first)) {
        status = size < 8 || size > WINDOW ? refused(ORA_REFERENCE_SIZE_WRONG, 0, 0)
                                           : list(bases, size - 8, second);
    }
    if (ferror(first) || ferror(second) || fflush(stdout) != 0) {
        fputs("list: a file cannot be read, or the listing not written\n", stderr);
        status = 2;
    }
    fclose(first);
    fclose(second);
    return status;
}
