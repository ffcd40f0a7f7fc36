/*
 * Writes a block of four named reads, judges it, finds its DNA section and reads it back.
 *
 * Exit status: 0 if the reads and names come back as they were, 1 otherwise.
 */
#include <inttypes.h>
#include <stdio.h>
#include <string.h>

#include "ora.h"

/* ACGTACGTTGCA, four bases a byte. */
enum { BASES = 12, READS = 4, LETTERS = 20, NAMES = 35 };
static const uint8_t reference[3] = {0x1B, 0x1B, 0xE4};

/*
 * ACTT at 0 with a difference; CAAC at 6 on the reverse strand; TACGA at 0 but for a letter at
 * either end; GATTACA without a place.
 */
static const uint8_t letters[LETTERS + 1] = "ACTTCAACTACGAGATTACA";
static const uint32_t ends[READS] = {4, 8, 13, 20};
static const uint8_t names[NAMES + 1] = "run7:1:96run7:1:105run7:2:8run7:2:9";
static const uint32_t name_ends[READS] = {9, 19, 27, 35};
static const uint32_t positions[READS] = {0, 6, 0, 0};
static const uint8_t strands[READS] = {1, 2, 1, 0};
static const uint8_t lefts[READS] = {0, 0, 1, 0};
static const uint8_t rights[READS] = {0, 0, 1, 0};

static void print_names(const uint8_t *from, const uint32_t *from_ends, uint64_t count) {
    uint32_t start = 0;
    printf("names:");
    for (uint64_t read = 0; read < count; read++) {
        printf(" %.*s", (int)(from_ends[read] - start), (const char *)from + start);
        start = from_ends[read];
    }
    printf("\n");
}

int main(void) {
    uint64_t answer[ORA_ANSWER_SLOTS];
    uint8_t block[3440 + LETTERS / 2 + 256 * READS + 4 * NAMES];

    if (ora_encode(BASES, reference, sizeof reference, letters, LETTERS, ends, READS, names, NAMES,
                   name_ends, READS, positions, READS, strands, READS, lefts, READS, rights, READS,
                   7, 0, block, sizeof block, answer) != ORA_ACCEPTED) {
        return 1;
    }
    size_t length = (size_t)answer[ORA_BLOCK_LENGTH];
    printf("written: %zu bytes, b_id %" PRIu64 "\n", length, ora_block_id(block, length));

    ora_section(block, length, ORA_SECTION_DNA, answer);
    printf("DNA section:");
    for (uint64_t i = 0; i < answer[ORA_LENGTH]; i++) {
        printf(" %02X", block[answer[ORA_OFFSET] + i]);
    }

    uint64_t number = ora_validate(BASES, reference, sizeof reference, block, length, answer);
    printf("\njudged as a file: %" PRIu64 ", %" PRIu64 " block\n", number, answer[ORA_BLOCKS]);
    number = ora_validate_block(BASES, reference, sizeof reference, block, length - 1, answer);
    printf("judged without its last byte: %" PRIu64 "\n", number);

    uint8_t read_letters[LETTERS];
    uint32_t read_ends[READS];
    uint8_t read_names[NAMES];
    uint32_t read_name_ends[READS];
    number = ora_decode(BASES, reference, sizeof reference, block, length, read_letters, LETTERS,
                        read_ends, READS, read_names, NAMES, read_name_ends, READS, answer);
    printf("read: %" PRIu64 ", %" PRIu64 " reads, %" PRIu64 " letters, %" PRIu64 " entries, ",
           number, answer[ORA_READS], answer[ORA_LETTERS], answer[ORA_ENTRIES]);
    printf("%" PRIu64 " difference, top %" PRIu64 "\n", answer[ORA_DIFFERENCES], answer[ORA_TOP]);
    if (number != ORA_ACCEPTED || (block[ORA_FLAGS_OFFSET] & ORA_FLAG_NAMES) == 0) {
        return 1;
    }
    print_names(read_names, read_name_ends, answer[ORA_READS]);
    int same = memcmp(read_letters, letters, LETTERS) == 0
               && memcmp(read_ends, ends, sizeof ends) == 0
               && memcmp(read_names, names, NAMES) == 0
               && memcmp(read_name_ends, name_ends, sizeof name_ends) == 0;
    printf("the reads and names are %s\n", same ? "the same" : "others");
    return same ? 0 : 1;
}
