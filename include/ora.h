/*
 * ora.h: reads and writes opened ORA blocks, as docs/FORMAT.md describes them.
 *
 * The library, target/staticlib/libcapi.a, is for x86-64.
 *
 * Every function is safe for any bytes and any lengths, always ends, keeps nothing from one call to
 * the next, and may be called from several threads at once.
 *
 * Buffers. The caller owns every buffer and lends it for the time of the call. Each is a pointer
 * and a length, counted in elements.
 *   - A pointer is never null and is aligned for its element, also where the length is 0: any such
 *     pointer may then be passed, as nothing is read or written through it.
 *   - A buffer that is written to (letters, ends, names, name_ends, out, answer) must not overlap
 *     any other. Those that are only read (const) may share memory.
 *   - A buffer may be longer than need be: what lies past the result keeps what it held.
 *   - After a refusal letters, ends, names, name_ends and out hold what they held before. Only
 *     answer is written.
 *
 * The reference is `bases` bases, 0 to 4,294,967,295, in exactly (bases + 3) / 4 bytes: four bases
 * a byte, the first in the highest bits; A, C, G, T are 0, 1, 2, 3. Bits past the last base are
 * ignored.
 *
 * Answers. Every function but ora_block_length and ora_block_id fills all sixteen slots of `answer`
 * and returns slot 0, which is 0 where the call accepts and the number of a refusal otherwise. In a
 * refusal the slots from 3 on are 0.
 *
 *   slot  ora_decode,          ora_validate        ora_encode          ora_section
 *         ora_validate_block
 *   0     refusal or 0         refusal or 0        refusal or 0        0
 *   1     0                    index of the block  0                   0
 *   2     index of the read    index of the read   0                   0
 *   3     bytes of the block   number of blocks    bytes of the block  offset of the section
 *   4     reads                reads               0                   bytes of the section
 *   5     letters              letters             0                   0
 *   6     entries              entries             0                   0
 *   7     differences          differences         0                   0
 *   8     top                  top                 0                   0
 *   9-15  0                    0                   0                   0
 *
 * Top is the number of reads whose record has exactly 31 entries, the most that a record can have;
 * fillers and entries under an N are entries too. A read that would take more at its place is
 * stored without one, has no entries and is not counted.
 *
 * The indices count from 0 and are 0 where the call accepts. The read index is that of the read
 * whose record is refused, counted inside its block; that of a group's first read where the group's
 * four bytes are refused; and 0 with every other refusal. The counts of ora_validate are sums over
 * the blocks, modulo 2^64.
 */
#ifndef ORA_H
#define ORA_H

#include <stddef.h>
#include <stdint.h>

/* Raised whenever a function of this file changes, in its arguments or in its answers. */
#define ORA_INTERFACE_VERSION 4

#define ORA_ANSWER_SLOTS 16

/* The byte of a block that holds its lowest eight flags, and the flag of names that are read. */
#define ORA_FLAGS_OFFSET 42
#define ORA_FLAG_NAMES 0x8

#ifdef __cplusplus
extern "C" {
#endif

/* The slots of an answer. */
enum ora_slot {
    ORA_REFUSAL = 0,
    ORA_BLOCK_INDEX = 1,
    ORA_READ_INDEX = 2,
    ORA_BLOCK_LENGTH = 3, /* ora_decode, ora_validate_block, ora_encode */
    ORA_BLOCKS = 3,       /* ora_validate */
    ORA_OFFSET = 3,       /* ora_section */
    ORA_READS = 4,
    ORA_LENGTH = 4, /* ora_section */
    ORA_LETTERS = 5,
    ORA_ENTRIES = 6,
    ORA_DIFFERENCES = 7,
    ORA_TOP = 8
};

/* The sections of a block, in the order in which they follow the header. */
enum ora_section_number {
    ORA_SECTION_DNA = 0,
    ORA_SECTION_NAMES = 1,
    ORA_SECTION_QUAL_N = 2,
    ORA_SECTION_QUAL = 3,
    ORA_SECTION_SIZE = 4,
    ORA_SECTION_N = 5,
    ORA_SECTION_M1 = 6,
    ORA_SECTION_M2 = 7,
    ORA_SECTION_M3 = 8
};

/* The refusals. Of several that apply the first in the order of docs/FORMAT.md is given. */
enum ora_refusal {
    /* The call accepts. */
    ORA_ACCEPTED = 0,

    /* Every call with a reference: 1. */

    /* The reference has the wrong number of bytes, or too many bases. */
    ORA_REFERENCE_SIZE_WRONG = 1,

    /* Reading, the header: 2 to 8. */

    /* The input has fewer than 121 bytes. */
    ORA_HEADER_TRUNCATED = 2,
    /* The first two bytes are not 49 7C. */
    ORA_MAGIC_WRONG = 3,
    /* The version is not 20505 to 29999. */
    ORA_VERSION_UNSUPPORTED = 4,
    /* l_header is below 121; so is every negative one. */
    ORA_HEADER_LENGTH_TOO_SMALL = 5,
    /* Flag 0x40 or flag 0x80 is set. */
    ORA_FLAG_UNSUPPORTED = 6,
    /* n_reads is negative or above 50,000. */
    ORA_READ_COUNT_OUT_OF_RANGE = 7,
    /* Header and sections are longer than the input. */
    ORA_SECTIONS_TRUNCATED = 8,

    /* Reading, the lengths and the N section: 9 to 11. */

    /* Header and size section give no list of lengths, each of 1 to 100,000 letters. */
    ORA_LENGTHS_INVALID = 9,
    /* The raw DNA size is not the sum of the lengths. */
    ORA_DNA_SIZE_WRONG = 10,
    /* The N section has not one bit a read, or its byte is not the with-N byte of its group. */
    ORA_N_SECTION_WRONG = 11,

    /* Reading, the DNA section, group by group and read by read: 12 to 21, and 11. */

    /* The DNA section ends too soon. */
    ORA_DNA_TRUNCATED = 12,
    /* A bit past a group's last read is set, or Forward or pos_t of a raw or raw4 record. */
    ORA_FLAG_BIT_STRAY = 13,
    /* A flag byte is that of no kind, or its count is not one that the kind can have. */
    ORA_RECORD_FLAG_INVALID = 14,
    /* The stretch of an aligned read does not lie inside the reference. */
    ORA_SPAN_OUTSIDE_REFERENCE = 15,
    /* left + right of a local record is 0, or not below the read's length. */
    ORA_CLIPS_INVALID = 16,
    /* An entry after the first has the offset 0, or an entry lands outside the aligned part. */
    ORA_ENTRY_OFFSET_INVALID = 17,
    /* A letter of a raw4 record is above 4. */
    ORA_BASE_CODE_INVALID = 18,
    /* A bit after packed letters is not 0. */
    ORA_PADDING_NONZERO = 19,
    /* An N list breaks its rules, or raw4's with-N bit does not say whether it holds an N. */
    ORA_N_POSITIONS_INVALID = 20,
    /* Bytes of the DNA section are left after the last record. */
    ORA_DNA_TRAILING = 21,

    /* ora_decode alone: 22. */

    /* letters, ends, names or name_ends is too short for the block. */
    ORA_CAPACITY_TOO_SMALL = 22,

    /* ora_encode alone: 30 to 34. */

    /* There are more than 50,000 reads. */
    ORA_READ_COUNT_TOO_LARGE = 30,
    /* positions, strands, lefts and rights do not all have one element for each read. */
    ORA_CANDIDATE_COUNT_WRONG = 31,
    /* The ends do not rise from 0 by 1 to 100,000, or the last is not the number of letters. */
    ORA_READ_ENDS_INVALID = 32,
    /* A letter is not A, C, G, T or N. */
    ORA_LETTER_INVALID = 33,
    /* The block is longer than out. */
    ORA_BLOCK_CAPACITY_TOO_SMALL = 34,

    /* Reading, the names: 40, which comes after 21 and before 22. */

    /* The names section stores no list of names, each of 1 to 255 printable ASCII bytes. */
    ORA_NAMES_INVALID = 40,

    /* ora_encode, the names: 41, which comes after 33 and before 34. */

    /* The names are not one a read, each of 1 to 255 printable bytes, all of one token count. */
    ORA_LENT_NAMES_INVALID = 41
};

/*
 * Reads the block at the start of input: its letters go into `letters`, one read after the other,
 * in ASCII capitals, and for each read the number of letters up to its end goes into `ends`. What
 * follows the block is not looked at. A block needs as many letters and ends as ora_validate_block
 * counts letters and reads.
 *
 * Names are read where the block stores them, and that is where flag 0x8 of its header is set:
 * input[ORA_FLAGS_OFFSET] & ORA_FLAG_NAMES. The answer does not tell. They go into `names`, one
 * after the other, and for each read the number of name bytes up to its name's end goes into
 * `name_ends`. So there are as many names as reads, and the last name end is the number of name
 * bytes, which is at most 255 a read. Without the flag both buffers keep what they held, and need
 * no room.
 *
 * Refusals 1 to 21, 40, 22, in this order. Answer: length of the block in bytes, reads, letters,
 * entries, differences, top.
 */
uint64_t ora_decode(uint64_t bases, const uint8_t *reference, size_t reference_len,
                    const uint8_t *input, size_t input_len,
                    uint8_t *letters, size_t letters_len,
                    uint32_t *ends, size_t ends_len,
                    uint8_t *names, size_t names_len,
                    uint32_t *name_ends, size_t name_ends_len,
                    uint64_t answer[ORA_ANSWER_SLOTS]);

/*
 * Judges the block at the start of input, its names too where it stores them, without giving its
 * letters and names. What follows the block is not looked at.
 *
 * Refusals 1 to 21, and then 40. Answer: as ora_decode gives it.
 */
uint64_t ora_validate_block(uint64_t bases, const uint8_t *reference, size_t reference_len,
                            const uint8_t *input, size_t input_len,
                            uint64_t answer[ORA_ANSWER_SLOTS]);

/*
 * Judges a file, block after block, up to the first refusal or the last byte. The empty file is
 * accepted, unless the reference is refused: so a call with an empty file judges the reference
 * alone.
 *
 * Refusals 1 to 21 and 40, with the index of the refused block. Answer: number of blocks, and the
 * sums of reads, letters, entries, differences and top.
 */
uint64_t ora_validate(uint64_t bases, const uint8_t *reference, size_t reference_len,
                      const uint8_t *file, size_t file_len,
                      uint64_t answer[ORA_ANSWER_SLOTS]);

/*
 * Writes the one block that the fixed rule (docs/FORMAT.md, Canonical encoding) makes of these
 * reads to the start of `out`.
 *
 * `letters` and `ends` are the reads, as ora_decode gives them; ends_len is their number. `names`
 * and `name_ends` are their names, one a read, of 1 to 255 bytes of 32 to 126 each. A name is cut
 * into tokens where digits meet other bytes, and all names have the same number of tokens. The
 * other four have one element for each read, the place that an aligner proposes for it: `positions`
 * the lowest reference index of the aligned letters, `strands` 1 for forward, 2 for reverse and any
 * other number for no place, `lefts` and `rights` how many letters stand before and after the
 * aligned ones. The lowest index is meant on both strands, with such letters and without; for a
 * reverse read with them the block stores the highest. No proposal is refused: where it cannot be
 * used, the read is written without a place. The block reads back as these letters, ends, names and
 * name ends, whatever the proposals; its flag 0x8 is set.
 *
 * A block takes at most 3440 + letters_len / 2 + 256 * ends_len + 4 * names_len bytes; this one
 * sentence is held by tests and not by proof.
 *
 * Refusals 1, 30 to 33, 41, 34, in this order. Answer: length of the block in bytes.
 */
uint64_t ora_encode(uint64_t bases, const uint8_t *reference, size_t reference_len,
                    const uint8_t *letters, size_t letters_len,
                    const uint32_t *ends, size_t ends_len,
                    const uint8_t *names, size_t names_len,
                    const uint32_t *name_ends, size_t name_ends_len,
                    const uint32_t *positions, size_t positions_len,
                    const uint8_t *strands, size_t strands_len,
                    const uint8_t *lefts, size_t lefts_len,
                    const uint8_t *rights, size_t rights_len,
                    uint64_t b_id, uint64_t c_time,
                    uint8_t *out, size_t out_len,
                    uint64_t answer[ORA_ANSWER_SLOTS]);

/*
 * Tells where a section of the block at the start of input stands, as its header says: `number` is
 * one of enum ora_section_number. Offset and length are both 0 where the section is empty, the
 * number is above 8, or the header is refused with one of 2 to 8. No other refusal plays a part.
 *
 * Refuses nothing and returns 0. Answer: offset and length in bytes.
 */
uint64_t ora_section(const uint8_t *input, size_t input_len, uint64_t number,
                     uint64_t answer[ORA_ANSWER_SLOTS]);

/*
 * The length in bytes of the block at the start of input, as its header says; 0 where the header is
 * refused with one of 2 to 8. No other refusal plays a part: with it a file is cut into its blocks
 * before they are judged.
 */
uint64_t ora_block_length(const uint8_t *input, size_t input_len);

/* The b_id of the block at the start of input; 0 where its header is refused with one of 2 to 8. */
uint64_t ora_block_id(const uint8_t *input, size_t input_len);

#ifdef __cplusplus
}
#endif

#endif
