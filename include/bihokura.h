/* Bihokura: a proved register of containers and network policies.
 *
 * Every function takes the memory as a pointer and its number of 64-bit words, a block or a buffer of blocks as a pointer and its
 * length in bytes, a list as a pointer and how many numbers it has room for, and answers one number. Its top byte is the refusal's
 * number of document 01 or, from 13 on, of 02, 0 where the call was accepted; below the top byte stands what the call answers. A
 * refused call answers its number alone; a refused bihokura_open, bihokura_admit or bihokura_admit_batch also has the position at
 * fault, in the low 16 bits. A refused call leaves everything lent as it was. No function keeps a pointer. Memory of any size and
 * any contents may be handed over, and blocks, buffers and lists of any length; a pointer has to be valid for its length, and what
 * one call is lent may not overlap. Nothing is allocated; a call takes less than 80 KiB of stack (docs/LINKING.md).
 *
 * The position is the byte of the block at which what is at fault begins: with 4 it is 510; with 6 the first field at fault, a
 * count or the direction; with 7 the first key or value out of range, where a system value that does not go with the system key
 * counts as one, at 4; with 8 the first key that does not exceed the one before it; with 9 the lowest unused byte that is not
 * zero; with any other number it is 0.
 */
#ifndef BIHOKURA_H
#define BIHOKURA_H

#include <stddef.h>
#include <stdint.h>

#ifdef __cplusplus
extern "C" {
#endif

/* The number of words that the memory has to have. */
uint64_t bihokura_words(void);

/* Begins an empty registry under the settings of a block, whatever the memory held. Answers 0, or the refusal and the position. */
uint64_t bihokura_open(uint64_t *memory, size_t words, const uint8_t *block, size_t length);

/* Admits the container or the policy of a block, and answers the slot that it took: of the table that byte 0 of the block names, 67
 * for containers and 80 for policies. The answer itself does not say which. Refused, it answers the refusal and the position. */
uint64_t bihokura_admit(uint64_t *memory, size_t words, const uint8_t *block, size_t length);

/* How many blocks were taken, and how many refused. */
struct bihokura_tally {
    uint64_t taken, refused;
};

/* Admits up to 128 blocks, one after another in one pass: registry and answers are those of bihokura_admit for each. For each block
 * it puts two numbers into the list: 0 and the slot, or the refusal and the position. The rest of the list is kept. The tally goes
 * up by the blocks taken and by those refused; a count that has reached 2^64 - 1 stays there. Answers 0, also for no blocks at all
 * and for refused ones. A length over 65,536 or not a multiple of 512 is refused with 14, then a list of fewer than two numbers for
 * each block with 13; their position is 0. */
uint64_t bihokura_admit_batch(uint64_t *memory, size_t words, const uint8_t *blocks, size_t length, uint16_t *answers, size_t numbers,
                              struct bihokura_tally *tally);

/* Removes the entry of a slot. Answers 0. */
uint64_t bihokura_remove_container(uint64_t *memory, size_t words, uint64_t slot);
uint64_t bihokura_remove_policy(uint64_t *memory, size_t words, uint64_t slot);

/* Whether container a reaches container b, by the stored matrix: 1 or 0. */
uint64_t bihokura_reaches(const uint64_t *memory, size_t words, uint64_t a, uint64_t b);

/* Whether a container carries a value under the user key: 1 or 0. */
uint64_t bihokura_carries_user(const uint64_t *memory, size_t words, uint64_t slot, uint64_t value);

/* The first finding after any three numbers, as kind * 2^32 + a * 2^16 + b; 0 if there is none. A walk begins at 0, 0, 0. */
uint64_t bihokura_next_finding(const uint64_t *memory, size_t words, uint16_t kind, uint16_t a, uint16_t b);

/* Puts the findings after any three numbers into the list, each as bihokura_next_finding codes it, as many as it has room for, and
 * answers how many. The rest of the list is kept. Fewer than `numbers` means that no more come; else the next call begins at the
 * last one put. */
uint64_t bihokura_findings(const uint64_t *memory, size_t words, uint16_t kind, uint16_t a, uint16_t b, uint64_t *list, size_t numbers);

/* Standing containers + standing policies * 2^16 + PAIRS * 2^32. */
uint64_t bihokura_counts(const uint64_t *memory, size_t words);

/* Sets every stored bit by the rules. Answers 0. */
uint64_t bihokura_rebuild(uint64_t *memory, size_t words);

/* Whether every stored bit equals the rules: 1 or 0. */
uint64_t bihokura_audit(const uint64_t *memory, size_t words);

/* Writes the registry into the buffer, in blocks of 512 bytes: the settings, then each standing container by slot, then each
 * standing policy by slot. Answers how many bytes it used; the rest of the buffer is kept. A buffer of fewer bytes is refused with
 * 13. Opened with the first block, the others admitted, a memory holds the same entries in the same order, slots closed up. */
uint64_t bihokura_write(const uint64_t *memory, size_t words, uint8_t *bytes, size_t length);

#ifdef __cplusplus
}
#endif

/* The refusal's number of an answer, 0 where the call was accepted; what an accepted call answered; and, where open, admit or
 * admit_batch was refused, the position at fault. */
#define BIHOKURA_REFUSAL(answer) ((unsigned)((answer) >> 56))
#define BIHOKURA_VALUE(answer) ((answer) & 0x00ffffffffffffffu)
#define BIHOKURA_POSITION(answer) ((unsigned)((answer) & 0xffffu))

#endif
