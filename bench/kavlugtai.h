/* The judge of shared-memory traces, for C.
 *
 * Link libjudge_c.a, which `rt lib` in crates/judge_c writes to crates/judge_c/out/.
 * It calls nothing but memcpy and memset, keeps nothing between calls, and
 * allocates nothing, so any number of threads may call it at once. A call
 * takes about 90 KiB of stack.
 */
#ifndef KAVLUGTAI_H
#define KAVLUGTAI_H

#include <stdbool.h>
#include <stddef.h>
#include <stdint.h>

#ifdef __cplusplus
extern "C" {
#endif

/* How many numbers an answer has. */
#define KAVLUGTAI_ENTRIES 4

/* The first number of an answer says what kind it is; the others follow in the
 * order given here, and those that a kind does not use are 0. */
enum {
    /* Every record is lawful and the file ends clean: how many records. */
    KAVLUGTAI_COMPLIANT = 0,
    /* The first record that is not lawful: its thread, its index among the
     * records of that thread from 0, and the reason (docs/RULES.md). */
    KAVLUGTAI_UNLAWFUL = 1,
    /* Every record is lawful and the file ends damaged: the cause
     * (docs/FORMATS.md), how many records stand before the damage, and how
     * many relays it came through, which is 0 for a file. */
    KAVLUGTAI_DAMAGED = 2,
    /* The bytes are no trace file: the refusal (docs/REFUSALS.md). */
    KAVLUGTAI_REFUSED = 3
};

/* Judges `length` bytes as a trace file and puts the answer into the first
 * four of the `entries` numbers at `answer`. Returns whether there was room:
 * with fewer than four entries nothing is written.
 *
 * Any bytes may be handed in. What the caller owes: neither pointer is null,
 * also where its length is 0; the bytes and the numbers are there to be read
 * and written for the call; the two do not overlap; `answer` is aligned as a
 * uint64_t is. */
bool kavlugtai_judge(const uint8_t *bytes, size_t length, uint64_t *answer, size_t entries);

#ifdef __cplusplus
}
#endif

#endif
