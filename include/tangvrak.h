/* Tangvrak: the exported form of the archive, for the C head-end.
 *
 * Control record, arena and client table lie in one buffer of TANGVRAK_BUFFER bytes that the caller owns; docs/LAYOUT.md says what
 * each byte means. Numbers are lowest byte first. Every call returns answer × 2^32 + value; a call that is refused (an answer below
 * 20) writes no byte. No call keeps a pointer, allocates, or blocks. Calls on one buffer come one after another, and the buffer, the
 * steps and the slots of a run lie apart from each other. On x86-64 a run was seen to take 156 KB of stack, the other calls at most 41 KB.
 */
#ifndef TANGVRAK_H
#define TANGVRAK_H

#include <stddef.h>
#include <stdint.h>

#ifdef __cplusplus
extern "C" {
#endif

/* Sizes in bytes. */
#define TANGVRAK_BUFFER 33820u
#define TANGVRAK_STEP 20u
#define TANGVRAK_SLOT 8u
#define TANGVRAK_MOST_STEPS 4096u

/* The two halves of what a call returns. */
#define TANGVRAK_ANSWER(result) ((uint32_t)((result) >> 32))
#define TANGVRAK_VALUE(result) ((uint32_t)((result) & 0xffffffffu))

/* Zeroes the arena, empties directory, map and counts, and leaves eight unattached rows. 30, or 1 for a buffer of another size. */
uint64_t tangvrak_fresh(uint8_t *buffer, size_t size);

/* One step: who 0 is the keeper, 1 to 8 the clients. Its answer and value; 1 for a buffer of another size, 2 for a buffer that breaks a
 * rule of a sound state. */
uint64_t tangvrak_step(uint8_t *buffer, size_t size, uint32_t who, uint32_t code, uint32_t a, uint32_t b, uint32_t v);

/* Up to 4,096 steps of 20 bytes each (who, code, a, b, v), with an answer slot of 8 bytes for each (answer, value). 30 when they were
 * done, each answered in its slot; 1 for any other sizes, 2 for a buffer that breaks a rule: then no slot is written. */
uint64_t tangvrak_run(uint8_t *buffer, size_t size, const uint8_t *steps, size_t steps_size, uint8_t *slots, size_t slots_size);

/* 30 with the number of used cells; 1 or 2 as above. */
uint64_t tangvrak_fill(const uint8_t *buffer, size_t size);

/* 30 with 0, or with the number of the first broken rule; 1 for a buffer of another size. */
uint64_t tangvrak_audit(const uint8_t *buffer, size_t size);

#ifdef __cplusplus
}
#endif

#endif
