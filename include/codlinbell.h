/*
 * Codlinbell: loads a measurement script from a byte image, judges it and runs it, and is proved to do so exactly as its rules say.
 *
 * Link with libcodlinbell.a. The library keeps no state, allocates nothing, needs no initialisation, and uses at most 256 KiB of stack for
 * one answer. It never fails: every byte string has an answer, and every run ends.
 */
#ifndef CODLINBELL_H
#define CODLINBELL_H

#include <stdbool.h>
#include <stddef.h>
#include <stdint.h>

#ifdef __cplusplus
extern "C" {
#endif

/* How many numbers an answer takes in `out`. */
#define CODLINBELL_OUT 6

/* out[0]: whether the image was refused or run. */
#define CODLINBELL_REFUSED 0
#define CODLINBELL_RAN 1

/* out[1] of a refusal: the fault. out[2] is its place: a byte's offset in the image, or for the last two a node's number. */
#define CODLINBELL_FAULT_ENDS 1      /* the image ends inside a number or before the expression is complete: its length */
#define CODLINBELL_FAULT_UNFIT 2     /* a number is too large or not in its shortest form: its first byte */
#define CODLINBELL_FAULT_FORMAT 3    /* the first number isn't 1: byte 0 */
#define CODLINBELL_FAULT_LIMIT 4     /* a count, depth or size is outside the limits: that number, or 0 for the image's length */
#define CODLINBELL_FAULT_UNKNOWN 5   /* a mode, target kind, node code, type, struct or variable number is unknown: that number */
#define CODLINBELL_FAULT_REPEAT 6    /* a type entry repeats an earlier one, or a gap is 0: the entry or the gap */
#define CODLINBELL_FAULT_BEYOND 7    /* an address is above the heap: the gap */
#define CODLINBELL_FAULT_BEHIND 8    /* bytes follow the expression: the first of them */
#define CODLINBELL_FAULT_NO_RULE 9   /* no typing rule fits a node: the node's number */
#define CODLINBELL_FAULT_ILL_TYPED 10 /* a literal isn't well typed over the image's heap: the node's number */

/* out[1] of a run: how it ended. Only a value gives a reading. */
#define CODLINBELL_END_VALUE 0
#define CODLINBELL_END_NULL 1
#define CODLINBELL_END_BOUNDS 2
#define CODLINBELL_END_ROOM 3
#define CODLINBELL_END_STUCK 4
#define CODLINBELL_END_MORE 5   /* the limit's steps were taken */

/*
 * The type of a value, and of a word of the heap, is one number, its code: tag, number and count. Code 0 is an undefined word.
 */
#define CODLINBELL_TAG(code) ((code) % 8)
#define CODLINBELL_NUMBER(code) ((code) / 8 % 256)      /* the word type's or the struct's number */
#define CODLINBELL_COUNT(code) ((code) / 2048 % 65536)  /* an array's element count */

#define CODLINBELL_UNDEFINED 0
#define CODLINBELL_INT 1
#define CODLINBELL_CHECKED_WORD 2
#define CODLINBELL_UNCHECKED_WORD 3
#define CODLINBELL_CHECKED_STRUCT 4
#define CODLINBELL_UNCHECKED_STRUCT 5
#define CODLINBELL_CHECKED_ARRAY 6
#define CODLINBELL_UNCHECKED_ARRAY 7

/* The limit of steps where a caller has none of its own. */
#define CODLINBELL_DEFAULT_LIMIT 100000

/*
 * Answers an image over a lent heap.
 *
 * image, image_len   the bytes of the image, of any length.
 * heap, heap_len     the lent heap, two numbers a word: the word at address a, counted from 1, has its value at heap[2 * (a - 1)] and its
 *                    type's code behind it. The script's heap has min(heap_len / 2, 4096) words. What the heap holds at the call does not
 *                    matter to the answer. If the image is refused, no number of the heap changes. If it is run, the heap's words are then
 *                    as the run left them; numbers behind them never change.
 * limit              how many steps the run may take.
 * out, out_len       where the answer goes. With fewer than CODLINBELL_OUT numbers nothing is done, and the call answers false.
 *                    Otherwise out[0] to out[5] are
 *                      CODLINBELL_REFUSED, fault, place, 0, 0, 0          or
 *                      CODLINBELL_RAN, end, value, type's code, steps, first
 *                    where value and type are 0 and int (code 1) unless the end is CODLINBELL_END_VALUE, steps is the number of steps taken
 *                    and first the number of the first step in unchecked code, 0 if there was none. Numbers behind out[5] stay as they are.
 *
 * No pointer may be null, not even with a length of 0, and image, heap and out must not overlap.
 */
bool codlinbell_answer(const uint8_t *image, size_t image_len, uint64_t *heap, size_t heap_len, uint64_t limit, uint64_t *out,
                       size_t out_len);

#ifdef __cplusplus
}
#endif

#endif
