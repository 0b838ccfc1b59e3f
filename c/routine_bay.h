/* The routine bay for programs in C and other languages: the verdict on a sheet, and a list of calls played on a bay.
 * The functions allocate nothing, keep nothing between calls, call nothing of the caller's, and may be called from
 * several threads. They read no byte outside the buffers they are given. docs/LINKING.md says more. */
#ifndef ROUTINE_BAY_H
#define ROUTINE_BAY_H

#include <stddef.h>
#include <stdint.h>

#ifdef __cplusplus
extern "C" {
#endif

/* The domains, by number. */
enum routine_bay_domain {
    ROUTINE_BAY_SPANS = 0,                   /* spans */
    ROUTINE_BAY_STRIDES = 1,                 /* strides */
    ROUTINE_BAY_NONZERO_SPANS = 2,           /* nonzero(spans) */
    ROUTINE_BAY_NONZERO_STRIDES = 3,         /* nonzero(strides) */
    ROUTINE_BAY_SPANS_STRIDES = 4,           /* pair(spans,strides) */
    ROUTINE_BAY_STRIDES_SPANS = 5,           /* pair(strides,spans) */
    ROUTINE_BAY_NONZERO_SPANS_STRIDES = 6,   /* pair(nonzero(spans),strides) */
    ROUTINE_BAY_NONZERO_PAIR = 7,            /* nonzero(pair(spans,strides)) */
    ROUTINE_BAY_SPANS_NONZERO_STRIDES = 8,   /* pair(spans,nonzero(strides)) */
    ROUTINE_BAY_SPANS8 = 9,                  /* eight spans paired: cells of 64 bytes */
    ROUTINE_BAY_SPANS9 = 10                  /* nine spans paired: no cell, so no sheet is taken */
};

/* The verdict on a sheet of `length` bytes in a domain:
 *   bits 0 to 7     0 taken; 1 to 15 the rule that it breaks; 255 no domain has that number
 *   bits 8 to 23    taken: how many places it has; refused: the place
 *   bits 24 to 31   the way
 *   bits 32 to 63   the variable */
uint64_t routine_bay_verdict(uint32_t domain, const uint8_t *sheet, size_t length);

/* The same in spans. Who calls only this one links no other domain's code. */
uint64_t routine_bay_verdict_in_spans(const uint8_t *sheet, size_t length);

/* The fields of a verdict or an answer. */
static inline unsigned routine_bay_number(uint64_t word) { return word & 0xff; }
static inline unsigned routine_bay_place(uint64_t word) { return word >> 8 & 0xffff; }
static inline unsigned routine_bay_way(uint64_t word) { return word >> 24 & 0xff; }
static inline uint32_t routine_bay_variable(uint64_t word) { return (uint32_t)(word >> 32); }

/* The calls, by code. */
enum routine_bay_call {
    ROUTINE_BAY_OFFER = 0,
    ROUTINE_BAY_START = 1,
    ROUTINE_BAY_SET = 2,
    ROUTINE_BAY_STEP = 3,
    ROUTINE_BAY_STOP = 4,
    ROUTINE_BAY_SHOW = 5
};

/* Plays a list of calls on a bay that holds nothing at first, writes one word for each answer, and returns how many
 * calls it made. It ends at the end of the list, at a call that is cut short or has another code, or when `answers`,
 * which has `capacity` words, is full; words beyond the answers are left as they were.
 *
 * A call is 12 bytes, numbers little-endian:
 *   byte 0          the call's code
 *   byte 1          offer: the domain
 *   bytes 2 and 3   not looked at
 *   bytes 4 to 7    offer: the length of the sheet, which follows the 12 bytes; set: the input; show: the variable
 *   bytes 8 to 11   set: the value; step: the reading; signed
 *
 * An answer, bits 0 to 7: 0 done; else the rule by which the call is refused, with place, way and variable as in a
 * verdict; 255: an offer names no domain, and the bay is as it was. Where it is 0, besides:
 *   offer           bits 8 to 23 how many places the sheet has
 *   step            bits 8 to 23 the place; bits 24 to 31 how it came out: 0 at that place, 1 ended (place 0)
 *   show            bits 8 to 23 the place; bits 24 to 31 1 if it runs; bits 32 to 63 the value, two's complement
 *   start, set, stop   nothing */
size_t routine_bay_play(const uint8_t *calls, size_t length, uint64_t *answers, size_t capacity);

#ifdef __cplusplus
}
#endif

#endif
