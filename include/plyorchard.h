/*
 * Plyorchard: the proved core of a gift card balance server, for C and C++.
 *
 * Link crates/exports/out/libexports.a, which `tools/build exports` writes. Each function is proved, on every input, to
 * end, to break no rule of the language and to give the number of the definition that is named beside it, in a file
 * below crates/; so no number has to be checked first.
 *
 * A form that can be refused has two functions: `_refusal` gives the refusal's number or 0, `_value` the value or 0.
 *
 * A lent slice is a pointer and then a count of words or bytes. It is the caller's to see that the pointer is aligned,
 * not NULL even where the count is 0, and reaches that many; that nothing else uses the slice during the call; and that
 * a slice which the call may write overlaps no other. A refused call changes no slice, but for `ply_record`'s answer.
 *
 * A lent number is a pointer to one number that the call may write, and it is set on every call; a lent array is a
 * pointer to as many as its brackets say. The caller owes of them what it owes of a slice; they overlap no slice of the
 * call and not each other. A stream's state is a lent array of exactly 17 bytes, set before the first call (zeros),
 * which the call reads, and writes where it is accepted.
 */
#ifndef PLYORCHARD_H
#define PLYORCHARD_H

#include <stddef.h>
#include <stdint.h>

#ifdef __cplusplus
extern "C" {
#endif

/* Why a call is refused. Where several apply: 3 before 4; 5, 6, 7, 8, 9; 13, 11, 12, then the operation's own; of a stream
 * 13, 10. */
enum ply_refusal {
    PLY_ACCEPTED = 0,
    PLY_NEGATIVE_ROOT = 1,  /* root of a negative number */
    PLY_NO_LOG = 2,         /* log or digit count of a number that is not above 0 */
    PLY_DIVISOR_ZERO = 3,   /* divisor 0 */
    PLY_NO_FIT = 4,         /* the exact result does not fit, or remainder of MIN by -1 */
    PLY_TABLE_TOO_LONG = 5, /* card table longer than 4,096 words */
    PLY_NO_SUCH_CARD = 6,   /* card index not below the table's length */
    PLY_EMPTY_MASK = 7,     /* table mask is 0 */
    PLY_TOO_WIDE = 8,       /* expected or new number has more bits than the mask has ones */
    PLY_DIFFERS = 9,        /* the gathered field differs from the expected number */
    PLY_NO_ROOM = 10,       /* batch, or answers to records, do not fit their destination */
    PLY_NO_OPERATION = 11,  /* record: operation not listed, or a width it does not take */
    PLY_BAD_OPERAND = 12,   /* record: operand has bits above its width, or an unused operand is not 0 */
    PLY_WRONG_LENGTH = 13   /* record or answer of wrong length, a stream's count > 16 */
};

/* The square root: the s with s*s <= n < (s+1)*(s+1). Never refused. `root` in int_sqrt/specs/Root. */
uint8_t ply_isqrt_u8(uint8_t n);
uint16_t ply_isqrt_u16(uint16_t n);
uint32_t ply_isqrt_u32(uint32_t n);
uint64_t ply_isqrt_u64(uint64_t n);

/* The same, refused with 1 below 0. `root_of` in int_sqrt/specs/Root. */
uint8_t ply_isqrt_i8_refusal(int8_t n);
int8_t ply_isqrt_i8_value(int8_t n);
uint8_t ply_isqrt_i16_refusal(int16_t n);
int16_t ply_isqrt_i16_value(int16_t n);
uint8_t ply_isqrt_i32_refusal(int32_t n);
int32_t ply_isqrt_i32_value(int32_t n);
uint8_t ply_isqrt_i64_refusal(int64_t n);
int64_t ply_isqrt_i64_value(int64_t n);

/* The decimal logarithm: the k with 10^k <= v < 10^(k+1), refused with 2 where v <= 0.
 * `log_of` in int_log10/specs/Log. */
uint8_t ply_ilog10_u8_refusal(uint8_t v);
uint32_t ply_ilog10_u8_value(uint8_t v);
uint8_t ply_ilog10_u16_refusal(uint16_t v);
uint32_t ply_ilog10_u16_value(uint16_t v);
uint8_t ply_ilog10_u32_refusal(uint32_t v);
uint32_t ply_ilog10_u32_value(uint32_t v);
uint8_t ply_ilog10_u64_refusal(uint64_t v);
uint32_t ply_ilog10_u64_value(uint64_t v);
uint8_t ply_ilog10_i8_refusal(int8_t v);
uint32_t ply_ilog10_i8_value(int8_t v);
uint8_t ply_ilog10_i16_refusal(int16_t v);
uint32_t ply_ilog10_i16_value(int16_t v);
uint8_t ply_ilog10_i32_refusal(int32_t v);
uint32_t ply_ilog10_i32_value(int32_t v);
uint8_t ply_ilog10_i64_refusal(int64_t v);
uint32_t ply_ilog10_i64_value(int64_t v);

/* How many decimal digits v has, refused with 2 for 0. `digit_count` in int_log10/specs/Log. */
uint8_t ply_digit_count_refusal(uint64_t v);
uint32_t ply_digit_count_value(uint64_t v);

/* The bits of x at the ones of the mask, from the lowest up, as bits 0, 1, 2 and so on; the rest is 0. Never refused.
 * `gather` in int_bits/specs/Gather. */
uint8_t ply_gather_u8(uint8_t x, uint8_t mask);
uint16_t ply_gather_u16(uint16_t x, uint16_t mask);
uint32_t ply_gather_u32(uint32_t x, uint32_t mask);
uint64_t ply_gather_u64(uint64_t x, uint64_t mask);

/* Bit i of x at the place of the (i+1)-th one of the mask, lowest first; 0 elsewhere. Never refused.
 * `scatter` in int_bits/specs/Gather. */
uint8_t ply_scatter_u8(uint8_t x, uint8_t mask);
uint16_t ply_scatter_u16(uint16_t x, uint16_t mask);
uint32_t ply_scatter_u32(uint32_t x, uint32_t mask);
uint64_t ply_scatter_u64(uint64_t x, uint64_t mask);

/* The Euclidean remainder: the r with 0 <= r < |d| and a - r a multiple of d, refused with 3 for d = 0 and with 4 for
 * MIN by -1. `rem_euclid` in signed/specs/Signed. */
uint8_t ply_rem_euclid_i8_refusal(int8_t a, int8_t d);
int8_t ply_rem_euclid_i8_value(int8_t a, int8_t d);
uint8_t ply_rem_euclid_i16_refusal(int16_t a, int16_t d);
int16_t ply_rem_euclid_i16_value(int16_t a, int16_t d);
uint8_t ply_rem_euclid_i32_refusal(int32_t a, int32_t d);
int32_t ply_rem_euclid_i32_value(int32_t a, int32_t d);
uint8_t ply_rem_euclid_i64_refusal(int64_t a, int64_t d);
int64_t ply_rem_euclid_i64_value(int64_t a, int64_t d);

/* For d > 0 the least multiple of d that is >= a, for d < 0 the greatest that is <= a; refused with 3 for d = 0 and
 * with 4 where it does not fit. `next_multiple` in signed/specs/Signed. */
uint8_t ply_next_multiple_of_i8_refusal(int8_t a, int8_t d);
int8_t ply_next_multiple_of_i8_value(int8_t a, int8_t d);
uint8_t ply_next_multiple_of_i16_refusal(int16_t a, int16_t d);
int16_t ply_next_multiple_of_i16_value(int16_t a, int16_t d);
uint8_t ply_next_multiple_of_i32_refusal(int32_t a, int32_t d);
int32_t ply_next_multiple_of_i32_value(int32_t a, int32_t d);
uint8_t ply_next_multiple_of_i64_refusal(int64_t a, int64_t d);
int64_t ply_next_multiple_of_i64_value(int64_t a, int64_t d);

/* The exact a + b, a - b, -a and |a|, refused with 4 where it does not fit. `exact` in signed/specs/Signed. */
uint8_t ply_strict_add_i8_refusal(int8_t a, int8_t b);
int8_t ply_strict_add_i8_value(int8_t a, int8_t b);
uint8_t ply_strict_add_i16_refusal(int16_t a, int16_t b);
int16_t ply_strict_add_i16_value(int16_t a, int16_t b);
uint8_t ply_strict_add_i32_refusal(int32_t a, int32_t b);
int32_t ply_strict_add_i32_value(int32_t a, int32_t b);
uint8_t ply_strict_add_i64_refusal(int64_t a, int64_t b);
int64_t ply_strict_add_i64_value(int64_t a, int64_t b);
uint8_t ply_strict_sub_i8_refusal(int8_t a, int8_t b);
int8_t ply_strict_sub_i8_value(int8_t a, int8_t b);
uint8_t ply_strict_sub_i16_refusal(int16_t a, int16_t b);
int16_t ply_strict_sub_i16_value(int16_t a, int16_t b);
uint8_t ply_strict_sub_i32_refusal(int32_t a, int32_t b);
int32_t ply_strict_sub_i32_value(int32_t a, int32_t b);
uint8_t ply_strict_sub_i64_refusal(int64_t a, int64_t b);
int64_t ply_strict_sub_i64_value(int64_t a, int64_t b);
uint8_t ply_strict_neg_i8_refusal(int8_t a);
int8_t ply_strict_neg_i8_value(int8_t a);
uint8_t ply_strict_neg_i16_refusal(int16_t a);
int16_t ply_strict_neg_i16_value(int16_t a);
uint8_t ply_strict_neg_i32_refusal(int32_t a);
int32_t ply_strict_neg_i32_value(int32_t a);
uint8_t ply_strict_neg_i64_refusal(int64_t a);
int64_t ply_strict_neg_i64_value(int64_t a);
uint8_t ply_strict_abs_i8_refusal(int8_t a);
int8_t ply_strict_abs_i8_value(int8_t a);
uint8_t ply_strict_abs_i16_refusal(int16_t a);
int16_t ply_strict_abs_i16_value(int16_t a);
uint8_t ply_strict_abs_i32_refusal(int32_t a);
int32_t ply_strict_abs_i32_value(int32_t a);
uint8_t ply_strict_abs_i64_refusal(int64_t a);
int64_t ply_strict_abs_i64_value(int64_t a);

/* a + b, a - b and -a modulo 2^width. Never refused. `wrap` in signed/specs/Signed. */
int8_t ply_wrapping_add_i8(int8_t a, int8_t b);
int16_t ply_wrapping_add_i16(int16_t a, int16_t b);
int32_t ply_wrapping_add_i32(int32_t a, int32_t b);
int64_t ply_wrapping_add_i64(int64_t a, int64_t b);
int8_t ply_wrapping_sub_i8(int8_t a, int8_t b);
int16_t ply_wrapping_sub_i16(int16_t a, int16_t b);
int32_t ply_wrapping_sub_i32(int32_t a, int32_t b);
int64_t ply_wrapping_sub_i64(int64_t a, int64_t b);
int8_t ply_wrapping_neg_i8(int8_t a);
int16_t ply_wrapping_neg_i16(int16_t a);
int32_t ply_wrapping_neg_i32(int32_t a);
int64_t ply_wrapping_neg_i64(int64_t a);

/* |a|, unsigned: 128 for the 8-bit -128. Never refused. `nat_abs` of the library. */
uint8_t ply_unsigned_abs_i8(int8_t a);
uint16_t ply_unsigned_abs_i16(int16_t a);
uint32_t ply_unsigned_abs_i32(int32_t a);
uint64_t ply_unsigned_abs_i64(int64_t a);

/* Writes each word of the source, gathered or scattered under the mask, into the destination from the place on; its
 * other words stay. Gives the refusal, 10 where the place lies past the end or the source is longer than what remains,
 * or 0. `room_reply` and `batched` in batches/specs/Batch. */
uint8_t ply_gather_batch(const uint64_t *source, size_t source_count, uint64_t mask,
                         uint64_t *destination, size_t destination_count, size_t place);
uint8_t ply_scatter_batch(const uint64_t *source, size_t source_count, uint64_t mask,
                          uint64_t *destination, size_t destination_count, size_t place);

/* The number in a card's field: the card's word gathered under the mask. Refused with 5, 6 or 7.
 * `read_reply` in cards/specs/Table. */
uint8_t ply_card_read_refusal(const uint64_t *table, size_t table_count, size_t card, uint64_t mask);
uint64_t ply_card_read_value(const uint64_t *table, size_t table_count, size_t card, uint64_t mask);

/* Puts a new number into a card's field if the field holds the expected one, and changes no other bit. Gives the
 * refusal, 5 to 9, or 0. `write_reply` and `written` in cards/specs/Table. */
uint8_t ply_card_write(uint64_t *table, size_t table_count, size_t card, uint64_t mask,
                       uint64_t expected, uint64_t new_number);

/* Answers one record: 17 bytes in, 9 bytes out (docs/RULES.md, Records). Gives the refusal or 0. With 13, for a length
 * that is another, the answer stays; every other refusal is written into it too.
 * `one_reply` and `answered` in records/specs/Records. */
uint8_t ply_record(const uint8_t *asked, size_t asked_count, uint8_t *answer, size_t answer_count);

/* Records that come in fragments (docs/RULES.md, Records in fragments). The state is what is kept between calls: 16 bytes,
 * and then how many of them count; all zeros is fresh, and a call stores the next state where it is accepted. The first
 * function takes a fragment of any length and writes the answers to the records that it completes from the front of the
 * output. The second is the end of the input: it writes the answer with 13 if bytes are left over, and the state is then
 * fresh. Both give the refusal, 13 for a count above 16, then 10 where the answers lack room, or 0, and set `written` to
 * how many bytes they wrote, 0 where refused.
 * `ToldFeed` and `ToldEnd` in stream/specs/Packed. */
uint8_t ply_stream_feed(uint8_t state[17], const uint8_t *fragment, size_t fragment_count,
                        uint8_t *output, size_t output_count, size_t *written);
uint8_t ply_stream_end(uint8_t state[17], uint8_t *output, size_t output_count, size_t *written);

#ifdef __cplusplus
}
#endif

#endif
