/* The rules' rows at the edge through the C functions: at least one function of each kind, and each refusal by its name
 * in the header. */
#include "plyorchard.h"

#include <stdio.h>

static unsigned compared;
static unsigned wrong;

/* Compares one number; numbers below 0 are compared as the words of their two's complement. */
static void compare(const char *call, uint64_t given, uint64_t expected)
{
    compared++;
    if (given != expected) {
        wrong++;
        printf("%s is %lld, not %lld\n", call, (long long)given, (long long)expected);
    }
}

/* What a call gives, or what a lent word holds after it. */
#define IS(call, expected) compare(#call, (uint64_t)(call), (uint64_t)(expected))

/* Both functions of a form that can be refused, where it gives a value and where it does not. */
#define GIVES(form, operands, value) IS(form##_refusal operands, PLY_ACCEPTED), IS(form##_value operands, value)
#define REFUSES(form, operands, refusal) IS(form##_refusal operands, refusal), IS(form##_value operands, 0)

static void roots_and_logs(void)
{
    IS(ply_isqrt_u8(0), 0);
    IS(ply_isqrt_u8(3), 1);
    IS(ply_isqrt_u8(4), 2);
    IS(ply_isqrt_u16(65280), 255);
    IS(ply_isqrt_u32(UINT32_MAX), 65535);
    IS(ply_isqrt_u64(UINT64_MAX), 4294967295);
    GIVES(ply_isqrt_i8, (127), 11);
    REFUSES(ply_isqrt_i8, (-1), PLY_NEGATIVE_ROOT);

    GIVES(ply_ilog10_u8, (9), 0);
    GIVES(ply_ilog10_i8, (10), 1);
    GIVES(ply_ilog10_u32, (99999), 4);
    GIVES(ply_ilog10_u32, (100000), 5);
    GIVES(ply_ilog10_u64, (UINT64_MAX), 19);
    REFUSES(ply_ilog10_i64, (INT64_MIN), PLY_NO_LOG);
    GIVES(ply_digit_count, (UINT64_MAX), 20);
    REFUSES(ply_digit_count, (0), PLY_NO_LOG);
}

static void bits(void)
{
    IS(ply_gather_u8(0xB6, 0xCA), 0x9);
    IS(ply_scatter_u8(0x9, 0xCA), 0x82);
    IS(ply_gather_u64(UINT64_MAX, 0), 0);
    IS(ply_scatter_u64(UINT64_MAX, 0x8000000000000001), 0x8000000000000001);
}

static void signed_forms(void)
{
    GIVES(ply_rem_euclid_i8, (-7, -4), 1);
    GIVES(ply_rem_euclid_i8, (-1, -128), 127);
    REFUSES(ply_rem_euclid_i8, (-128, -1), PLY_NO_FIT);
    REFUSES(ply_rem_euclid_i8, (5, 0), PLY_DIVISOR_ZERO);
    GIVES(ply_next_multiple_of_i16, (23, -8), 16);
    GIVES(ply_next_multiple_of_i32, (-23, 8), -16);
    REFUSES(ply_next_multiple_of_i8, (-128, -3), PLY_NO_FIT);
    GIVES(ply_next_multiple_of_i8, (-128, -1), -128);
    REFUSES(ply_next_multiple_of_i64, (INT64_MIN, 0), PLY_DIVISOR_ZERO);

    GIVES(ply_strict_add_i8, (100, 27), 127);
    REFUSES(ply_strict_sub_i8, (-128, 1), PLY_NO_FIT);
    REFUSES(ply_strict_neg_i16, (INT16_MIN), PLY_NO_FIT);
    GIVES(ply_strict_abs_i64, (-INT64_MAX), INT64_MAX);
    IS(ply_wrapping_add_i8(127, 1), -128);
    IS(ply_wrapping_sub_i16(INT16_MIN, 1), INT16_MAX);
    IS(ply_wrapping_neg_i32(INT32_MIN), INT32_MIN);
    IS(ply_unsigned_abs_i8(-128), 128);
}

static void batches(void)
{
    const uint64_t source[2] = {0xFF00, 0x0AB0};
    uint64_t destination[4] = {7, 7, 7, 7};

    IS(ply_gather_batch(source, 2, 0x0FF0, destination, 4, 1), PLY_ACCEPTED);
    IS(destination[0], 7);
    IS(destination[1], 0xF0);
    IS(destination[2], 0xAB);
    IS(destination[3], 7);
    IS(ply_scatter_batch(destination + 1, 1, 0x0FF0, destination + 2, 2, 0), PLY_ACCEPTED);
    IS(destination[2], 0x0F00);
    IS(destination[3], 7);

    IS(ply_gather_batch(source, 2, 0x0FF0, destination, 4, 3), PLY_NO_ROOM);
    IS(ply_scatter_batch(source, 0, 0x0FF0, destination, 4, 5), PLY_NO_ROOM);
    IS(ply_gather_batch(source, 0, 0x0FF0, destination, 4, 4), PLY_ACCEPTED);
    IS(destination[3], 7);
}

static void cards(void)
{
    static uint64_t table[4097] = {0xFF00, 0x1234};

    GIVES(ply_card_read, (table, 2, 0, 0x0FF0), 0xF0);
    IS(ply_card_write(table, 2, 0, 0x0FF0, 0xF0, 0x0A), PLY_ACCEPTED);
    IS(table[0], 0xF0A0);
    IS(ply_card_write(table, 2, 0, 0x0FF0, 0xF0, 0x0A), PLY_DIFFERS);
    IS(ply_card_write(table, 2, 0, 0x0FF0, 0x0A, 0x100), PLY_TOO_WIDE);
    IS(ply_card_write(table, 2, 0, 0, 0x0A, 0x0A), PLY_EMPTY_MASK);
    IS(ply_card_write(table, 2, 2, 0x0FF0, 0, 0), PLY_NO_SUCH_CARD);
    IS(ply_card_write(table, 4097, 0, 0x0FF0, 0x0A, 0), PLY_TABLE_TOO_LONG);
    IS(table[0], 0xF0A0);
    IS(table[1], 0x1234);

    GIVES(ply_card_read, (table, 4096, 1, UINT64_MAX), 0x1234);
    REFUSES(ply_card_read, (table, 4097, 1, UINT64_MAX), PLY_TABLE_TOO_LONG);
    REFUSES(ply_card_read, (table, 1, 1, UINT64_MAX), PLY_NO_SUCH_CARD);
    REFUSES(ply_card_read, (table, 2, 1, 0), PLY_EMPTY_MASK);
}

/* The number in the last 8 bytes of an answer, most significant first. */
static uint64_t value(const uint8_t answer[9])
{
    uint64_t number = 0;

    for (int i = 1; i < 9; i++)
        number = number << 8 | answer[i];
    return number;
}

/* One record, what is returned, and the answer's first byte and number. */
#define ANSWERS(asked, refusal, first, number) \
    IS(ply_record(asked, 17, answer, 9), refusal), IS(answer[0], first), IS(value(answer), number)

static void records(void)
{
    static const uint8_t root[17] = {0x03, [8] = 0x11};
    static const uint8_t remainder[17] = {0x44, [8] = 0xF9, [16] = 0x04};
    static const uint8_t next[17] = {0x54, [8] = 0x7F, [16] = 0x02};
    static const uint8_t no_operation[17] = {0x60};
    static const uint8_t wide[17] = {0x00, [7] = 0x01};
    uint8_t answer[9];

    ANSWERS(root, PLY_ACCEPTED, 0x00, 4);
    ANSWERS(remainder, PLY_ACCEPTED, 0x00, 1);
    ANSWERS(next, PLY_NO_FIT, 0x40, 0);
    ANSWERS(no_operation, PLY_NO_OPERATION, 0xB0, 0);
    ANSWERS(wide, PLY_BAD_OPERAND, 0xC0, 0);

    ANSWERS(root, PLY_ACCEPTED, 0x00, 4);
    IS(ply_record(next, 16, answer, 9), PLY_WRONG_LENGTH);
    IS(ply_record(next, 17, answer, 8), PLY_WRONG_LENGTH);
    IS(answer[0], 0x00);
    IS(value(answer), 4);
}

/* A call on a stream, what is returned, and how many bytes it says that it wrote. */
#define WRITES(call, refusal, size) written = 77, IS(call, refusal), IS(written, size)

static void streams(void)
{
    static const uint8_t input[18] = {0x03, [8] = 0x11, [17] = 0x54};
    uint8_t state[17] = {0};
    uint8_t answer[10] = {[9] = 0xA5};
    size_t written;

    WRITES(ply_stream_feed(state, input, 16, answer, 0, &written), PLY_ACCEPTED, 0);
    IS(state[16], 16);
    WRITES(ply_stream_feed(state, input, 0, answer, 0, &written), PLY_ACCEPTED, 0);
    IS(state[16], 16);
    WRITES(ply_stream_feed(state, input + 16, 2, answer, 8, &written), PLY_NO_ROOM, 0);
    IS(state[16], 16);
    IS(answer[8], 0);
    WRITES(ply_stream_feed(state, input + 16, 2, answer, 10, &written), PLY_ACCEPTED, 9);
    IS(answer[0], 0x00);
    IS(value(answer), 4);
    IS(answer[9], 0xA5);
    IS(state[0], 0x54);
    IS(state[1], 0);
    IS(state[16], 1);

    WRITES(ply_stream_end(state, answer, 8, &written), PLY_NO_ROOM, 0);
    IS(state[16], 1);
    WRITES(ply_stream_end(state, answer, 9, &written), PLY_ACCEPTED, 9);
    IS(answer[0], 0xD0);
    IS(value(answer), 0);
    IS(state[0], 0);
    IS(state[16], 0);
    WRITES(ply_stream_end(state, answer, 0, &written), PLY_ACCEPTED, 0);

    state[16] = 17;
    WRITES(ply_stream_feed(state, input, 17, answer, 10, &written), PLY_WRONG_LENGTH, 0);
    WRITES(ply_stream_end(state, answer, 10, &written), PLY_WRONG_LENGTH, 0);
    IS(state[16], 17);
    IS(answer[0], 0xD0);
}

int main(void)
{
    roots_and_logs();
    bits();
    signed_forms();
    batches();
    cards();
    records();
    streams();
    printf("C: %u numbers compared, %u wrong\n", compared, wrong);
    return wrong != 0;
}
