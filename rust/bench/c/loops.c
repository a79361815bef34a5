/* Document 01's check over blocks and in two other ways, and the work of a scrub over a well-formed pool. */
#include <stddef.h>
#include <stdint.h>
#include <string.h>

enum { PAGE = 256, CELL = 64, HEAD = 16, ZONES = 18 * PAGE, MODULUS = 65521, OBJECT = 2 };

/* From sums below 65521 so many bytes bring the high one to at most 1,203,798,000. */
enum { BLOCK = 2048 };

struct sums {
    uint32_t low, high;
};

static const struct sums START = {1, 0};

static uint32_t value(struct sums sums)
{
    return sums.high << 16 | sums.low;
}

/* With a remainder at the end of each block. */
static struct sums add(struct sums sums, const uint8_t *bytes, size_t length)
{
    while (length > 0) {
        size_t block = length < BLOCK ? length : BLOCK;
        for (size_t i = 0; i < block; i++) {
            sums.low += bytes[i];
            sums.high += sums.low;
        }
        sums.low %= MODULUS;
        sums.high %= MODULUS;
        bytes += block;
        length -= block;
    }
    return sums;
}

uint32_t loop_check(const uint8_t *bytes, size_t length)
{
    return value(add(START, bytes, length));
}

/* Each sum is brought below 65521 at every byte. */
static inline uint32_t check_by(uint32_t reduced(uint32_t sum), const uint8_t *bytes, size_t length)
{
    struct sums sums = START;
    for (size_t i = 0; i < length; i++) {
        sums.low = reduced(sums.low + bytes[i]);
        sums.high = reduced(sums.high + sums.low);
    }
    return value(sums);
}

static inline uint32_t by_branch(uint32_t sum)
{
    if (sum < MODULUS)
        return sum;
    __asm__ volatile(""); /* else the compiler makes a conditional move of the branch */
    return sum - MODULUS;
}

static inline uint32_t by_remainder(uint32_t sum)
{
    return sum % MODULUS;
}

uint32_t branch_check(const uint8_t *bytes, size_t length)
{
    return check_by(by_branch, bytes, length);
}

uint32_t remainder_check(const uint8_t *bytes, size_t length)
{
    return check_by(by_remainder, bytes, length);
}

static uint32_t number(const uint8_t *bytes, size_t length)
{
    uint32_t value = 0;
    memcpy(&value, bytes, length);
    return value;
}

/* Its check is wrong, or a byte between its body's end and its last cell's end is not zero. */
static int object_is_damaged(const uint8_t *head)
{
    size_t length = number(head + 4, 4);
    struct sums sums = add(START, head, 8);
    sums = add(sums, head + 12, 4);
    sums = add(sums, head + HEAD, length);
    uint8_t stray = 0;
    for (size_t i = HEAD + length; i < number(head + 2, 2) * CELL; i++)
        stray |= head[i];
    return stray != 0 || number(head + 8, 4) != value(sums);
}

static int column_is_wrong(const uint8_t *page, size_t rows, size_t row)
{
    uint64_t sum[PAGE / 8] = {0}, any = 0;
    for (size_t r = 0; r <= rows; r++)
        for (size_t i = 0; i < PAGE / 8; i++) {
            uint64_t word;
            memcpy(&word, page + r * row + 8 * i, 8);
            sum[i] ^= word;
        }
    for (size_t i = 0; i < PAGE / 8; i++)
        any |= sum[i];
    return any != 0;
}

/* Damaged objects and columns with wrong parity: the check of all bodies, the bytes behind them and the exclusive or of all rows. */
size_t loop_scrub(const uint8_t *pool, size_t rows, size_t cols, size_t zones)
{
    size_t row = cols * PAGE, faults = 0;
    for (size_t zone = 0; zone < zones; zone++) {
        const uint8_t *start = pool + ZONES + zone * (rows + 1) * row;
        for (const uint8_t *head = start; head < start + rows * row; head += number(head + 2, 2) * CELL)
            if (number(head, 2) == OBJECT)
                faults += object_is_damaged(head);
        for (size_t column = 0; column < cols; column++)
            faults += column_is_wrong(start + column * PAGE, rows, row);
    }
    return faults;
}
