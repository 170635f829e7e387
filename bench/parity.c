// Takes the remainders of a million frames, as sq_bits does with three tables ("3") and as it did with one ("1").
// bench/parity counts the instructions of both.
#include <stdint.h>
#include <stdio.h>
#include <string.h>

#define GENERATOR 0x1FFF409u
static uint32_t table[3][256]; // remainders of a byte with 24, 32 and 40 zero bits after it

static uint32_t remainder_of(uint64_t byte, int zeros)
{
    uint64_t number = byte << zeros;
    for (int bit = zeros + 7; bit >= 24; bit--)
        if (number >> bit & 1)
            number ^= (uint64_t)GENERATOR << (bit - 24);
    return (uint32_t)number;
}

static inline uint32_t append_word(uint32_t remainder, uint32_t word)
{
    return table[2][remainder >> 16] ^ table[1][remainder >> 8 & 0xFF] ^ table[0][remainder & 0xFF] ^ word;
}

__attribute__((noinline)) static uint32_t by_three(const unsigned char *frame)
{
    uint64_t high, low;
    memcpy(&high, frame, 8);
    memcpy(&low, frame + 6, 8);
    high = __builtin_bswap64(high);
    low = __builtin_bswap64(low);
    unsigned __int128 number = (unsigned __int128)high << 48 | (low & 0xFFFFFFFFFFFFull);
    uint32_t remainder = (uint32_t)(number >> 96);
    for (int shift = 72; shift >= 0; shift -= 24)
        remainder = append_word(remainder, (uint32_t)(number >> shift) & 0xFFFFFF);
    return remainder;
}

__attribute__((noinline)) static uint32_t by_one(const unsigned char *frame)
{
    uint32_t remainder = 0;
    for (int i = 0; i < 14; i++)
        remainder = ((remainder & 0xFFFF) << 8 | frame[i]) ^ table[0][remainder >> 16];
    return remainder;
}

int main(int count, char **words)
{
    unsigned char frame[14] = {0x8D, 0x40, 0x62, 0x1D, 0x58, 0xC3, 0x82, 0xD6, 0x90, 0xC8, 0xAC, 0x28, 0x63, 0xA7};
    for (int i = 0; i < 3; i++)
        for (int byte = 0; byte < 256; byte++)
            table[i][byte] = remainder_of((uint64_t)byte, 24 + 8 * i);
    if (count < 2 || by_one(frame) != 0 || by_three(frame) != 0)
        return 1;
    uint32_t sum = 0;
    for (int i = 0; i < 1000000; i++) {
        frame[13] = (unsigned char)i;
        sum += words[1][0] == '1' ? by_one(frame) : by_three(frame);
    }
    printf("%u\n", sum);
    return 0;
}
