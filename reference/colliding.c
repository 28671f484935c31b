/* Prints so many names that begin at one group of the kit's hash table and have one tag there, so that each is compared
 * with all before it.
 *
 * The hash is that of the kit's `FoldHasher` over the length of a name and then each byte, folded to 32 bits; the table
 * takes the low bits for the group, and the highest eight, 0 as 1, for the tag. For 65,535 names a million tries find
 * one, in the mean.
 */
#include <stdint.h>
#include <stdio.h>
#include <stdlib.h>

enum { LENGTH = 9 };

static const uint64_t MULTIPLIER = 0x9e3779b97f4a7c15, FIRST = 0x243f6a8885a308d3;
static const char LETTERS[] = "abcdefghijklmnopqrstuvwxyz0123456789_";
static char name[LENGTH + 1] = "n";
static long left;
static uint32_t groups = 1;

static uint64_t folded(uint64_t one, uint64_t other) {
    unsigned __int128 product = (unsigned __int128)one * other;
    return (uint64_t)product ^ (uint64_t)(product >> 64);
}

static uint64_t with_byte(uint64_t state, unsigned char byte) {
    return folded(state ^ byte * 0x10101ull, MULTIPLIER ^ 2);
}

static void last(uint64_t state) {
    for (const char *letter = LETTERS; *letter; letter++) {
        uint64_t hash = with_byte(state, (unsigned char)*letter);
        uint32_t found = (uint32_t)(hash ^ hash >> 32);
        if ((found & (groups - 1)) == 0 && found >> 24 <= 1 && left > 0) {
            name[LENGTH - 1] = *letter;
            puts(name);
            left--;
        }
    }
}

static void rest(uint64_t state, int at) {
    if (at == LENGTH - 1)
        last(state);
    else
        for (const char *letter = LETTERS; *letter && left > 0; letter++) {
            name[at] = *letter;
            rest(with_byte(state, (unsigned char)*letter), at + 1);
        }
}

int main(int count, char **words) {
    left = count > 1 ? atol(words[1]) : 0;
    while (9 * (long)groups < left)
        groups *= 2;
    rest(with_byte(folded(FIRST ^ LENGTH, MULTIPLIER ^ 16), (unsigned char)name[0]), 1);
    return 0;
}
