/*
 * Names that fall into one place of a hash table: usage: colliding_names COUNT BITS [DESCRIPTOR]
 *
 * Prints COUNT names of eight letters and digits, one a line. The hash is that of the kit's maps, whose seed is fixed: each byte of
 * a text is folded into it, and then the length. A table of 16 * 2^BITS places looks for a key first in the group of 16 that the
 * lowest BITS bits of its hash name, and there at those whose tag, eight other bits, is its own. All names that are printed have
 * one group and one tag, so each of them is compared with all in front of it. With a DESCRIPTOR the key is the name and then that.
 *
 * gcc -O3 -march=native -o colliding_names colliding_names.c
 */
#include <stdint.h>
#include <stdio.h>
#include <stdlib.h>
#include <string.h>

static const uint64_t MULTIPLIER = 0x9e3779b97f4a7c15u, SEED = 0x243f6a8885a308d3u;
static const uint32_t TAG = 0x55000000;
static const char LETTERS[] = "abcdefghijklmnopqrstuvwxyzABCDEFGHIJKLMNOPQRSTUVWXYZ0123456789";
enum { FIRST = 52, ALL = 62, LENGTH = 8 };

static inline uint64_t fold(uint64_t a, uint64_t b) {
    unsigned __int128 product = (unsigned __int128)a * b;
    return (uint64_t)product ^ (uint64_t)(product >> 64);
}

/* The hash behind one byte more. */
static inline uint64_t with_byte(uint64_t hash, uint8_t byte) {
    return fold(hash ^ 0x10101u * byte, MULTIPLIER ^ 2);
}

static inline uint64_t with_length(uint64_t hash, uint64_t length) {
    return fold(hash ^ length, MULTIPLIER ^ 16);
}

static long left;
static uint32_t wanted;
static const char *descriptor;
static char name[LENGTH + 1];

/* The hash of the whole key, by that of the name. */
static inline uint64_t of_key(uint64_t hash) {
    if (!descriptor)
        return hash;
    hash = with_length(hash, strlen(descriptor));
    for (const char *at = descriptor; *at; at++)
        hash = with_byte(hash, *at);
    return hash;
}

/* Tries all ends of the name behind its first letters, by the hash of these. */
static void search(int length, uint64_t hash) {
    for (int k = 0; k < (length ? ALL : FIRST) && left; k++) {
        uint64_t longer = with_byte(hash, LETTERS[k]);
        name[length] = LETTERS[k];
        if (length + 1 < LENGTH) {
            search(length + 1, longer);
            continue;
        }
        uint64_t whole = of_key(longer);
        if (((uint32_t)(whole ^ whole >> 32) & wanted) == TAG) {
            puts(name);
            left--;
        }
    }
}

int main(int count, char **words) {
    if (count < 3)
        return 2;
    left = atol(words[1]);
    wanted = 0xff000000u | ((1u << atoi(words[2])) - 1);
    descriptor = count > 3 ? words[3] : NULL;
    search(0, with_length(SEED, LENGTH));
    return 0;
}
