// collide HASH KIND BITS COUNT writes so many keys, one a line, whose hashes end in the same bits. HASH is sip, which the program
// uses (crates/sno_store/src/hash.rt), or fold, the one of index maps; KIND is word (a text as a key of a table), name (a symbol) or int.
// With 0 bits these are keys of the same lengths as they come.
#include <stdint.h>
#include <stdio.h>
#include <stdlib.h>
#include <string.h>

enum { LETTERS = 9 };

static uint64_t rotate(uint64_t word, int by) { return word << by | word >> (64 - by); }

static void sip_round(uint64_t v[4]) {
    v[0] += v[1], v[1] = rotate(v[1], 13) ^ v[0], v[0] = rotate(v[0], 32);
    v[2] += v[3], v[3] = rotate(v[3], 16) ^ v[2];
    v[2] += v[1], v[1] = rotate(v[1], 17) ^ v[2], v[2] = rotate(v[2], 32);
    v[0] += v[3], v[3] = rotate(v[3], 21) ^ v[0];
}

static uint64_t sip(uint64_t first, uint64_t second, uint64_t third, int count) {
    uint64_t v[4] = {0x736f6d6570736575, 0x646f72616e646f6d, 0x6c7967656e657261, 0x7465646279746573};
    uint64_t words[3] = {first, second, third};
    for (int i = 0; i < count; i++) v[3] ^= words[i], sip_round(v), v[0] ^= words[i];
    v[2] ^= 255;
    for (int i = 0; i < 3; i++) sip_round(v);
    return v[0] ^ v[1] ^ v[2] ^ v[3];
}

static uint64_t fold(uint64_t state, uint64_t word, uint64_t length) {
    unsigned __int128 product = (unsigned __int128)(state ^ word) * (0x9e3779b97f4a7c15 ^ 2 * length);
    return (uint64_t)product ^ (uint64_t)(product >> 64);
}

static uint64_t word_before; // of fold, behind all letters but the last one

// of a number, or of the LETTERS letters of a word, which is the one before with another last letter, or has others before it
static uint64_t hash_of(int is_fold, char kind, int64_t number, const char *word, int is_next) {
    uint64_t state = 0x243f6a8885a308d3, first = 0;
    if (kind == 'i') {
        if (!is_fold) return sip(number, 5, 16ull << 56, 3);
        state = fold(fold(state, 1, 8), number, 8);
        return state ^ state >> 32;
    }
    if (!is_fold) {
        for (int i = 7; i >= 0; i--) first = first << 8 | (unsigned char)word[i];
        return sip(first, (unsigned char)word[8] + ((uint64_t)LETTERS << 56), 0, 2);
    }
    if (!is_next) {
        if (kind == 'w') state = fold(state, 0, 8);
        state = fold(state, LETTERS, 8);
        for (int i = 0; i < LETTERS - 1; i++) state = fold(state, (unsigned char)word[i] * 0x10101ull, 1);
        word_before = state;
    }
    state = fold(word_before, (unsigned char)word[LETTERS - 1] * 0x10101ull, 1);
    return state ^ state >> 32;
}

int main(int count, char **words) {
    if (count != 5) return fprintf(stderr, "usage: collide sip|fold word|name|int BITS COUNT\n"), 2;
    int is_fold = !strcmp(words[1], "fold");
    char kind = words[2][0], word[LETTERS + 1] = "AAAAAAAAA";
    uint64_t mask = (1ull << atoi(words[3])) - 1, found = 0, wanted = strtoull(words[4], NULL, 10);
    for (int64_t number = 0; found < wanted; number++) {
        int is_next = kind != 'i' && number % 26 != 0;
        word[LETTERS - 1] = 'A' + number % 26;
        int64_t rest = number / 26;
        for (int i = LETTERS - 2; !is_next && rest; i--, rest /= 26) word[i] = 'A' + rest % 26;
        if (hash_of(is_fold, kind, number, word, is_next) & mask) continue;
        found++;
        if (kind == 'i') printf("%lld\n", (long long)number);
        else puts(word);
    }
    return 0;
}
