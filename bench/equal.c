// equal word|int SECONDS writes pairs of keys whose hashes are equal in all of their 64 bits, for so many seconds of the processor:
// texts of 16 letters, or integers. The hash is that of crates/sno_store/src/hash.rt. Each hash is taken as the next key; such walks
// that meet end at the same hash of 20 zero bits, and where they met is then found from their beginnings.
#include <stdint.h>
#include <stdio.h>
#include <stdlib.h>
#include <string.h>
#include <time.h>

enum { WALKS = 32, ZEROS = 20, SLOTS = 1 << 22 };

struct walk { uint64_t end, start, length; };

static int is_int;
static struct walk ended[SLOTS];

#define ROTATE(word, by) ((word) << (by) | (word) >> (64 - (by)))
#define ROUND \
    v0 += v1, v1 = ROTATE(v1, 13) ^ v0, v0 = ROTATE(v0, 32); \
    v2 += v3, v3 = ROTATE(v3, 16) ^ v2; \
    v2 += v1, v1 = ROTATE(v1, 17) ^ v2, v2 = ROTATE(v2, 32); \
    v0 += v3, v3 = ROTATE(v3, 21) ^ v0

// eight letters from A to P, one for each four bits
static inline uint64_t letters(uint64_t bits) {
    bits = (bits | bits << 16) & 0x0000ffff0000ffff;
    bits = (bits | bits << 8) & 0x00ff00ff00ff00ff;
    bits = (bits | bits << 4) & 0x0f0f0f0f0f0f0f0f;
    return bits + 0x4141414141414141;
}

static inline uint64_t hash_of(uint64_t key, int of_int) {
    uint64_t words[3] = {of_int ? key : letters(key & 0xffffffff), of_int ? 5 : letters(key >> 32), 16ull << 56};
    uint64_t v0 = 0x736f6d6570736575, v1 = 0x646f72616e646f6d, v2 = 0x6c7967656e657261, v3 = 0x7465646279746573;
    for (int i = 0; i < 3; i++) {
        v3 ^= words[i];
        ROUND;
        v0 ^= words[i];
    }
    v2 ^= 255;
    ROUND;
    ROUND;
    ROUND;
    return v0 ^ v1 ^ v2 ^ v3;
}

static void put(uint64_t key, char behind) {
    uint64_t words[2] = {letters(key & 0xffffffff), letters(key >> 32)};
    if (is_int) printf("%lld%c", (long long)key, behind);
    else printf("%.16s%c", (char *)words, behind);
}

// writes the keys at which two walks meet, unless one is a part of the other
static void meet(uint64_t one, uint64_t steps, uint64_t other, uint64_t others) {
    for (; steps > others; steps--) one = hash_of(one, is_int);
    for (; others > steps; others--) other = hash_of(other, is_int);
    for (; one != other; steps--) {
        uint64_t next = hash_of(one, is_int), beside = hash_of(other, is_int);
        if (next == beside) {
            put(one, ' '), put(other, '\n'), fflush(stdout);
            return;
        }
        one = next, other = beside;
    }
}

static void end_walk(uint64_t end, uint64_t start, uint64_t length) {
    uint64_t slot = (end >> ZEROS) * 0x9e3779b97f4a7c15 >> 42;
    while (ended[slot].length && ended[slot].end != end) slot = (slot + 1) % SLOTS;
    if (ended[slot].length) meet(start, length, ended[slot].start, ended[slot].length);
    else ended[slot] = (struct walk){end, start, length};
}

int main(int count, char **words) {
    if (count != 3) return fprintf(stderr, "usage: equal word|int SECONDS\n"), 2;
    is_int = !strcmp(words[1], "int");
    uint64_t key[WALKS], start[WALKS], length[WALKS] = {0}, next = 1;
    for (int i = 0; i < WALKS; i++) key[i] = start[i] = next += 0x9e3779b97f4a7c15;
    while (clock() / CLOCKS_PER_SEC < atol(words[2])) {
        for (int turn = 0; turn < 4096; turn++) {
            int is_any = 0;
            if (is_int) for (int i = 0; i < WALKS; i++) key[i] = hash_of(key[i], 1);
            else for (int i = 0; i < WALKS; i++) key[i] = hash_of(key[i], 0);
            for (int i = 0; i < WALKS; i++) length[i]++, is_any |= !(key[i] & ((1 << ZEROS) - 1));
            for (int i = 0; is_any && i < WALKS; i++) {
                if (key[i] & ((1 << ZEROS) - 1)) continue;
                end_walk(key[i], start[i], length[i]);
                key[i] = start[i] = next += 0x9e3779b97f4a7c15, length[i] = 0;
            }
        }
    }
    return 0;
}
