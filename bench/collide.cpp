// Writes a text of `force` lines whose names all have hashes that end in so many zero bits: with `fold` by the hash that the
// library's sets use where they are given no other, and with `sip` by that of a text with few names, where they begin with eight
// more, by which a set tells keys apart. The first cost time in the square of its names before names were hashed from a digest of
// the text.
//
//     g++ -O2 -o collide bench/collide.cpp && ./collide NAMES BITS fold > instance.txt
#include <cstdint>
#include <cstdio>
#include <cstdlib>
#include <cstring>

static const uint64_t MULTIPLIER = 0x9e3779b97f4a7c15, START = 0x243f6a8885a308d3;

static uint64_t folded(uint64_t a, uint64_t b) {
    unsigned __int128 product = (unsigned __int128)a * b;
    return (uint64_t)product ^ (uint64_t)(product >> 64);
}

// The hash of a name of seven bytes where none is given.
static uint64_t fold(const char *name) {
    uint32_t low, high;
    memcpy(&low, name, 4);
    memcpy(&high, name + 3, 4);
    return folded(START ^ (low | (uint64_t)high << 32), MULTIPLIER ^ 14);
}

static uint64_t turned(uint64_t word, int bits) { return word << bits | word >> (64 - bits); }

// SipHash 1-3 with the key 0 of a name of seven bytes (Aumasson and Bernstein 2012).
static uint64_t sip(const char *name) {
    uint64_t a = 0x736f6d6570736575, b = 0x646f72616e646f6d, c = 0x6c7967656e657261, d = 0x7465646279746573;
    auto round = [&] {
        a += b, b = turned(b, 13) ^ a, a = turned(a, 32);
        c += d, d = turned(d, 16) ^ c;
        a += d, d = turned(d, 21) ^ a;
        c += b, b = turned(b, 17) ^ c, c = turned(c, 32);
    };
    uint64_t last = 0;
    memcpy(&last, name, 7);
    last |= (uint64_t)7 << 56;
    d ^= last, round(), a ^= last;
    c ^= 0xff, round(), round(), round();
    return a ^ b ^ c ^ d;
}

int main(int count, char **words) {
    if (count != 4) return 2;
    auto hash = strcmp(words[3], "sip") ? fold : sip;
    long names = atol(words[1]);
    uint64_t mask = (1ull << atoi(words[2])) - 1;
    if (hash == sip) mask |= 0xff000000;
    const char letters[] = "abcdefghijklmnopqrstuvwxyzABCDEFGHIJKLMNOPQRSTUVWXYZ0123456789_.";
    puts("stable 1 marriage");
    long found = 0;
    for (uint64_t n = 0; found < names; n++) {
        char name[8] = "aaaaaaa";
        for (uint64_t i = 0, rest = n; i < 6; i++, rest /= 64) name[i + 1] = letters[rest % 64];
        uint64_t full = hash(name);
        if ((full ^ full >> 32) & mask) continue;
        printf("force %s %s\n", name, name);
        found++;
    }
    puts("end");
}
