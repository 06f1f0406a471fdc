/* Sycon's permutation with each word in a vector register: quarters are lanes of 16 bits, and the new order of bytes is one
   shuffle. It shows what a single stream can reach on this machine. */

typedef unsigned long u64;
typedef u64 words __attribute__((vector_size(16)));
typedef unsigned short quarters __attribute__((vector_size(16)));
typedef unsigned char bytes __attribute__((vector_size(16)));

static const u64 constant_bytes[14] = {0x15, 0x1A, 0x1D, 0x0E, 0x17, 0x1B, 0x0D, 0x06, 0x03, 0x11, 0x18, 0x1C, 0x1E, 0x1F};

#define ROTATE(x, k) ((x) >> (k) | (x) << (64 - (k)))
#define DIFFUSE(x, a, b) ((x) ^ ROTATE(x, a) ^ ROTATE(x, b))
#define TURN(x, u) ((words)((quarters)(x) >> (u) | (quarters)(x) << (16 - (u))))
#define ARRANGE(x, u, ...) ((words)__builtin_shufflevector((bytes)TURN(x, u), (bytes)TURN(x, u), __VA_ARGS__, 8, 9, 10, 11, 12, 13, 14, 15))

void vector_turn(u64 *s, u64 rounds) {
    words a0 = {s[0]}, a1 = {s[1]}, a2 = {s[2]}, a3 = {s[3]}, a4 = {s[4]};
    for (u64 i = 0; i < rounds; i++) {
        words t0 = a2 ^ a4, t1 = t0 ^ a1, t2 = a1 ^ a3, t3 = a0 ^ a4;
        words b0 = t3 ^ (t1 & a3);
        words b1 = (~a1 & a3) ^ t1 ^ (~t2 & a0);
        words b2 = (~t3 & a2) ^ t2;
        words b3 = (~t0 & a3) ^ a0 ^ ~a2;
        words b4 = (~a4 & a0) ^ t2;
        words constant = {0xAAAAAAAAAAAAAA00ul + constant_bytes[i]};
        b0 = DIFFUSE(b0, 11, 22);
        b1 = DIFFUSE(b1, 13, 26);
        b2 = DIFFUSE(b2, 31, 62) ^ constant;
        b3 = DIFFUSE(b3, 56, 60);
        b4 = DIFFUSE(b4, 6, 12);
        a0 = ARRANGE(b0, 11, 7, 0, 3, 5, 4, 6, 2, 1);
        a1 = ARRANGE(b1, 4, 0, 6, 1, 7, 3, 4, 2, 5);
        a2 = ARRANGE(b2, 10, 7, 2, 4, 5, 1, 0, 6, 3);
        a3 = ARRANGE(b3, 7, 2, 4, 5, 3, 0, 7, 6, 1);
        a4 = ARRANGE(b4, 5, 3, 6, 1, 0, 5, 7, 2, 4);
    }
    s[0] = a0[0], s[1] = a1[0], s[2] = a2[0], s[3] = a3[0], s[4] = a4[0];
}
