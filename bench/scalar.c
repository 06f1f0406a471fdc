/* Sycon's permutation, and sealing at 64 bits, in plain scalar C, as a measure for the proved code. A word is loaded from
   its lowest byte up, so its column c has the weight 2^c. */

typedef unsigned char u8;
typedef unsigned long u64;

static const u64 constant_bytes[14] = {0x15, 0x1A, 0x1D, 0x0E, 0x17, 0x1B, 0x0D, 0x06, 0x03, 0x11, 0x18, 0x1C, 0x1E, 0x1F};

static const unsigned byte_places[5][8] = {
    {7, 0, 3, 5, 4, 6, 2, 1}, {0, 6, 1, 7, 3, 4, 2, 5}, {7, 2, 4, 5, 1, 0, 6, 3},
    {2, 4, 5, 3, 0, 7, 6, 1}, {3, 6, 1, 0, 5, 7, 2, 4},
};

static inline u64 rotate(u64 x, unsigned k) { return k % 64 ? (x >> k % 64) | (x << (64 - k % 64)) : x; }

static inline u64 diffuse(u64 x, unsigned a, unsigned b) { return x ^ rotate(x, a) ^ rotate(x, b); }

/* Steps 1 to 3 on the words a. */
static inline void mix(u64 a[5], u64 constant) {
    u64 t0 = a[2] ^ a[4], t1 = t0 ^ a[1], t2 = a[1] ^ a[3], t3 = a[0] ^ a[4];
    u64 b0 = t3 ^ (t1 & a[3]);
    u64 b1 = (~a[1] & a[3]) ^ t1 ^ (~t2 & a[0]);
    u64 b2 = (~t3 & a[2]) ^ t2;
    u64 b3 = (~t0 & a[3]) ^ a[0] ^ ~a[2];
    u64 b4 = (~a[4] & a[0]) ^ t2;
    a[0] = diffuse(b0, 11, 22);
    a[1] = diffuse(b1, 13, 26);
    a[2] = diffuse(b2, 31, 62) ^ (0xAAAAAAAAAAAAAA00ul + constant);
    a[3] = diffuse(b3, 56, 60);
    a[4] = diffuse(b4, 6, 12);
}

/* Each quarter of 16 columns turned by u. */
static inline u64 turn_quarters(u64 x, unsigned u) {
    u64 low = 0x0001000100010001ul * ((1ul << (16 - u)) - 1);
    return ((x >> u) & low) | ((x << (16 - u)) & ~low);
}

/* Byte by byte, as the definition has it. */
static inline u64 arrange(u64 x, unsigned u, const unsigned place[8]) {
    u64 y = turn_quarters(x, u), r = 0;
    for (unsigned k = 0; k < 8; k++) r |= (y >> 8 * place[k] & 0xFF) << 8 * k;
    return r;
}

void scalar_turn(u64 *s, u64 rounds) {
    u64 a[5] = {s[0], s[1], s[2], s[3], s[4]};
    for (u64 i = 0; i < rounds; i++) {
        mix(a, constant_bytes[i]);
        a[0] = arrange(a[0], 11, byte_places[0]);
        a[1] = arrange(a[1], 4, byte_places[1]);
        a[2] = arrange(a[2], 10, byte_places[2]);
        a[3] = arrange(a[3], 7, byte_places[3]);
        a[4] = arrange(a[4], 5, byte_places[4]);
    }
    for (int j = 0; j < 5; j++) s[j] = a[j];
}

/* The same with step 4 as the proved engine has it: rotations of the whole word, each cut down to a mask. */
struct term {
    unsigned k;
    u64 mask;
};

static const struct term terms[5][7] = {
    {{3, 0x0000E00000FF1F00}, {11, 0xFF00001FFF000000}, {19, 0x00001F0000000000}, {27, 0x00E0000000000000},
     {43, 0x001F000000000000}, {51, 0x000000000000E0FF}, {59, 0x000000E000000000}},
    {{4, 0x00000000000000FF}, {20, 0x00000000F0000000}, {36, 0xF0FF00000F000000}, {44, 0x000000F000F0FF00},
     {52, 0x0F00000000000000}, {60, 0x0000FF0F000F0000}, {0, 0}},
    {{2, 0x000000000000C000}, {10, 0x003F0000FFC00000}, {18, 0x0000C00000003F00}, {26, 0xFF000000003F0000},
     {34, 0x00003FFF00000000}, {50, 0x00000000000000FF}, {58, 0x00C0000000000000}},
    {{7, 0xFEFFFE0001000000}, {15, 0x0000000000FE0000}, {23, 0x01000100000000FF}, {31, 0x000000000001FF00},
     {39, 0x000000FF00000000}, {55, 0x00000000FE000000}, {0, 0}},
    {{5, 0x0000F80000000000}, {13, 0x00000007000000F8}, {21, 0x0000070000000000}, {29, 0x0000000000000007},
     {37, 0x00FF000000000000}, {45, 0xFF000000FFF8FF00}, {61, 0x000000F800070000}},
};

static inline u64 gather(u64 x, const struct term t[7]) {
    u64 r = 0;
    for (int i = 0; i < 7; i++) r ^= rotate(x, t[i].k) & t[i].mask;
    return r;
}

void masked_turn(u64 *s, u64 rounds) {
    u64 a[5] = {s[0], s[1], s[2], s[3], s[4]};
    for (u64 i = 0; i < rounds; i++) {
        mix(a, constant_bytes[i]);
        for (int j = 0; j < 5; j++) a[j] = gather(a[j], terms[j]);
    }
    for (int j = 0; j < 5; j++) s[j] = a[j];
}

/* Sealing at 64 bits, a block at a time. */
static u64 load(const u8 *bytes, u64 length) {
    u64 x = 0;
    __builtin_memcpy(&x, bytes, length);
    return x;
}

static void absorb(u64 s[5], u64 block, u64 domain, u64 rounds) {
    s[0] ^= block;
    s[4] ^= (domain & 1) << 63 | (domain >> 1 & 1) << 62 | (domain >> 2 & 1) << 61;
    scalar_turn(s, rounds);
}

/* A padded message; its sealed blocks go to `sealed`, where there is such a place. */
static void absorb_message(u64 s[5], const u8 *bytes, u64 length, u64 domain, u64 last, u8 *sealed) {
    for (; length >= 8; bytes += 8, length -= 8) {
        u64 block = load(bytes, 8), out = s[0] ^ block;
        if (sealed) __builtin_memcpy(sealed, &out, 8), sealed += 8;
        absorb(s, block, domain, 7);
    }
    u64 block = load(bytes, length) | 1ul << 8 * length, out = s[0] ^ block;
    if (sealed) __builtin_memcpy(sealed, &out, length);
    absorb(s, block, last, 7);
}

void scalar_seal(const u8 *key, const u8 *nonce, const u8 *label, u64 label_length, const u8 *text, u64 length, u8 *sealed,
                 u8 *tag) {
    u64 k0 = load(key, 8), k1 = load(key + 8, 8);
    u64 s[5] = {k0, k1, load(nonce, 8), load(nonce + 8, 8), 0};
    scalar_turn(s, 14);
    absorb(s, k0, 0, 14);
    absorb(s, k1, 1, 14);
    if (label_length) absorb_message(s, label, label_length, 1, 2, 0);
    absorb_message(s, text, length, 2, 4, sealed);
    absorb(s, k0, 4, 14);
    absorb(s, k1, 4, 14);
    __builtin_memcpy(tag, s + 2, 16);
}
