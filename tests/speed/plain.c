/* FOX64 and FOX128 in plain C: in counter mode by tables one block at a time and four at a time, and by small S-boxes;
 * tags (CMAC) by tables and by small S-boxes. */
#include "plain.h"
#include <string.h>

/* Substitution and diffusion, worked out. */

static const uint8_t small_boxes[3][16] = {
    {2, 5, 1, 9, 14, 10, 12, 8, 6, 4, 7, 15, 13, 11, 0, 3},
    {11, 4, 1, 15, 0, 3, 14, 13, 10, 8, 7, 5, 12, 2, 9, 6},
    {13, 10, 11, 1, 4, 3, 8, 9, 5, 7, 2, 12, 15, 0, 6, 14},
};

static inline unsigned or4(unsigned x)
{
    return (x << 2 & 12) | ((x >> 2) ^ (x & 3));
}

static inline uint8_t box(uint8_t x)
{
    unsigned l = x >> 4, r = x & 15;
    unsigned t = small_boxes[0][l ^ r];
    l = or4(l ^ t), r ^= t;
    t = small_boxes[1][l ^ r];
    l = or4(l ^ t), r ^= t;
    t = small_boxes[2][l ^ r];
    return (uint8_t)((l ^ t) << 4 | (r ^ t));
}

static inline uint8_t doubled(uint8_t x)
{
    return (uint8_t)(x << 1 ^ (x >> 7) * 0xF9);
}

/* The product by FC, the inverse of 02. */
static inline uint8_t halved(uint8_t x)
{
    return (uint8_t)(x >> 1 ^ (x & 1) * 0xFC);
}

static inline uint8_t byte4(uint32_t w, int i)
{
    return (uint8_t)(w >> (24 - 8 * i));
}

static inline uint8_t byte8(uint64_t w, int i)
{
    return (uint8_t)(w >> (56 - 8 * i));
}

static inline uint32_t sigma4(uint32_t w)
{
    uint32_t y = 0;
    for (int i = 0; i < 4; i++)
        y = y << 8 | box(byte4(w, i));
    return y;
}

static inline uint64_t sigma8(uint64_t w)
{
    uint64_t y = 0;
    for (int i = 0; i < 8; i++)
        y = y << 8 | box(byte8(w, i));
    return y;
}

static inline uint32_t join4(uint8_t a, uint8_t b, uint8_t c, uint8_t d)
{
    return (uint32_t)a << 24 | (uint32_t)b << 16 | (uint32_t)c << 8 | d;
}

/* FD is FC + 01: its product is half of the byte, and the byte, which `sum` has already. */
static inline uint32_t mu4(uint32_t w)
{
    uint8_t a = byte4(w, 0), b = byte4(w, 1), c = byte4(w, 2), d = byte4(w, 3);
    uint8_t sum = a ^ b ^ c ^ d;
    return join4(sum ^ d ^ doubled(d), sum ^ halved(b) ^ c ^ doubled(c), sum ^ halved(a) ^ b ^ doubled(b),
                 sum ^ a ^ doubled(a) ^ halved(c));
}

/* Rows 1 to 7 of the matrix have the products by 01, 03, 82, 02, 04, FC and 7E one place further in each column. */
static inline uint64_t mu8(uint64_t w)
{
    uint8_t last = byte8(w, 7), y[7] = {0}, sum = last ^ doubled(last);
    for (int j = 0; j < 7; j++) {
        uint8_t x = byte8(w, j), two = doubled(x), half = halved(x), quarter = halved(half);
        uint8_t products[7] = {x, x ^ two, half ^ quarter, two, doubled(two), half, quarter};
        sum ^= x;
        for (int i = 0; i < 7; i++)
            y[i] ^= products[(i + j) % 7];
    }
    uint64_t all = sum;
    for (int i = 0; i < 7; i++)
        all = all << 8 | (uint8_t)(y[i] ^ last);
    return all;
}

uint8_t plain_box(uint8_t x)
{
    return box(x);
}

uint32_t plain_mu4(uint32_t w)
{
    return mu4(w);
}

uint64_t plain_mu8(uint64_t w)
{
    return mu8(w);
}

/* The round function worked out, and the rounds over it and over tables. A state goes by its address: handed over by
 * value, its two words would be packed into one register and taken apart again in each round. */

struct state64 {
    uint32_t l, r;
};

struct state128 {
    uint32_t a, b, c, d;
};

static inline uint32_t turned(uint32_t w)
{
    return (w << 16 | w >> 16) ^ (w & 0xFFFF);
}

static inline void add64(struct state64 *s, uint32_t f)
{
    s->l ^= f;
    s->r ^= f;
}

static inline void add128(struct state128 *s, uint64_t f)
{
    s->a ^= (uint32_t)(f >> 32);
    s->b ^= (uint32_t)(f >> 32);
    s->c ^= (uint32_t)f;
    s->d ^= (uint32_t)f;
}

static inline void turn64(struct state64 *s)
{
    s->l = turned(s->l);
}

static inline void turn128(struct state128 *s)
{
    s->a = turned(s->a);
    s->c = turned(s->c);
}

static inline uint64_t folded(const struct state128 *s)
{
    return (uint64_t)(s->a ^ s->b) << 32 | (s->c ^ s->d);
}

static inline void small64(struct state64 *s, uint64_t key)
{
    uint32_t left = (uint32_t)(key >> 32), right = (uint32_t)key;
    add64(s, sigma4(mu4(sigma4(s->l ^ s->r ^ left)) ^ right) ^ left);
}

static inline void small128(struct state128 *s, uint64_t left, uint64_t right)
{
    add128(s, sigma8(mu8(sigma8(folded(s) ^ left)) ^ right) ^ left);
}

static uint32_t joined4[4][256], moved4[4][256];
static uint64_t joined8[8][256], moved8[8][256];

void plain_tables(void)
{
    for (int x = 0; x < 256; x++) {
        for (int i = 0; i < 4; i++) {
            moved4[i][x] = (uint32_t)box((uint8_t)x) << (24 - 8 * i);
            joined4[i][x] = mu4(moved4[i][x]);
        }
        for (int i = 0; i < 8; i++) {
            moved8[i][x] = (uint64_t)box((uint8_t)x) << (56 - 8 * i);
            joined8[i][x] = mu8(moved8[i][x]);
        }
    }
}

static inline uint32_t look4(uint32_t table[4][256], uint32_t w)
{
    return table[0][w >> 24] ^ table[1][w >> 16 & 255] ^ table[2][w >> 8 & 255] ^ table[3][w & 255];
}

static inline uint64_t look8(uint64_t table[8][256], uint64_t w)
{
    return table[0][w >> 56] ^ table[1][w >> 48 & 255] ^ table[2][w >> 40 & 255] ^ table[3][w >> 32 & 255] ^
           table[4][w >> 24 & 255] ^ table[5][w >> 16 & 255] ^ table[6][w >> 8 & 255] ^ table[7][w & 255];
}

static inline void round64(struct state64 *s, uint64_t key)
{
    uint32_t left = (uint32_t)(key >> 32), right = (uint32_t)key;
    add64(s, look4(moved4, look4(joined4, s->l ^ s->r ^ left) ^ right) ^ left);
}

static inline void round128(struct state128 *s, uint64_t left, uint64_t right)
{
    add128(s, look8(moved8, look8(joined8, folded(s) ^ left) ^ right) ^ left);
}

/* Key schedules. The register stands at the value of the next group of three bytes. */

static const uint8_t pad[32] = {
    0xB7, 0xE1, 0x51, 0x62, 0x8A, 0xED, 0x2A, 0x6A, 0xBF, 0x71, 0x58, 0x80, 0x9C, 0xF4, 0xF3, 0xC7,
    0x62, 0xE7, 0x16, 0x0F, 0x38, 0xB4, 0xDA, 0x56, 0xA7, 0x84, 0xD9, 0x04, 0x51, 0x90, 0xCF, 0xEF,
};

struct mixed {
    uint32_t cipher, rounds;
    size_t size;
    int full;
    uint8_t bytes[32];
};

static struct mixed mixed_of(uint32_t cipher, uint32_t rounds, const uint8_t *key, size_t key_len)
{
    struct mixed m = {.cipher = cipher, .rounds = rounds, .size = cipher == 64 && key_len <= 16 ? 16 : 32};
    m.full = key_len == m.size;
    if (key_len > 0)
        memcpy(m.bytes, key, key_len);
    memcpy(m.bytes + key_len, pad, m.size - key_len);
    uint8_t before = 0x6A, last = 0x76;
    for (size_t i = 0; !m.full && i < m.size; i++) {
        m.bytes[i] ^= (uint8_t)(last + before);
        before = last;
        last = m.bytes[i];
    }
    return m;
}

static inline uint32_t first_register(uint32_t rounds)
{
    return 0x6A0000 | rounds << 8 | (rounds ^ 0xFF);
}

static inline void diversify(const struct mixed *m, uint32_t *reg, uint8_t *bytes)
{
    for (size_t i = 0; i < m->size; i++) {
        bytes[i] = m->bytes[i] ^ (uint8_t)(*reg >> (16 - 8 * (i % 3)));
        if (i % 3 == 2 || i + 1 == m->size)
            *reg = *reg << 1 ^ (*reg >> 23) * 0x100001B;
    }
}

static inline uint32_t load4(const uint8_t *p)
{
    return join4(p[0], p[1], p[2], p[3]);
}

static inline uint64_t load8(const uint8_t *p)
{
    return (uint64_t)load4(p) << 32 | load4(p + 4);
}

/* Substitution, diffusion, mixing, the constant and substitution again, for either schedule of FOX64. `count` words
 * make up four quarters. */
static inline void nonlinear4(uint32_t *t, const uint8_t *bytes, int count, int full)
{
    uint32_t sum[2] = {0, 0};
    int last = count / 4 - 1; /* A quarter is one word or two, so this masks the place in it, and nothing is divided. */
    for (int i = 0; i < count; i++) {
        t[i] = mu4(sigma4(load4(bytes + 4 * i)));
        sum[i & last] ^= t[i];
    }
    for (int i = 0; i < count; i++)
        t[i] = sigma4(t[i] ^ sum[i & last] ^ load4(pad + 4 * i) ^ (full ? UINT32_MAX : 0));
}

static inline uint64_t round_key64(const struct mixed *m, uint32_t *reg)
{
    uint8_t bytes[32];
    uint32_t t[8];
    struct state64 s;
    diversify(m, reg, bytes);
    nonlinear4(t, bytes, (int)(m->size / 4), m->full);
    if (m->size == 16)
        s = (struct state64){t[0] ^ t[2], t[1] ^ t[3]};
    else
        s = (struct state64){t[0] ^ t[1] ^ t[4] ^ t[5], t[2] ^ t[3] ^ t[6] ^ t[7]};
    size_t at = 0;
    for (; at + 8 < m->size; at += 8) {
        small64(&s, load8(bytes + at));
        turn64(&s);
    }
    small64(&s, load8(bytes + at));
    return (uint64_t)s.l << 32 | s.r;
}

static inline void round_key128(const struct mixed *m, uint32_t *reg, uint64_t *key)
{
    uint8_t bytes[32];
    uint64_t t[4], sum = 0;
    diversify(m, reg, bytes);
    for (int i = 0; i < 4; i++) {
        t[i] = mu8(sigma8(load8(bytes + 8 * i)));
        sum ^= t[i];
    }
    for (int i = 0; i < 4; i++)
        t[i] = sigma8(t[i] ^ sum ^ load8(pad + 8 * i) ^ (m->full ? UINT64_MAX : 0));
    uint64_t left = t[0] ^ t[2], right = t[1] ^ t[3];
    struct state128 s = {(uint32_t)(left >> 32), (uint32_t)left, (uint32_t)(right >> 32), (uint32_t)right};
    small128(&s, load8(bytes), load8(bytes + 8));
    turn128(&s);
    small128(&s, load8(bytes + 16), load8(bytes + 24));
    key[0] = (uint64_t)s.a << 32 | s.b;
    key[1] = (uint64_t)s.c << 32 | s.d;
}

void plain_prepare(struct plain_key *prepared, uint32_t cipher, uint32_t rounds, const uint8_t *key, size_t key_len)
{
    struct mixed m = mixed_of(cipher, rounds, key, key_len);
    uint32_t reg = first_register(rounds);
    memset(prepared, 0, sizeof *prepared);
    prepared->cipher = cipher;
    prepared->rounds = rounds;
    for (uint32_t i = 0; i < rounds; i++)
        if (cipher == 64)
            prepared->keys[i] = round_key64(&m, &reg);
        else
            round_key128(&m, &reg, prepared->keys + 2 * i);
}

/* Blocks sealed: by tables, four by tables, and by small S-boxes. */

static inline void seal64(const struct plain_key *k, struct state64 *s)
{
    struct state64 a = *s;
    uint32_t i = 0;
    for (; i + 1 < k->rounds; i++) {
        round64(&a, k->keys[i]);
        turn64(&a);
    }
    round64(&a, k->keys[i]);
    *s = a;
}

static inline void seal128(const struct plain_key *k, struct state128 *s)
{
    struct state128 a = *s;
    uint32_t i = 0;
    for (; i + 1 < k->rounds; i++) {
        round128(&a, k->keys[2 * i], k->keys[2 * i + 1]);
        turn128(&a);
    }
    round128(&a, k->keys[2 * i], k->keys[2 * i + 1]);
    *s = a;
}

static inline void seal64_four(const struct plain_key *k, struct state64 *s)
{
    struct state64 a = s[0], b = s[1], c = s[2], d = s[3];
    uint32_t i = 0;
    for (; i + 1 < k->rounds; i++) {
        round64(&a, k->keys[i]), turn64(&a);
        round64(&b, k->keys[i]), turn64(&b);
        round64(&c, k->keys[i]), turn64(&c);
        round64(&d, k->keys[i]), turn64(&d);
    }
    round64(&a, k->keys[i]);
    round64(&b, k->keys[i]);
    round64(&c, k->keys[i]);
    round64(&d, k->keys[i]);
    s[0] = a, s[1] = b, s[2] = c, s[3] = d;
}

static inline void seal128_four(const struct plain_key *k, struct state128 *s)
{
    struct state128 a = s[0], b = s[1], c = s[2], d = s[3];
    const uint64_t *key = k->keys;
    for (uint32_t i = 1; i < k->rounds; i++, key += 2) {
        round128(&a, key[0], key[1]), turn128(&a);
        round128(&b, key[0], key[1]), turn128(&b);
        round128(&c, key[0], key[1]), turn128(&c);
        round128(&d, key[0], key[1]), turn128(&d);
    }
    round128(&a, key[0], key[1]);
    round128(&b, key[0], key[1]);
    round128(&c, key[0], key[1]);
    round128(&d, key[0], key[1]);
    s[0] = a, s[1] = b, s[2] = c, s[3] = d;
}

static inline void seal64_small(const struct mixed *m, struct state64 *s)
{
    uint32_t reg = first_register(m->rounds);
    for (uint32_t i = 1; i < m->rounds; i++) {
        small64(s, round_key64(m, &reg));
        turn64(s);
    }
    small64(s, round_key64(m, &reg));
}

static inline void seal128_small(const struct mixed *m, struct state128 *s)
{
    uint32_t reg = first_register(m->rounds);
    uint64_t key[2];
    for (uint32_t i = 1; i < m->rounds; i++) {
        round_key128(m, &reg, key);
        small128(s, key[0], key[1]);
        turn128(s);
    }
    round_key128(m, &reg, key);
    small128(s, key[0], key[1]);
}

/* Runs. The counter is one number as wide as the block. */

static inline void count64(struct state64 *s, const uint8_t *counter, uint64_t number)
{
    uint64_t sum = load8(counter) + number;
    s->l = (uint32_t)(sum >> 32);
    s->r = (uint32_t)sum;
}

static inline void count128(struct state128 *s, const uint8_t *counter, uint64_t number)
{
    uint64_t low = load8(counter + 8) + number, high = load8(counter) + (low < number);
    s->a = (uint32_t)(high >> 32);
    s->b = (uint32_t)high;
    s->c = (uint32_t)(low >> 32);
    s->d = (uint32_t)low;
}

static inline void store4(uint8_t *p, uint32_t w)
{
    for (int i = 0; i < 4; i++)
        p[i] = byte4(w, i);
}

static inline void add_to64(const struct state64 *s, const uint8_t *input, uint8_t *out)
{
    store4(out, s->l ^ load4(input));
    store4(out + 4, s->r ^ load4(input + 4));
}

static inline void add_to128(const struct state128 *s, const uint8_t *input, uint8_t *out)
{
    store4(out, s->a ^ load4(input));
    store4(out + 4, s->b ^ load4(input + 4));
    store4(out + 8, s->c ^ load4(input + 8));
    store4(out + 12, s->d ^ load4(input + 12));
}

/* A place in a run: what is left of it begins in block `number`, `inside` bytes after its first. */
struct place {
    const uint8_t *counter, *input;
    uint8_t *out;
    size_t left, inside;
    uint64_t number;
};

static inline struct place place_of(size_t block, const uint8_t *counter, uint64_t offset, const uint8_t *input,
                                    size_t len, uint8_t *out)
{
    return (struct place){counter, input, out, len, offset % block, offset / block};
}

static inline void forward(struct place *p, size_t bytes, uint64_t blocks)
{
    p->input += bytes;
    p->out += bytes;
    p->left -= bytes;
    p->number += blocks;
    p->inside = 0;
}

/* The part of a block with which a stretch begins or ends: its bytes go through a whole block. */
static size_t part_length(const struct place *p, size_t block)
{
    return block - p->inside < p->left ? block - p->inside : p->left;
}

static void write_part64(struct place *p, const struct state64 *s)
{
    uint8_t whole[8] = {0};
    size_t bytes = part_length(p, sizeof whole);
    memcpy(whole + p->inside, p->input, bytes);
    add_to64(s, whole, whole);
    memcpy(p->out, whole + p->inside, bytes);
    forward(p, bytes, 1);
}

static void write_part128(struct place *p, const struct state128 *s)
{
    uint8_t whole[16] = {0};
    size_t bytes = part_length(p, sizeof whole);
    memcpy(whole + p->inside, p->input, bytes);
    add_to128(s, whole, whole);
    memcpy(p->out, whole + p->inside, bytes);
    forward(p, bytes, 1);
}

static void part64(const struct plain_key *k, struct place *p)
{
    struct state64 s;
    count64(&s, p->counter, p->number);
    seal64(k, &s);
    write_part64(p, &s);
}

static void part128(const struct plain_key *k, struct place *p)
{
    struct state128 s;
    count128(&s, p->counter, p->number);
    seal128(k, &s);
    write_part128(p, &s);
}

static void singly64(const struct plain_key *k, struct place *p)
{
    struct state64 s;
    for (; p->left >= 8; forward(p, 8, 1)) {
        count64(&s, p->counter, p->number);
        seal64(k, &s);
        add_to64(&s, p->input, p->out);
    }
    if (p->left > 0)
        part64(k, p);
}

static void singly128(const struct plain_key *k, struct place *p)
{
    struct state128 s;
    for (; p->left >= 16; forward(p, 16, 1)) {
        count128(&s, p->counter, p->number);
        seal128(k, &s);
        add_to128(&s, p->input, p->out);
    }
    if (p->left > 0)
        part128(k, p);
}

static void by_four64(const struct plain_key *k, struct place *p)
{
    struct state64 s[4];
    for (; p->left >= 32; forward(p, 32, 4)) {
        for (int i = 0; i < 4; i++)
            count64(&s[i], p->counter, p->number + i);
        seal64_four(k, s);
        for (int i = 0; i < 4; i++)
            add_to64(&s[i], p->input + 8 * i, p->out + 8 * i);
    }
}

static void by_four128(const struct plain_key *k, struct place *p)
{
    struct state128 s[4];
    for (; p->left >= 64; forward(p, 64, 4)) {
        for (int i = 0; i < 4; i++)
            count128(&s[i], p->counter, p->number + i);
        seal128_four(k, s);
        for (int i = 0; i < 4; i++)
            add_to128(&s[i], p->input + 16 * i, p->out + 16 * i);
    }
}

static void plain_run(const struct plain_key *k, struct place p, int four)
{
    if (k->cipher == 64) {
        if (p.inside > 0)
            part64(k, &p);
        if (four)
            by_four64(k, &p);
        singly64(k, &p);
    } else {
        if (p.inside > 0)
            part128(k, &p);
        if (four)
            by_four128(k, &p);
        singly128(k, &p);
    }
}

void plain_run_one(const struct plain_key *prepared, const uint8_t *counter, uint64_t offset,
                      const uint8_t *input, size_t len, uint8_t *out)
{
    plain_run(prepared, place_of(prepared->cipher / 8, counter, offset, input, len, out), 0);
}

void plain_run_four(const struct plain_key *prepared, const uint8_t *counter, uint64_t offset,
                       const uint8_t *input, size_t len, uint8_t *out)
{
    plain_run(prepared, place_of(prepared->cipher / 8, counter, offset, input, len, out), 1);
}

static void small_part64(const struct mixed *m, struct place *p)
{
    struct state64 s;
    count64(&s, p->counter, p->number);
    seal64_small(m, &s);
    write_part64(p, &s);
}

static void small_part128(const struct mixed *m, struct place *p)
{
    struct state128 s;
    count128(&s, p->counter, p->number);
    seal128_small(m, &s);
    write_part128(p, &s);
}

void plain_run_small(uint32_t cipher, uint32_t rounds, const uint8_t *key, size_t key_len, const uint8_t *counter,
                        uint64_t offset, const uint8_t *input, size_t len, uint8_t *out)
{
    struct mixed m = mixed_of(cipher, rounds, key, key_len);
    struct place p = place_of(cipher / 8, counter, offset, input, len, out);
    while (p.left > 0)
        if (cipher == 64)
            small_part64(&m, &p);
        else
            small_part128(&m, &p);
}

/* Tags: CMAC (SP 800-38B). A message is chained from its first block to its last, so no two blocks go side by side. */

static inline void take64(struct state64 *s, const uint8_t *block)
{
    s->l ^= load4(block);
    s->r ^= load4(block + 4);
}

static inline void take128(struct state128 *s, const uint8_t *block)
{
    s->a ^= load4(block);
    s->b ^= load4(block + 4);
    s->c ^= load4(block + 8);
    s->d ^= load4(block + 12);
}

static void double64(struct state64 *s)
{
    uint32_t carry = s->l >> 31;
    s->l = s->l << 1 | s->r >> 31;
    s->r = s->r << 1 ^ carry * 0x1B;
}

static void double128(struct state128 *s)
{
    uint32_t carry = s->a >> 31;
    s->a = s->a << 1 | s->b >> 31;
    s->b = s->b << 1 | s->c >> 31;
    s->c = s->c << 1 | s->d >> 31;
    s->d = s->d << 1 ^ carry * 0x87;
}

/* The last block of a message, of which `len` bytes are left: as it is where it is whole, otherwise padded. */
static void pad_last(uint8_t *last, size_t block, const uint8_t *message, size_t len)
{
    memset(last, 0, block);
    memcpy(last, message, len);
    if (len < block)
        last[len] = 0x80;
}

/* Takes in the last block with its subkey. `zero` is the zero block sealed: doubled once it is the subkey of a whole
 * block, doubled twice that of a padded one. */
static void take_last64(struct state64 *s, struct state64 zero, const uint8_t *message, size_t len)
{
    uint8_t last[8];
    pad_last(last, sizeof last, message, len);
    double64(&zero);
    if (len < sizeof last)
        double64(&zero);
    take64(s, last);
    s->l ^= zero.l;
    s->r ^= zero.r;
}

static void take_last128(struct state128 *s, struct state128 zero, const uint8_t *message, size_t len)
{
    uint8_t last[16];
    pad_last(last, sizeof last, message, len);
    double128(&zero);
    if (len < sizeof last)
        double128(&zero);
    take128(s, last);
    s->a ^= zero.a;
    s->b ^= zero.b;
    s->c ^= zero.c;
    s->d ^= zero.d;
}

static void write64(const struct state64 *s, uint8_t *out)
{
    store4(out, s->l);
    store4(out + 4, s->r);
}

static void write128(const struct state128 *s, uint8_t *out)
{
    store4(out, s->a);
    store4(out + 4, s->b);
    store4(out + 8, s->c);
    store4(out + 12, s->d);
}

static void tag64(const struct plain_key *k, const uint8_t *chained, const uint8_t *message, size_t len, uint8_t *tag)
{
    struct state64 zero = {0, 0}, s = {0, 0};
    seal64(k, &zero);
    take64(&s, chained);
    for (; len > 8; message += 8, len -= 8) {
        take64(&s, message);
        seal64(k, &s);
    }
    take_last64(&s, zero, message, len);
    seal64(k, &s);
    write64(&s, tag);
}

static void tag128(const struct plain_key *k, const uint8_t *chained, const uint8_t *message, size_t len, uint8_t *tag)
{
    struct state128 zero = {0, 0, 0, 0}, s = {0, 0, 0, 0};
    seal128(k, &zero);
    take128(&s, chained);
    for (; len > 16; message += 16, len -= 16) {
        take128(&s, message);
        seal128(k, &s);
    }
    take_last128(&s, zero, message, len);
    seal128(k, &s);
    write128(&s, tag);
}

void plain_tag_end(const struct plain_key *prepared, const uint8_t *chained, const uint8_t *message, size_t len,
                   uint8_t *tag)
{
    if (prepared->cipher == 64)
        tag64(prepared, chained, message, len, tag);
    else
        tag128(prepared, chained, message, len, tag);
}

void plain_tag(const struct plain_key *prepared, const uint8_t *message, size_t len, uint8_t *tag)
{
    static const uint8_t none[16];
    plain_tag_end(prepared, none, message, len, tag);
}

static void small_tag64(const struct mixed *m, const uint8_t *message, size_t len, uint8_t *tag)
{
    struct state64 zero = {0, 0}, s = {0, 0};
    seal64_small(m, &zero);
    for (; len > 8; message += 8, len -= 8) {
        take64(&s, message);
        seal64_small(m, &s);
    }
    take_last64(&s, zero, message, len);
    seal64_small(m, &s);
    write64(&s, tag);
}

static void small_tag128(const struct mixed *m, const uint8_t *message, size_t len, uint8_t *tag)
{
    struct state128 zero = {0, 0, 0, 0}, s = {0, 0, 0, 0};
    seal128_small(m, &zero);
    for (; len > 16; message += 16, len -= 16) {
        take128(&s, message);
        seal128_small(m, &s);
    }
    take_last128(&s, zero, message, len);
    seal128_small(m, &s);
    write128(&s, tag);
}

void plain_tag_small(uint32_t cipher, uint32_t rounds, const uint8_t *key, size_t key_len, const uint8_t *message,
                     size_t len, uint8_t *tag)
{
    struct mixed m = mixed_of(cipher, rounds, key, key_len);
    if (cipher == 64)
        small_tag64(&m, message, len, tag);
    else
        small_tag128(&m, message, len, tag);
}
