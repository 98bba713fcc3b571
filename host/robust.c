/* Random calls through the C interface: random arguments, random and damaged books, random and damaged stores. Every call returns,
 * with an answer that its comment in piecrag.h names; no byte beside a lent block changes; the deepest stack is told on standard error.
 *
 *   robust [COUNT [SEED [plain]]]
 *
 * With `plain` the calls are made on the program's own stack, which valgrind understands, and none is measured. */
#define _POSIX_C_SOURCE 200809L
#include <pthread.h>
#include <stdio.h>
#include <stdlib.h>
#include <string.h>
#include "piecrag.h"

#define CANARY 0xC7
#define EDGE 256 /* bytes of canary on either side of a block */

/* ---- chance */
static uint64_t seed = 1;

static uint32_t any(void)
{
    seed ^= seed << 13;
    seed ^= seed >> 7;
    seed ^= seed << 17;
    return (uint32_t)(seed >> 16);
}

/* small, at a border, or any */
static uint32_t number(void)
{
    uint32_t r = any() % 8;
    return r == 0 ? any() : r == 1 ? 0xFFFFFFFFu - any() % 3 : any() % 70;
}

static uint64_t wide(void)
{
    uint32_t r = any() % 8;
    return r == 0 ? ((uint64_t)any() << 32) + any() : r == 1 ? UINT64_MAX - any() % 300 : any() % 70;
}

static float real(void)
{
    uint32_t r = any() % 4, b = any();
    float x;
    memcpy(&x, &b, sizeof x);
    return r == 0 ? x : r == 1 ? 0.0f : (float)(any() % 50000);
}

/* ---- lent blocks: each stands in an arena of its own, all the rest of which is canary */
struct block { unsigned char *arena; size_t size, bytes; };
#define ARENA 40000
#define BLOCKS 8
static unsigned char *arenas;
static struct block lent[BLOCKS];
static unsigned used;

static void *lend(size_t bytes)
{
    struct block *b = &lent[used];
    b->arena = arenas + used++ * (size_t)ARENA;
    b->bytes = bytes;
    b->size = (bytes + 7) / 8 * 8 + 2 * EDGE;
    memset(b->arena, CANARY, b->size);
    return b->arena + EDGE;
}

static int spilled(const struct block *b)
{
    size_t i;
    for (i = 0; i < EDGE; i++)
        if (b->arena[i] != CANARY)
            return 1;
    for (i = EDGE + b->bytes; i < b->size; i++)
        if (b->arena[i] != CANARY)
            return 1;
    return 0;
}

static void *filled(size_t bytes)
{
    unsigned char *at = lend(bytes);
    size_t i;
    for (i = 0; i < bytes; i++)
        at[i] = (unsigned char)any();
    return at;
}

/* ---- the store: its parts stand in one run, canaries between them */
enum { STATE, NODES, EDGES, ORDER, VOICES, EVENTS, STEALS, WAITING, WISHES, SEAL, PARTS };
static const size_t words[PARTS] = {PIECRAG_STATE_WORDS, PIECRAG_NODE_WORDS, PIECRAG_EDGE_WORDS, PIECRAG_ORDER_WORDS, PIECRAG_VOICE_WORDS,
                                    PIECRAG_EVENT_WORDS, PIECRAG_STEAL_WORDS, PIECRAG_WAITING_WORDS, PIECRAG_WISH_WORDS,
                                    PIECRAG_SEAL_WORDS};
static struct block part[PARTS];
static uint32_t *at[PARTS];

static void lay_out(void)
{
    int p;
    for (p = 0; p < PARTS; p++) {
        part[p].bytes = words[p] * 4;
        part[p].size = part[p].bytes + 2 * EDGE;
        part[p].arena = malloc(part[p].size);
        memset(part[p].arena, CANARY, part[p].size);
        at[p] = (uint32_t *)(void *)(part[p].arena + EDGE);
    }
}

static void random_words(void)
{
    int p;
    size_t i;
    for (p = 0; p < PARTS; p++)
        for (i = 0; i < words[p]; i++)
            at[p][i] = number();
    if (any() % 4)
        memset(at[SEAL], 0, part[SEAL].bytes);
}

/* ---- books: a good one, one with a few bytes changed, or any bytes */
static size_t good_book(unsigned char *b)
{
    size_t n = 0, i, nodes = 1 + any() % 3;
    unsigned char head[6] = {6, 0, 1, 0, 0, 0};
    head[4] = (unsigned char)nodes;
    head[5] = (unsigned char)(any() % nodes);
    memcpy(b, head, 6);
    n = 6;
    for (i = 0; i < nodes; i++) {
        unsigned char row[27] = {27, 0, 2, 0, 3, 'M', 'u', 'l'};
        row[21] = 2;
        row[23] = 3;
        row[24] = row[25] = row[26] = 255;
        memcpy(b + n, row, 27);
        n += 27;
    }
    for (i = 1; i < nodes; i++) {
        unsigned char row[7] = {7, 0, 3, 0, 0, 0, 0};
        row[4] = (unsigned char)(i - 1);
        row[5] = (unsigned char)i;
        memcpy(b + n, row, 7);
        n += 7;
    }
    {
        unsigned char row[22] = {22, 0, 4, 0, 4, 'g', 'a', 't', 'e'};
        memcpy(b + n, row, 22);
        n += 22;
    }
    return n;
}

static const uint8_t *book(size_t *length)
{
    unsigned char made[256];
    uint32_t r = any() % 4;
    unsigned char *b;
    *length = good_book(made);
    if (r == 0)
        return filled(*length = any() % 300);
    b = lend(*length);
    memcpy(b, made, *length);
    if (r == 1)
        b[any() % *length] = (unsigned char)any();
    return b;
}

static const uint8_t *name(size_t *length)
{
    uint32_t r = any() % 3;
    uint8_t *b;
    if (r == 0)
        return filled(*length = any() % 20);
    *length = 4;
    b = lend(4);
    memcpy(b, r == 1 ? "gate" : "none", 4);
    return b;
}

/* channels, and a block of that many times 128 samples, or of any length */
static float *samples(size_t *length, size_t *channels, size_t most)
{
    *channels = any() % 5 ? 1 + any() % 2 : number();
    *length = any() % 5 ? (*channels <= most ? *channels : most) * 128 : any() % 300;
    return filled(*length * 4);
}

static void small_samples(int32_t *x, size_t n)
{
    size_t i;
    if (any() % 8)
        for (i = 0; i < n; i++)
            x[i] = (int32_t)(any() % 16777216) - 8388608;
}

/* ---- the calls: each returns its answer */
#define S at[STATE]
#define N at[NODES]
#define E at[EDGES]
#define O at[ORDER]
#define V at[VOICES]
#define W at[EVENTS]
#define L at[STEALS]
#define Q at[WAITING]
#define H at[WISHES]
#define X at[SEAL]

/* 41 calls, of which scheduling has four sorts and the spawn two */
enum { MANAGED = 42, UNMANAGED, WISH, CALLS };

static uint32_t host_call(uint32_t which)
{
    size_t n;
    const uint8_t *b = name(&n);
    switch (which) {
    case 0: return piecrag_make(S, any() % 3 ? 48000.0f : real(), any() % 3 ? 128 : number(), any() % 3, any() % 3 ? any() % 9 : number(), number(), number(), any() % 2);
    case 1: return piecrag_prepare(S, N, E, O);
    default: /* 2 to 4: a value, a glide, a gate; 5: any number that is a free */
        return piecrag_schedule(S, W, wide(), wide(), b, n, which < 5 ? which - 2 : number() | 4, real(), real(), number(), real(), number());
    }
}

static uint32_t voice_call(uint32_t which)
{
    size_t n, m, channels;
    const uint8_t *b = name(&n);
    switch (which) {
    case 6: return piecrag_free_voice(S, N, E, V, wide());
    case 7: return piecrag_free_done_synths(S, N, E, V, filled(8));
    case 8: return piecrag_set_voice_param(S, N, V, wide(), b, n, real());
    case 9: return piecrag_set_voice_param_glide(S, N, V, wide(), b, n, real(), real(), number(), real(), number());
    case 10: {
        const float *x = samples(&m, &channels, 2);
        return piecrag_report(S, N, V, number(), channels, x, m, any() % 2);
    }
    default:
        m = any() % 8 ? 256 + any() % 3 : any() % 300;
        return piecrag_render(S, N, E, O, V, W, filled(m), m, filled(4), filled(8));
    }
}

static uint32_t read_call(uint32_t which)
{
    size_t n;
    switch (which) {
    case 12: return piecrag_voice_level(S, N, V, wide(), filled(4), filled(4));
    case 13: return piecrag_fade_position(S, V, wide(), filled(4), filled(8));
    case 14: return piecrag_voice(S, V, wide(), filled(4), filled(PIECRAG_VOICE_RECORD_WORDS * 4));
    case 15: return piecrag_voice_at(S, V, wide(), filled(4), filled(PIECRAG_VOICE_RECORD_WORDS * 4));
    case 16: return piecrag_node_record(S, N, number(), filled(4), filled(PIECRAG_NODE_RECORD_WORDS * 4));
    case 17: return piecrag_voices(S, V, filled(8));
    case 18: return piecrag_edges(S, E, filled(8));
    case 19: return piecrag_processing_order(S, O, filled(8));
    case 20: return piecrag_edge_at(S, E, wide(), filled(4), filled(PIECRAG_EDGE_RECORD_WORDS * 4));
    case 21: return piecrag_source(S, E, number(), number(), filled(4), filled(4));
    case 22: return piecrag_clock(S, filled(8));
    case 23: return piecrag_steals(S, L, filled(8), filled(8));
    case 24: return piecrag_steal_at(S, L, number(), filled(4), filled(8), filled(4), filled(4), filled(4));
    case 25: return piecrag_busiest_steals(S, L, wide(), filled(8), filled(8));
    default:
        n = any() % 2 ? any() % 5000 : any() % 300;
        return piecrag_page(S, E, V, filled(n), n, filled(8));
    }
}

/* counts of channels, and blocks of that many in all */
static size_t *inputs(size_t *counts, size_t *length)
{
    size_t i, *c;
    *counts = any() % 8 ? any() % 20 : any() % 70;
    *length = 0;
    c = lend(*counts * sizeof *c);
    for (i = 0; i < *counts; i++) {
        c[i] = any() % 40 ? 1 + any() % 2 : number();
        *length += c[i] % 4 * 128;
    }
    if (*length > 9000 || any() % 8 == 0)
        *length = any() % 300;
    return c;
}

static uint32_t mix_call(uint32_t which)
{
    size_t n, ins, g = any() % 3 ? 240 + any() % 9 : any() % 300, outs, m, counts, i;
    float *out = samples(&m, &outs, 2);
    size_t *c;
    int32_t *x;
    uint32_t *gains;
    if (which == 27) {
        const float *in = samples(&n, &ins, 2);
        return piecrag_fade_output(S, in, n, ins, filled(g * 4), g, wide(), out, m, outs);
    }
    if (which == 28) {
        c = inputs(&counts, &n);
        return piecrag_bus_sum(S, filled(n * 4), n, c, counts, out, m, outs);
    }
    if (which == 29) {
        x = (int32_t *)(void *)samples(&n, &ins, 2);
        small_samples(x, n);
        gains = filled(g * 4);
        for (i = 0; i < g; i++)
            gains[i] %= any() % 500 ? 16777217 : 16777220;
        return piecrag_whole_fade_output(S, x, n, ins, gains, g, wide(), (int32_t *)(void *)out, m, outs);
    }
    c = inputs(&counts, &n);
    x = filled(n * 4);
    small_samples(x, n);
    return piecrag_whole_bus_sum(S, x, n, c, counts, (int32_t *)(void *)out, m, outs);
}

static size_t keyboard(void)
{
    return any() % 8 ? any() % 9 : wide();
}

static uint32_t console_call(uint32_t which)
{
    switch (which) {
    case 31: return piecrag_make_console(S, Q, any() % 3 ? 48000.0f : real(), any() % 3 ? 128 : number(), any() % 3, any() % 3 ? any() % 9 : number(), number(), number(), any() % 2, keyboard());
    case 32: return piecrag_turn(S, N, E, V, L, Q, H, filled(8), filled(8));
    case 33: return piecrag_keyboard_count(Q, filled(8));
    case 34: return piecrag_waiting_count(Q, keyboard(), filled(8));
    default: return piecrag_next_keyboard(Q, filled(4), filled(8));
    }
}

/* what the builder of a board states: the first row of its nodes for the bus, and what else is there, or any numbers */
static uint32_t seal(void)
{
    size_t n;
    piecrag_edges(S, E, &n);
    if (any() % 2)
        return piecrag_seal(X, S, N, E, V, Q, number(), wide(), wide(), wide(), wide(), wide());
    return piecrag_seal(X, S, N, E, V, Q, N[PIECRAG_NODE_ID], N[PIECRAG_NODE_PORTS], 4, n, any() % 6, any() % 6);
}

/* the calls that a seal may close; the spawn is of two sorts */
static uint32_t board_call(uint32_t which)
{
    size_t n;
    const uint8_t *b = which < 42 ? name(&n) : book(&n);
    uint32_t bus = any() % 2 ? number() : N[PIECRAG_NODE_ID];
    switch (which) {
    case 36: return seal();
    case 37: return piecrag_add_node(X, S, N, b, n, number(), any() % 4 ? 0 : wide(), any() % 2, any() % 2, filled(4));
    case 38: return piecrag_remove_node(X, S, N, E, number());
    case 39: return piecrag_connect(X, S, N, E, number(), number(), number());
    case 40: return piecrag_disconnect(X, S, N, E, number(), number());
    case 41: return piecrag_set_sink(X, S, N, number());
    case MANAGED: return piecrag_spawn(X, S, N, E, V, L, 1 + any() % 3, b, n, bus, real(), any() % 9, filled(8));
    case UNMANAGED: return piecrag_spawn(X, S, N, E, V, L, 0, b, n, bus, real(), any() % 9, filled(8));
    default: return piecrag_wish(X, Q, H, keyboard(), any() % 4, b, n, bus, real(), any() % 9);
    }
}

static uint32_t call(uint32_t which)
{
    used = 0;
    if (which < 12)
        return which < 6 ? host_call(which) : voice_call(which);
    if (which < 31)
        return which < 27 ? read_call(which) : mix_call(which);
    return which < 36 ? console_call(which) : board_call(which);
}

/* what a call may answer, bit by bit; an empty turn has the last bit */
#define BIT(n) (UINT32_C(1) << (n))
#define EMPTY 31

static uint32_t bit_of(uint32_t k)
{
    return k == PIECRAG_TURN_EMPTY ? EMPTY : k < EMPTY ? k : 32;
}

static uint32_t allowed(uint32_t which)
{
    const uint32_t spawn = BIT(0) | BIT(28) | BIT(18) | BIT(9) | BIT(4) | BIT(5) | BIT(10) | BIT(7) | BIT(8) | BIT(12) | BIT(26);
    switch (which) {
    case 0: return BIT(0) | BIT(1) | BIT(2) | BIT(3) | BIT(20);
    case 1: return BIT(0) | BIT(13) | BIT(14);
    case 2: case 3: case 4: case 5: return BIT(0) | BIT(7);
    case 6: return BIT(0) | BIT(1);
    case 8: case 9: return BIT(0) | BIT(1) | BIT(2) | BIT(3);
    case 10: return BIT(0) | BIT(4) | BIT(16);
    case 11: return BIT(0) | BIT(13) | BIT(14) | BIT(15) | BIT(17);
    case 25: return BIT(0) | BIT(22) | BIT(23);
    case 26: return BIT(0) | BIT(17);
    case 27: case 28: return BIT(0) | BIT(16);
    case 29: case 30: return BIT(0) | BIT(16) | BIT(21);
    case 31: return BIT(0) | BIT(1) | BIT(2) | BIT(3) | BIT(20) | BIT(24);
    case 32: return (spawn & ~(BIT(18) | BIT(28))) | BIT(11) | BIT(EMPTY);
    case 36: return BIT(0) | BIT(27) | BIT(28);
    case 37: return BIT(0) | BIT(28) | BIT(6) | BIT(7) | BIT(8);
    case 38: case 41: return BIT(0) | BIT(28) | BIT(4) | BIT(5);
    case 39: return BIT(0) | BIT(28) | BIT(4) | BIT(5) | BIT(6) | BIT(7);
    case 40: return BIT(0) | BIT(28) | BIT(4) | BIT(5) | BIT(6);
    case MANAGED: return spawn | BIT(11);
    case UNMANAGED: return spawn;
    case WISH: return BIT(0) | BIT(28) | BIT(18) | BIT(24) | BIT(25);
    default: return BIT(0);
    }
}

/* a store as calls make it, with some keyboards: a bus that is heard, and whatever follows */
static void console(void)
{
    uint32_t id, i;
    memset(X, 0, PIECRAG_SEAL_WORDS * 4);
    piecrag_make_console(S, Q, 48000.0f, 128, any() % 2, any() % 9, any() % 4, any() % 2, any() % 2, 1 + any() % 8);
    for (i = 0; i < 4; i++)
        piecrag_add_node(X, S, N, (const uint8_t *)"Bus", 3, 1 + any() % 9, 0, 0, 0, &id);
    piecrag_set_sink(X, S, N, 0);
    if (any() % 4 == 0)
        seal();
}

static unsigned long count = 1000000, told[CALLS][32], failed;
static char why[100];

static void fail(unsigned long i, uint32_t which, uint32_t k, const char *what)
{
    failed = i + 1;
    snprintf(why, sizeof why, "call %lu, of sort %u: %s (answer %u)", i, (unsigned)which, what, (unsigned)k);
}

/* every 1,000 calls another store: of any words, as calls make it, or that with some words changed */
static void refresh(unsigned long i)
{
    uint32_t r = any() % 3, n;
    if (r == 0 || i == 0)
        random_words();
    if (r != 0)
        console();
    for (n = r == 2 ? 40 : 0; n; n--) {
        int p = (int)(any() % PARTS);
        at[p][any() % (any() % 2 ? words[p] : (words[p] + 15) / 16)] = number();
    }
}

/* making is rare: it empties the store; so is sealing: it closes the board. Spawns are frequent */
static uint32_t chosen(void)
{
    uint32_t which = any() % (CALLS + 6);
    if (which >= CALLS || ((which == 0 || which == 36) && any() % 20))
        return any() % 2 ? MANAGED : UNMANAGED;
    return which == 31 && any() % 20 ? WISH : which;
}

static void *work(void *unused)
{
    unsigned long i;
    unsigned p;
    for (i = 0; i < count && !failed; i++) {
        uint32_t which = chosen(), k;
        if (i % 1000 == 0)
            refresh(i);
        k = call(which);
        if (bit_of(k) > 31 || !(allowed(which) >> bit_of(k) & 1))
            fail(i, which, k, "an answer that it may not give");
        else
            told[which][bit_of(k)]++;
        for (p = 0; p < PARTS; p++)
            if (spilled(&part[p]))
                fail(i, which, k, "wrote beside a part of the store");
        for (p = 0; p < used; p++)
            if (spilled(&lent[p]))
                fail(i, which, k, "wrote beside a lent block");
    }
    return unused;
}

/* ---- the stack: painted, then looked at from its far end */
#define STACK (1 << 20)
#define PAINT 0x5A

static size_t deepest(unsigned long calls)
{
    static unsigned char *stack;
    unsigned long all = count;
    pthread_attr_t a;
    pthread_t t;
    void *base = 0;
    size_t i = 0;
    if (!stack && posix_memalign(&base, 4096, STACK))
        exit(1);
    stack = stack ? stack : base;
    memset(stack, PAINT, STACK);
    count = calls;
    if (pthread_attr_init(&a) || pthread_attr_setstack(&a, stack, STACK) || pthread_create(&t, &a, work, 0) || pthread_join(t, 0))
        exit(1);
    count = all;
    while (i < STACK && stack[i] == PAINT)
        i++;
    return STACK - i;
}

int main(int argc, char **argv)
{
    size_t own, all;
    unsigned k, which;
    if (argc > 1)
        count = strtoul(argv[1], 0, 10);
    if (argc > 2)
        seed = strtoull(argv[2], 0, 10) * 2 + 1;
    arenas = malloc((size_t)ARENA * BLOCKS);
    lay_out();
    own = argc > 3 ? 0 : deepest(0);
    all = argc > 3 ? 0 : deepest(count);
    if (argc > 3)
        work(0);
    if (failed) {
        printf("%s\n", why);
        return 1;
    }
    printf("%lu calls returned, no canary touched, every answer is one of its call's\n", count);
    for (k = 0; k < 32; k++) {
        unsigned long n = 0;
        for (which = 0; which < CALLS; which++)
            n += told[which][k];
        if (n)
            printf("answer %u: %lu\n", k == EMPTY ? PIECRAG_TURN_EMPTY : k, n);
    }
    if (argc <= 3)
        fprintf(stderr, "deepest stack: %lu bytes, beside %lu of the thread's own\n", (unsigned long)(all - own), (unsigned long)own);
    return all - own > 98304;
}
