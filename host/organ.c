/* A small console on the voice store: two manuals and a pedal on a bus each, three stops, and a short score with more keys than the
 * budget of a bus. The keys of the manuals are wishes, and each block takes one turn; the pedal's spawn at once. The store decides who
 * sounds on which port, who gives way and who is gone; the tone generators are this program's.
 *
 *   organ WAV SCRIPT TOLD
 *
 * writes the sound to WAV, every call on the store to SCRIPT (docs/REPLAY.md), and to TOLD what each call answered, as `replay` writes
 * it. Prints the page at three places and what became of the score. */
#include <stdarg.h>
#include <stdio.h>
#include <stdlib.h>
#include <string.h>
#include "piecrag.h"

#define RATE 48000
#define BLOCK 128
#define BLOCKS 520
#define BUDGET 4
#define IDS 4096 /* more node ids than the score gives out */

static uint32_t state[PIECRAG_STATE_WORDS], nodes[PIECRAG_NODE_WORDS], edges[PIECRAG_EDGE_WORDS], order[PIECRAG_ORDER_WORDS],
    voices[PIECRAG_VOICE_WORDS], events[PIECRAG_EVENT_WORDS], steals[PIECRAG_STEAL_WORDS], waiting[PIECRAG_WAITING_WORDS],
    wishes[PIECRAG_WISH_WORDS];

/* all 0: this board is never sealed */
static const uint32_t seal[PIECRAG_SEAL_WORDS];

static void check(int fine, const char *what)
{
    if (fine)
        return;
    fprintf(stderr, "organ: %s\n", what);
    exit(1);
}

/* ---- the script, and what the calls answer */
static FILE *script, *told;
static unsigned long calls;

static void put(uint64_t x, int bytes)
{
    for (; bytes; bytes--, x >>= 8)
        putc((int)(x & 255), script);
}

static uint32_t bits(float x)
{
    uint32_t b;
    memcpy(&b, &x, sizeof b);
    return b;
}

static float from_bits(uint32_t b)
{
    float x;
    memcpy(&x, &b, sizeof x);
    return x;
}

static void put_name(const char *name)
{
    put(strlen(name), 1);
    fputs(name, script);
}

static void entry(int sort)
{
    put((uint64_t)sort, 1);
    calls++;
}

static void say(const char *form, ...)
{
    va_list all;
    va_start(all, form);
    vfprintf(told, form, all);
    va_end(all);
}

/* the line of a call that is done or refused */
static uint32_t answer(uint32_t k, const char *done)
{
    if (k)
        say("refused %u\n", (unsigned)k);
    else
        say("%s\n", done);
    return k;
}

/* ---- stops: definitions, as books for the store and as entries of the script */
struct part { const char *kind; uint8_t ports, required, takes; };
struct named { const char *name; uint8_t node; };
struct stop {
    const char *name;
    uint8_t parts;
    struct part part[6];
    uint8_t edges;
    uint8_t edge[6][3];
    uint8_t params;
    struct named param[3];
    uint8_t output;
    uint8_t book[512];
    size_t length;
};

/* A tone times an envelope is silent, and cleared, when the envelope is done. */
static struct stop stops[] = {
    {"flute", 3, {{"Sine", 0, 0, 3}, {"Env", 0, 0, 1}, {"Mul", 2, 3, 0}}, 2, {{0, 2, 0}, {1, 2, 1}}, 2, {{"freq", 0}, {"gate", 1}}, 2, {0}, 0},
    {"principal", 5, {{"Sine", 0, 0, 1}, {"Sine", 0, 0, 1}, {"Add", 2, 3, 0}, {"Env", 0, 0, 1}, {"Mul", 2, 3, 0}}, 4,
     {{0, 2, 0}, {1, 2, 1}, {2, 4, 0}, {3, 4, 1}}, 3, {{"freq", 0}, {"octave", 1}, {"gate", 3}}, 4, {0}, 0},
    {"bourdon", 3, {{"Sine", 0, 0, 1}, {"Env", 0, 0, 1}, {"Mul", 2, 3, 0}}, 2, {{0, 2, 0}, {1, 2, 1}}, 2, {{"freq", 0}, {"gate", 1}}, 2, {0}, 0},
};
enum { FLUTE, PRINCIPAL, BOURDON, STOPS };

static void record(struct stop *s, int kind, const uint8_t *payload, size_t n)
{
    uint8_t *at = s->book + s->length;
    at[0] = (uint8_t)((n + 4) & 255);
    at[1] = (uint8_t)((n + 4) >> 8);
    at[2] = (uint8_t)kind;
    at[3] = 0;
    memcpy(at + 4, payload, n);
    s->length += n + 4;
}

static void name_bytes(uint8_t *at, const char *name)
{
    memset(at, 0, 17);
    at[0] = (uint8_t)strlen(name);
    memcpy(at + 1, name, strlen(name));
}

/* the book: heading, nodes, edges, parameters */
static void write_book(struct stop *s)
{
    uint8_t row[23];
    int i;
    row[0] = s->parts;
    row[1] = s->output;
    record(s, 1, row, 2);
    for (i = 0; i < s->parts; i++) {
        name_bytes(row, s->part[i].kind);
        row[17] = s->part[i].ports;
        row[18] = s->part[i].required;
        row[19] = s->part[i].takes;
        row[20] = row[21] = row[22] = 255;
        record(s, 2, row, 23);
    }
    for (i = 0; i < s->edges; i++)
        record(s, 3, s->edge[i], 3);
    for (i = 0; i < s->params; i++) {
        name_bytes(row, s->param[i].name);
        row[17] = s->param[i].node;
        record(s, 4, row, 18);
    }
}

/* the same definition in the script's form */
static void keep(int slot)
{
    const struct stop *s = &stops[slot];
    int i;
    entry(8);
    put((uint64_t)slot, 1);
    put(s->parts, 1);
    for (i = 0; i < s->parts; i++) {
        put_name(s->part[i].kind);
        put(s->part[i].ports, 1);
        put(s->part[i].required, 1);
        put(s->part[i].takes, 1);
        put(1, 1);
        put(0xFFFFFF, 3);
    }
    put(s->edges, 1);
    for (i = 0; i < s->edges; i++) {
        put(s->edge[i][0], 1);
        put(s->edge[i][1], 1);
        put(s->edge[i][2], 1);
    }
    put(s->params, 1);
    for (i = 0; i < s->params; i++) {
        put_name(s->param[i].name);
        put(s->param[i].node, 1);
    }
    put(s->output, 1);
    say("kept\n");
}

/* ---- the calls */
enum { GREAT, SWELL, KEYBOARDS, PEDAL = KEYBOARDS, MANUALS };

static void make(void)
{
    uint32_t k = piecrag_make_console(state, waiting, RATE, BLOCK, 1, BUDGET, PIECRAG_QUIETEST, PIECRAG_PER_GROUP, 1, KEYBOARDS);
    entry(47);
    put(bits(RATE), 4);
    put(BLOCK, 4);
    put(1, 1);
    put(BUDGET, 4);
    put(PIECRAG_QUIETEST, 1);
    put(PIECRAG_PER_GROUP, 1);
    put(1, 1);
    put(KEYBOARDS, 4);
    check(answer(k, "made") == 0, "making");
}

static uint32_t add_node(const char *kind, uint32_t ports, uint64_t required)
{
    uint32_t id = 0;
    uint32_t k = piecrag_add_node(seal, state, nodes, (const uint8_t *)kind, strlen(kind), ports, required, 0, 0, &id);
    entry(3);
    put_name(kind);
    put(ports, 4);
    put(required, 8);
    put(0, 1);
    put(2, 1);
    check(k == 0, "adding a node");
    say("node %u\n", (unsigned)id);
    return id;
}

static void join(uint32_t from, uint32_t to, uint32_t port)
{
    entry(5);
    put(from, 4);
    put(to, 4);
    put(port, 4);
    check(answer(piecrag_connect(seal, state, nodes, edges, from, to, port), "done") == 0, "connecting");
}

static void set_sink(uint32_t node)
{
    entry(7);
    put(node, 4);
    check(answer(piecrag_set_sink(seal, state, nodes, node), "done") == 0, "the sink");
}

static void prepare(void)
{
    entry(20);
    check(answer(piecrag_prepare(state, nodes, edges, order), "done") == 0, "prepare");
}

static void say_spawned(uint32_t k, uint64_t voice)
{
    if (k)
        say("refused %u\n", (unsigned)k);
    else
        say("voice %llu\n", (unsigned long long)voice);
}

static uint32_t spawn(int stop, uint32_t bus, float pan, uint32_t rank, uint64_t *voice)
{
    const struct stop *s = &stops[stop];
    uint32_t k = piecrag_spawn(seal, state, nodes, edges, voices, steals, 1, s->book, s->length, bus, pan, rank, voice);
    entry(pan == 0.0f ? 11 : 9);
    put((uint64_t)stop, 1);
    put(bus, 4);
    if (pan != 0.0f)
        put(bits(pan), 4);
    put(rank, 4);
    say_spawned(k, *voice);
    return k;
}

static void wish(size_t keyboard, int stop, uint32_t bus, float pan)
{
    const struct stop *s = &stops[stop];
    entry(48);
    put((uint64_t)stop, 1);
    put(keyboard, 4);
    put(1, 1);
    put(bus, 4);
    put(bits(pan), 4);
    put(0, 4);
    check(answer(piecrag_wish(seal, waiting, wishes, keyboard, 1, s->book, s->length, bus, pan, 0), "waits") == 0, "a wish");
}

/* whether a wish waited; then its keyboard, and the new voice, or 0 where the store refused one */
static int turn(size_t *keyboard, uint64_t *voice)
{
    uint32_t k = piecrag_turn(state, nodes, edges, voices, steals, waiting, wishes, keyboard, voice);
    entry(49);
    if (k == PIECRAG_TURN_EMPTY) {
        say("empty\n");
        return 0;
    }
    say("served %lu ", (unsigned long)*keyboard);
    say_spawned(k, *voice);
    return 1;
}

static void set_value(uint64_t voice, const char *name, float x)
{
    uint32_t k = piecrag_set_voice_param(state, nodes, voices, voice, (const uint8_t *)name, strlen(name), x);
    entry(15);
    put(voice, 8);
    put_name(name);
    put(bits(x), 4);
    say("outcome %u\n", (unsigned)k);
}

static void set_glide(uint64_t voice, const char *name, float target, float seconds)
{
    uint32_t k = piecrag_set_voice_param_glide(state, nodes, voices, voice, (const uint8_t *)name, strlen(name), target, seconds,
                                               PIECRAG_LINEAR, 0.0f, PIECRAG_RAW);
    entry(16);
    put(voice, 8);
    put_name(name);
    put(bits(target), 4);
    put(bits(seconds), 4);
    put(PIECRAG_LINEAR, 1);
    put(0, 4);
    put(PIECRAG_RAW, 1);
    say("outcome %u\n", (unsigned)k);
}

/* an event's entry: the actions of the script are 2 gate and 3 free */
static void event_entry(uint64_t time, uint64_t voice, int action, float x)
{
    entry(17);
    put(time, 8);
    put(voice, 8);
    put((uint64_t)action, 1);
    put_name("gate");
    put(bits(x), 4);
    put(0, 10);
}

static void schedule_gate(uint64_t time, uint64_t voice, float x)
{
    event_entry(time, voice, 2, x);
    answer(piecrag_schedule_gate(state, events, time, voice, (const uint8_t *)"gate", 4, x), "done");
}

static void schedule_free(uint64_t time, uint64_t voice)
{
    event_entry(time, voice, 3, 0.0f);
    answer(piecrag_schedule_free(state, events, time, voice, (const uint8_t *)"gate", 4), "done");
}

/* events that came too late: their voice was gone */
static unsigned late;

static uint32_t render(void)
{
    uint32_t sounding = 0, k;
    uint8_t outcomes[PIECRAG_MAX_EVENTS];
    size_t taken = 0, i;
    k = piecrag_render(state, nodes, edges, order, voices, events, outcomes, sizeof outcomes, &sounding, &taken);
    entry(21);
    check(k == 0, "render");
    say("%s took %lu%s", sounding ? "sounding" : "silent", (unsigned long)taken, taken ? " " : "");
    for (i = 0; i < taken; i++) {
        say("%02x", (unsigned)outcomes[i]);
        late += outcomes[i] == PIECRAG_NO_VOICE;
    }
    say("\n");
    return sounding;
}

static void report(uint32_t node, const float *block, uint32_t done)
{
    int i;
    entry(18);
    put(node, 4);
    put(1, 1);
    put(done, 1);
    put(BLOCK, 4);
    for (i = 0; i < BLOCK; i++)
        put(bits(block[i]), 4);
    check(answer(piecrag_report(state, nodes, voices, node, 1, block, BLOCK, done), "done") == 0, "report");
}

static size_t clearing(void)
{
    size_t removed = 0;
    entry(14);
    check(piecrag_free_done_synths(state, nodes, edges, voices, &removed) == 0, "clearing");
    say("removed %lu\n", (unsigned long)removed);
    return removed;
}

static void page(const char *when)
{
    uint8_t text[PIECRAG_MAX_PAGE];
    size_t length = 0;
    check(piecrag_page(state, edges, voices, text, 4096, &length) == 0, "page");
    entry(32);
    put(4096, 4);
    say("page %lu\n", (unsigned long)length);
    fwrite(text, 1, length, told);
    printf("%s\n", when);
    fwrite(text, 1, length, stdout);
}

static uint64_t clock_now(void)
{
    uint64_t now = 0;
    piecrag_clock(state, &now);
    return now;
}

/* ---- the tone generators: a block for each node, by its id */
static float sound[IDS][2 * BLOCK], phase[IDS], pitch[IDS], loud[IDS], pans[IDS];
static size_t channels[IDS];

struct node { uint32_t row[PIECRAG_NODE_RECORD_WORDS]; char kind[17]; };

static struct node look(uint32_t id)
{
    struct node n;
    uint32_t found = 0;
    int i;
    piecrag_node_record(state, nodes, id, &found, n.row);
    check(found && id < IDS, "a node of the order is there");
    for (i = 0; i < 16; i++)
        n.kind[i] = (char)(n.row[PIECRAG_NODE_KIND + i / 4] >> (i % 4 * 8) & 255);
    n.kind[16] = 0;
    return n;
}

/* the last order of a node moves x: a value at once, a glide by a part of the way at each sample */
static float moved(const struct node *n, float x)
{
    float target = from_bits(n->row[PIECRAG_NODE_TARGET]);
    if (n->row[PIECRAG_NODE_LAST] == 1)
        return target;
    if (n->row[PIECRAG_NODE_LAST] == 2)
        return x + (target - x) / (from_bits(n->row[PIECRAG_NODE_SECONDS]) * RATE);
    return x;
}

/* an arch for half a period, so that every machine computes the same samples */
static void sine(uint32_t id, const struct node *n)
{
    int i;
    for (i = 0; i < BLOCK; i++) {
        float p = phase[id];
        pitch[id] = moved(n, pitch[id]);
        sound[id][i] = p < 0.5f ? 16.0f * p * (0.5f - p) : -16.0f * (p - 0.5f) * (1.0f - p);
        p += pitch[id] / RATE;
        phase[id] = p < 1.0f ? p : p - 1.0f;
    }
}

/* up in 10 ms while the gate is open, down in 40 ms after it; done at 0 */
static uint32_t envelope(uint32_t id, const struct node *n)
{
    int i, open = moved(n, 0.0f) > 0.0f;
    for (i = 0; i < BLOCK; i++) {
        loud[id] += open ? 1.0f / 480 : -1.0f / 1920;
        loud[id] = loud[id] > 0.25f ? 0.25f : loud[id] < 0.0f ? 0.0f : loud[id];
        sound[id][i] = loud[id];
    }
    return !open && loud[id] == 0.0f;
}

static uint32_t source(uint32_t id, uint32_t port)
{
    uint32_t fed = 0, from = IDS;
    piecrag_source(state, edges, id, port, &fed, &from);
    return fed ? from : IDS;
}

static void combine(uint32_t id, int times)
{
    uint32_t a = source(id, 0), b = source(id, 1);
    int i;
    check(a < IDS && b < IDS, "both ports are fed");
    for (i = 0; i < BLOCK; i++)
        sound[id][i] = times ? sound[a][i] * sound[b][i] : 0.5f * (sound[a][i] + sound[b][i]);
}

static void pan2(uint32_t id, uint64_t voice)
{
    uint32_t a = source(id, 0);
    float p = pans[voice % IDS];
    int i;
    for (i = 0; i < BLOCK; i++) {
        sound[id][i] = 0.5f * (1.0f - p) * sound[a][i];
        sound[id][BLOCK + i] = 0.5f * (1.0f + p) * sound[a][i];
    }
    channels[id] = 2;
}

/* by the store's rules: where the fade stood before this render */
static void fade(uint32_t id, uint64_t voice)
{
    uint32_t a = source(id, 0), fading = 0;
    uint64_t position = 0;
    const float no_gains[1] = {0.0f};
    piecrag_fade_position(state, voices, voice, &fading, &position);
    check(fading, "a fade node has a fade");
    channels[id] = channels[a];
    check(piecrag_fade_output(state, sound[a], channels[a] * BLOCK, channels[a], no_gains, 0, position - BLOCK, sound[id],
                              channels[id] * BLOCK, channels[id]) == 0, "fade output");
}

/* the fed ports by rising number */
static void bus(uint32_t id, uint32_t ports)
{
    static float inputs[PIECRAG_MAX_PORTS * 2 * BLOCK];
    size_t counts[PIECRAG_MAX_PORTS], n = 0, used = 0;
    uint32_t p;
    for (p = 0; p < ports; p++) {
        uint32_t a = source(id, p);
        if (a == IDS)
            continue;
        memcpy(inputs + used, sound[a], channels[a] * BLOCK * sizeof(float));
        used += channels[a] * BLOCK;
        counts[n++] = channels[a];
    }
    channels[id] = 2;
    check(piecrag_bus_sum(state, inputs, used, counts, n, sound[id], 2 * BLOCK, 2) == 0, "bus sum");
}

/* one node's block; whether it is done */
static uint32_t generate(uint32_t id, const struct node *n)
{
    uint64_t voice = n->row[PIECRAG_NODE_OWNER] + ((uint64_t)n->row[PIECRAG_NODE_OWNER + 1] << 32);
    channels[id] = 1;
    if (!strcmp(n->kind, "Sine"))
        sine(id, n);
    else if (!strcmp(n->kind, "Env"))
        return envelope(id, n);
    else if (!strcmp(n->kind, "Mul") || !strcmp(n->kind, "Add"))
        combine(id, n->kind[0] == 'M');
    else if (!strcmp(n->kind, "Pan2"))
        pan2(id, voice);
    else if (!strcmp(n->kind, "StealFade"))
        fade(id, voice);
    else if (strcmp(n->kind, "Const"))
        bus(id, n->row[PIECRAG_NODE_PORTS]);
    return 0;
}

/* all nodes in processing order; the store hears of envelopes, whose done flags it needs, and of products, whose levels it compares */
static void generators(void)
{
    size_t count = 0, i;
    static uint32_t reported[PIECRAG_MAX_NODES], done[PIECRAG_MAX_NODES];
    size_t reports = 0;
    piecrag_processing_order(state, order, &count);
    for (i = 0; i < count; i++) {
        struct node n = look(order[i]);
        uint32_t d = generate(order[i], &n);
        if (!strcmp(n.kind, "Env") || !strcmp(n.kind, "Mul")) {
            done[reports] = d;
            reported[reports++] = order[i];
        }
    }
    for (i = 0; i < reports; i++)
        report(reported[i], sound[reported[i]], done[i]);
}

/* ---- the score */
struct key { unsigned block; int manual, stop; float freq; unsigned held; float pan; };
static const struct key score[] = {
    {0, PEDAL, BOURDON, 65.4f, 40000, 0.0f},
    {0, GREAT, PRINCIPAL, 261.6f, 20000, 0.0f},   {0, GREAT, PRINCIPAL, 329.6f, 30000, 0.0f},
    {0, GREAT, PRINCIPAL, 392.0f, 30000, 0.0f},   {40, SWELL, FLUTE, 523.3f, 24000, -0.5f},
    {60, SWELL, FLUTE, 659.3f, 24000, 0.5f},      {80, GREAT, PRINCIPAL, 440.0f, 24000, 0.0f},
    {100, GREAT, PRINCIPAL, 523.3f, 24000, 0.0f}, {101, GREAT, PRINCIPAL, 587.3f, 24000, 0.0f},
    {102, GREAT, PRINCIPAL, 659.3f, 9000, 0.0f},  {120, SWELL, FLUTE, 784.0f, 20000, -0.3f},
    {140, SWELL, FLUTE, 880.0f, 20000, 0.3f},     {150, SWELL, FLUTE, 987.8f, 20000, 0.0f},
    {151, SWELL, FLUTE, 1046.5f, 20000, 0.0f},    {152, SWELL, FLUTE, 1174.7f, 20000, 0.0f},
    {153, SWELL, FLUTE, 1318.5f, 20000, 0.0f},    {153, SWELL, FLUTE, 1396.9f, 20000, 0.7f},
    {154, PEDAL, BOURDON, 49.0f, 20000, 0.0f},    {200, PEDAL, BOURDON, 55.0f, 20000, 0.0f},
    {220, PEDAL, BOURDON, 61.7f, 20000, 0.0f},    {240, PEDAL, BOURDON, 65.4f, 20000, 0.0f},
    {241, PEDAL, BOURDON, 73.4f, 20000, 0.0f},    {300, GREAT, FLUTE, 261.6f, 12000, 0.0f},
    {300, GREAT, FLUTE, 329.6f, 12000, 0.0f},     {300, GREAT, FLUTE, 392.0f, 12000, 0.0f},
};
#define KEYS (sizeof score / sizeof score[0])

static uint32_t first_node(uint64_t voice)
{
    uint32_t row[PIECRAG_VOICE_RECORD_WORDS], found = 0;
    piecrag_voice(state, voices, voice, &found, row);
    check(found && row[PIECRAG_VOICE_FIRST] < IDS, "a new voice is there");
    return row[PIECRAG_VOICE_FIRST];
}

/* the new voice of a key: its pitch, an open gate, a timed release, and a timed free in case it is still there then */
static void begin(const struct key *k, uint64_t voice)
{
    uint64_t now = clock_now();
    pans[voice % IDS] = k->pan;
    set_value(voice, "freq", k->freq);
    pitch[first_node(voice)] = k->freq;
    if (k->stop == PRINCIPAL)
        set_value(voice, "octave", 2.0f * k->freq);
    if (k->stop == FLUTE && k->pan != 0.0f)
        set_glide(voice, "freq", 1.01f * k->freq, 0.5f);
    set_value(voice, "gate", 1.0f);
    schedule_gate(now + k->held, voice, 0.0f);
    schedule_free(now + k->held + RATE / 4, voice);
}

/* the keys whose wishes wait, by their keyboard, oldest first; how many were pressed, and how many served */
static const struct key *down[KEYBOARDS][KEYS];
static unsigned pressed[KEYBOARDS], served[KEYBOARDS], refused;

/* a key goes down: on the pedal a voice at once, on a manual a wish; whether a voice was asked for */
static int press(const struct key *k, const uint32_t *buses)
{
    uint64_t voice = 0;
    if (k->manual != PEDAL) {
        wish((size_t)k->manual, k->stop, buses[k->manual], k->pan);
        down[k->manual][pressed[k->manual]++] = k;
        return 0;
    }
    if (spawn(k->stop, buses[PEDAL], k->pan, 1, &voice))
        refused++;
    else
        begin(k, voice);
    return 1;
}

/* one turn of the manuals; whether a wish was served */
static int take_turn(void)
{
    size_t keyboard = KEYBOARDS;
    uint64_t voice = 0;
    if (!turn(&keyboard, &voice))
        return 0;
    if (voice)
        begin(down[keyboard][served[keyboard]], voice);
    else
        refused++;
    served[keyboard]++;
    return 1;
}

/* ---- the sound file: 16 bits, two channels */
static FILE *wav;
static uint32_t sum = 1;

static void wav_put(uint32_t x, int bytes)
{
    for (; bytes; bytes--, x >>= 8)
        putc((int)(x & 255), wav);
}

static void wav_head(void)
{
    uint32_t bytes = BLOCKS * BLOCK * 4;
    fputs("RIFF", wav);
    wav_put(36 + bytes, 4);
    fputs("WAVEfmt ", wav);
    wav_put(16, 4);
    wav_put(1, 2);
    wav_put(2, 2);
    wav_put(RATE, 4);
    wav_put(RATE * 4, 4);
    wav_put(4, 2);
    wav_put(16, 2);
    fputs("data", wav);
    wav_put(bytes, 4);
}

static void wav_block(const float *block)
{
    int i, c;
    for (i = 0; i < BLOCK; i++)
        for (c = 0; c < 2; c++) {
            float x = block[c * BLOCK + i] * 8000.0f;
            int32_t y = (int32_t)(x > 32767.0f ? 32767.0f : x < -32768.0f ? -32768.0f : x);
            wav_put((uint32_t)y & 0xFFFF, 2);
            sum = sum * 31 + ((uint32_t)y & 0xFFFF);
        }
}

/* ---- what waits */
static void tell_waiting(void)
{
    size_t keyboards = 0, count = 0, q;
    entry(50);
    say("waiting");
    printf("waiting:");
    piecrag_keyboard_count(waiting, &keyboards);
    for (q = 0; q < keyboards; q++) {
        piecrag_waiting_count(waiting, q, &count);
        say(" %lu", (unsigned long)count);
        printf(" %lu", (unsigned long)count);
    }
    say(" next %u\n", (unsigned)waiting[PIECRAG_WAITING_NEXT]);
    printf("\n");
}

/* ---- the last words: what can be read, and the same in the script */
static void tell_steals(void)
{
    uint64_t total = 0, sample = 0;
    size_t held = 0, i, most = 0;
    uint32_t found, known = 0, cut = 0, cuts = 0;
    float level = 0.0f;
    piecrag_steals(state, steals, &total, &held);
    entry(27);
    say("steals %llu", (unsigned long long)total);
    for (i = 0; i < held; i++) {
        piecrag_steal_at(state, steals, i, &found, &sample, &known, &level, &cut);
        cuts += cut;
        say(" %llu", (unsigned long long)sample);
        if (known)
            say(" %08x", (unsigned)bits(level));
        else
            say(" -");
        say(cut ? " cut" : " faded");
    }
    say("\n");
    piecrag_busiest_steals(state, steals, RATE / 10, &most, &sample);
    printf("steals: %llu, %u of them cut; at most %lu within a tenth of a second, from sample %llu on\n", (unsigned long long)total,
           (unsigned)cuts, (unsigned long)most, (unsigned long long)sample);
}

static void tell_voices(void)
{
    size_t count = 0, i;
    uint32_t row[PIECRAG_VOICE_RECORD_WORDS], found, known;
    float level;
    piecrag_voices(state, voices, &count);
    entry(26);
    say("voices");
    for (i = 0; i < count; i++) {
        piecrag_voice_at(state, voices, i, &found, row);
        say(" %u", (unsigned)row[PIECRAG_VOICE_ID]);
    }
    say("\n");
    for (i = 0; i < count; i++) {
        piecrag_voice_at(state, voices, i, &found, row);
        known = 0;
        level = 0.0f;
        piecrag_voice_level(state, nodes, voices, row[PIECRAG_VOICE_ID], &known, &level);
        entry(22);
        put(row[PIECRAG_VOICE_ID], 8);
        if (known)
            say("level %08x\n", (unsigned)bits(level));
        else
            say("level -\n");
    }
}

static void tell_graph(void)
{
    size_t count = 0, i;
    uint32_t row[PIECRAG_EDGE_RECORD_WORDS], found;
    piecrag_edges(state, edges, &count);
    entry(28);
    say("edges");
    for (i = 0; i < count; i++) {
        piecrag_edge_at(state, edges, i, &found, row);
        say(" %u %u %u", (unsigned)row[PIECRAG_EDGE_FROM], (unsigned)row[PIECRAG_EDGE_TO], (unsigned)row[PIECRAG_EDGE_PORT]);
    }
    say("\n");
    piecrag_processing_order(state, order, &count);
    entry(29);
    say("order");
    for (i = 0; i < count; i++)
        say(" %u", (unsigned)order[i]);
    say("\n");
    entry(31);
    say("clock %llu\n", (unsigned long long)clock_now());
}

/* ---- the console */
static uint32_t wire(uint32_t *buses)
{
    uint32_t mixer, i;
    buses[GREAT] = add_node("Bus", 6, 0);
    buses[SWELL] = add_node("Bus", 6, 0);
    buses[PEDAL] = add_node("Bus", 4, 0);
    mixer = add_node("Mixer", 3, 7);
    for (i = 0; i < MANUALS; i++)
        join(buses[i], mixer, i);
    set_sink(mixer);
    return mixer;
}

static void play(const uint32_t *buses, uint32_t sink)
{
    unsigned b, next = 0, late_keys = 0;
    size_t removed = 0, gone;
    int changed = 1;
    for (b = 0; b < BLOCKS; b++) {
        for (; next < KEYS && score[next].block == b; next++)
            changed |= press(&score[next], buses);
        changed |= take_turn();
        late_keys += served[GREAT] < pressed[GREAT] || served[SWELL] < pressed[SWELL];
        if (changed)
            prepare();
        check(render() == 1, "every block sounds");
        generators();
        wav_block(sound[sink]);
        gone = clearing();
        removed += gone;
        changed = gone > 0;
        if (b == 102 || b == 153 || b == 330) {
            page(b == 102 ? "a fifth and a sixth key on the great" : b == 153 ? "eight keys on the swell" : "after the releases");
            tell_waiting();
        }
    }
    printf("keys: %lu, refused %u; blocks after which a key waited: %u; voices cleared: %lu; events whose voice was gone: %u\n",
           (unsigned long)KEYS, refused, late_keys, (unsigned long)removed, late);
}

int main(int argc, char **argv)
{
    uint32_t buses[MANUALS], sink;
    int i;
    check(argc == 4, "usage: organ WAV SCRIPT TOLD");
    wav = fopen(argv[1], "wb");
    script = fopen(argv[2], "wb");
    told = fopen(argv[3], "wb");
    check(wav && script && told, "the files can be written");
    wav_head();
    make();
    for (i = 0; i < STOPS; i++) {
        write_book(&stops[i]);
        keep(i);
    }
    sink = wire(buses);
    play(buses, sink);
    tell_voices();
    tell_steals();
    tell_graph();
    say("played %lu\n", calls);
    printf("calls: %lu; sum of the samples: %08x\n", calls, (unsigned)sum);
    check(!fclose(wav) && !fclose(script) && !fclose(told), "the files are written");
    return 0;
}
