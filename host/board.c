/* The smallest board: one bus that is heard, one keyboard, one stop of a node. It is sealed, and then the seal closes what it closes.
 * Prints every answer. */
#include <stdio.h>
#include <string.h>
#include "piecrag.h"

static uint32_t state[PIECRAG_STATE_WORDS], nodes[PIECRAG_NODE_WORDS], edges[PIECRAG_EDGE_WORDS], order[PIECRAG_ORDER_WORDS],
    voices[PIECRAG_VOICE_WORDS], steals[PIECRAG_STEAL_WORDS], waiting[PIECRAG_WAITING_WORDS], wishes[PIECRAG_WISH_WORDS],
    seal[PIECRAG_SEAL_WORDS];

#define PORTS 4

/* a definition of one node without ports, and one of two nodes */
static uint8_t tone[33] = {6, 0, 1, 0, 1, 0, 27, 0, 2, 0, 4, 'T', 'o', 'n', 'e'};
static uint8_t pair[60] = {6, 0, 1, 0, 2, 0, 27, 0, 2, 0, 4, 'T', 'o', 'n', 'e'};
/* beyond the limits of every definition: 24 nodes and 49 edges, 25 nodes, one node of 9 ports */
static uint8_t woven[6 + 24 * 27 + 49 * 7] = {6, 0, 1, 0, 24, 23};
static uint8_t crowd[6 + 25 * 27] = {6, 0, 1, 0, 25, 24};
static uint8_t wide[33];
static const uint8_t wire[7] = {7, 0, 3, 0, 0, 1, 0};

static void tell(const char *what, uint32_t k)
{
    printf("%s: %u\n", what, (unsigned)k);
}

static uint32_t ranked(uint32_t managed, const uint8_t *book, size_t length, uint32_t bus, uint32_t rank, uint64_t *voice)
{
    return piecrag_spawn(seal, state, nodes, edges, voices, steals, managed, book, length, bus, 0.0f, rank, voice);
}

static uint32_t spawn(uint32_t managed, const uint8_t *book, size_t length, uint32_t bus, uint64_t *voice)
{
    return ranked(managed, book, length, bus, 0, voice);
}

static uint32_t wish(size_t keyboard, uint32_t managed, const uint8_t *book, size_t length, uint32_t bus)
{
    return piecrag_wish(seal, waiting, wishes, keyboard, managed, book, length, bus, 0.0f, 0);
}

static uint32_t seal_by(uint64_t ports, uint64_t def_nodes)
{
    return piecrag_seal(seal, state, nodes, edges, voices, waiting, 0, ports, 2, 1, def_nodes, 0);
}

int main(void)
{
    uint32_t bus = 9, last = 9, k = 0, i;
    uint64_t voice = 0;
    size_t keyboard = 9;
    memset(tone + 30, 255, 3);
    memcpy(pair + 33, tone + 6, 27);
    memset(pair + 30, 255, 3);
    memcpy(wide, tone, sizeof tone);
    wide[27] = 9;
    for (i = 0; i < 25; i++)
        memcpy(crowd + 6 + 27 * i, tone + 6, 27);
    memcpy(woven + 6, crowd + 6, 24 * 27);
    for (i = 0; i < 49; i++)
        memcpy(woven + 6 + 24 * 27 + 7 * i, wire, 7);
    tell("make", piecrag_make_console(state, waiting, 48000.0f, 128, 1, 2, PIECRAG_OLDEST, PIECRAG_GLOBAL, 1, 1));
    tell("bus", piecrag_add_node(seal, state, nodes, (const uint8_t *)"Bus", 3, PORTS, 0, 0, 0, &bus));
    tell("last node", piecrag_add_node(seal, state, nodes, (const uint8_t *)"Out", 3, 1, 0, 0, 0, &last));
    tell("bus to it", piecrag_connect(seal, state, nodes, edges, bus, last, 0));
    tell("sink", piecrag_set_sink(seal, state, nodes, last));
    tell("seal by ports that it has not", seal_by(PORTS + 1, 1));
    tell("seal by definitions that have no room", seal_by(PORTS, 100));
    tell("25 nodes", spawn(1, crowd, sizeof crowd, bus, &voice));
    tell("25 nodes of rank 9", ranked(1, crowd, sizeof crowd, bus, 9, &voice));
    tell("a wish", wish(0, 1, pair, sizeof pair, bus));
    tell("seal while it waits", seal_by(PORTS, 1));
    tell("its turn", piecrag_turn(state, nodes, edges, voices, steals, waiting, wishes, &keyboard, &voice));
    tell("seal while it sounds", seal_by(PORTS, 1));
    tell("it is freed", piecrag_free_voice(state, nodes, edges, voices, voice));
    tell("seal", seal_by(PORTS, 1));
    tell("seal again", seal_by(PORTS, 1));
    tell("a node", piecrag_add_node(seal, state, nodes, (const uint8_t *)"Bus", 3, 4, 0, 0, 0, &bus));
    tell("remove one", piecrag_remove_node(seal, state, nodes, edges, bus));
    tell("an edge", piecrag_connect(seal, state, nodes, edges, last, bus, 0));
    tell("disconnect", piecrag_disconnect(seal, state, nodes, edges, last, 0));
    tell("another sink", piecrag_set_sink(seal, state, nodes, bus));
    tell("an unmanaged spawn", spawn(0, tone, sizeof tone, bus, &voice));
    tell("a spawn on another bus", spawn(1, tone, sizeof tone, last, &voice));
    tell("a definition of two nodes", spawn(1, pair, sizeof pair, bus, &voice));
    tell("a wish for it", wish(0, 1, pair, sizeof pair, bus));
    /* 28 comes before all else: also what no definition may have is counted, no bytes are no book, and there is one keyboard */
    tell("24 nodes and 49 edges", spawn(1, woven, sizeof woven, bus, &voice));
    tell("24 nodes and 49 edges of rank 9", ranked(1, woven, sizeof woven, bus, 9, &voice));
    tell("25 nodes", spawn(1, crowd, sizeof crowd, bus, &voice));
    tell("25 nodes of rank 9", ranked(1, crowd, sizeof crowd, bus, 9, &voice));
    tell("a wish for 24 nodes and 49 edges", wish(0, 1, woven, sizeof woven, bus));
    tell("a wish for 25 nodes at no keyboard", wish(1, 1, crowd, sizeof crowd, bus));
    /* one node is what the seal leaves open, whatever its ports: the spawn refuses it where it tests the limits */
    tell("a node of 9 ports", spawn(1, wide, sizeof wide, bus, &voice));
    tell("a node of 9 ports of rank 9", ranked(1, wide, sizeof wide, bus, 9, &voice));
    tell("a wish for a node of 9 ports", wish(0, 1, wide, sizeof wide, bus));
    tell("its turn", piecrag_turn(state, nodes, edges, voices, steals, waiting, wishes, &keyboard, &voice));
    tell("an unmanaged spawn from no book", spawn(0, tone, 0, bus, &voice));
    tell("a spawn on another bus from no book", spawn(1, tone, 0, last, &voice));
    tell("a spawn on the bus from no book", spawn(1, tone, 0, bus, &voice));
    tell("an unmanaged wish from no book at no keyboard", wish(1, 0, tone, 0, bus));
    tell("a wish on another bus from no book at no keyboard", wish(1, 1, tone, 0, last));
    tell("a wish on the bus from no book at no keyboard", wish(1, 1, tone, 0, bus));
    for (i = 0; i < 100 && k == 0; i++)
        k = spawn(1, tone, sizeof tone, bus, &voice);
    printf("spawns of one node: %u, the last answered %u, voice %u\n", (unsigned)i, (unsigned)k, (unsigned)voice);
    tell("a wish for one", wish(0, 1, tone, sizeof tone, bus));
    tell("its turn", piecrag_turn(state, nodes, edges, voices, steals, waiting, wishes, &keyboard, &voice));
    tell("an empty turn", piecrag_turn(state, nodes, edges, voices, steals, waiting, wishes, &keyboard, &voice));
    tell("prepare", piecrag_prepare(state, nodes, edges, order));
    return 0;
}
