/* A small console is wired: two manuals and a pedal on a bus each, the three buses on a mixer that the host hears. Prints every answer. */
#include <stdio.h>
#include <string.h>
#include "piecrag.h"

static uint32_t state[PIECRAG_STATE_WORDS], nodes[PIECRAG_NODE_WORDS], edges[PIECRAG_EDGE_WORDS], order[PIECRAG_ORDER_WORDS],
    events[PIECRAG_EVENT_WORDS];

/* all 0: the console is never sealed */
static const uint32_t seal[PIECRAG_SEAL_WORDS];

static uint32_t add(const char *kind, uint32_t ports, uint64_t required)
{
    uint32_t id = 99, k = piecrag_add_node(seal, state, nodes, (const uint8_t *)kind, strlen(kind), ports, required, 0, 0, &id);
    printf("add %s with %u ports: %u, node %u\n", kind, (unsigned)ports, (unsigned)k, (unsigned)id);
    return id;
}

static void tell(const char *what, uint32_t k)
{
    printf("%s: %u\n", what, (unsigned)k);
}

int main(void)
{
    const uint8_t name[] = "gate";
    uint32_t great, swell, pedal, mixer, i, k = 0;
    /* any words may stand in the store before it is made */
    memset(state, 0xEE, sizeof state);
    memset(nodes, 0xEE, sizeof nodes);
    memset(edges, 0xEE, sizeof edges);
    memset(order, 0xEE, sizeof order);
    memset(events, 0xEE, sizeof events);
    tell("make at 0 Hz", piecrag_make(state, 0.0f, 128, 1, 16, PIECRAG_OLDEST, PIECRAG_PER_GROUP, 1));
    tell("make with blocks of 129", piecrag_make(state, 48000.0f, 129, 1, 16, PIECRAG_OLDEST, PIECRAG_PER_GROUP, 1));
    tell("make with a budget of 65", piecrag_make(state, 48000.0f, 128, 1, 65, PIECRAG_OLDEST, PIECRAG_PER_GROUP, 1));
    tell("make with the table at 44,100 Hz", piecrag_make(state, 44100.0f, 128, 1, 16, PIECRAG_OLDEST, PIECRAG_PER_GROUP, 1));
    printf("the state's words stayed: %s\n", state[0] == 0xEEEEEEEEu ? "yes" : "no");
    tell("make", piecrag_make(state, 48000.0f, 128, 1, 16, PIECRAG_OLDEST, PIECRAG_PER_GROUP, 1));
    great = add("Bus", 16, 0);
    swell = add("Bus", 16, 0);
    pedal = add("Bus", 8, 0);
    mixer = add("Mixer", 3, 7);
    add("", 1, 0);
    add("Wide", 65, 0);
    tell("great to mixer", piecrag_connect(seal, state, nodes, edges, great, mixer, 0));
    tell("swell to mixer", piecrag_connect(seal, state, nodes, edges, swell, mixer, 1));
    tell("prepare without the pedal", piecrag_prepare(state, nodes, edges, order));
    tell("pedal to port 3", piecrag_connect(seal, state, nodes, edges, pedal, mixer, 3));
    tell("pedal to mixer", piecrag_connect(seal, state, nodes, edges, pedal, mixer, 2));
    tell("mixer to great", piecrag_connect(seal, state, nodes, edges, mixer, great, 0));
    tell("prepare with a cycle", piecrag_prepare(state, nodes, edges, order));
    tell("great without it", piecrag_disconnect(seal, state, nodes, edges, great, 0));
    tell("sink", piecrag_set_sink(seal, state, nodes, mixer));
    tell("sink at an unknown node", piecrag_set_sink(seal, state, nodes, 77));
    tell("prepare", piecrag_prepare(state, nodes, edges, order));
    for (i = 0; i < 4; i++)
        printf("order %u: node %u\n", (unsigned)i, (unsigned)order[i]);
    tell("a value", piecrag_schedule_value(state, events, 480, 1, name, 4, 0.5f));
    for (i = 0; i < 256 && k == 0; i++)
        k = piecrag_schedule_free(state, events, 48000 - i, i, name, 4);
    printf("releases taken: %u, then %u\n", (unsigned)(i - 1), (unsigned)k);
    tell("remove the pedal", piecrag_remove_node(seal, state, nodes, edges, pedal));
    tell("remove it again", piecrag_remove_node(seal, state, nodes, edges, pedal));
    tell("prepare without it", piecrag_prepare(state, nodes, edges, order));
    return 0;
}
