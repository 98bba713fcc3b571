/* piecrag.h: the voice store of an organ tone module, for a host in C or C++.
 *
 * Memory. The store is words of 32 bits that the host owns: the state, the seal and six tables, whose sizes stand below; a console with
 * keyboards has two parts more, `waiting` and `wishes`. The library has no memory of its own, allocates nothing and keeps no pointer. Any
 * words may stand in the store before piecrag_make or piecrag_make_console, but those of the seal are all 0 before the first call on a
 * new store: no seal. Between calls the host may copy the parts, save them and read the rows that are described here; only the calls may
 * write them.
 *
 * Arguments. Parts, cells and blocks that are lent to one call must not overlap. A pointer must be aligned for its type and must not be
 * null, that of a byte string or a block of length 0 included. What a call only reads is const. Any number is accepted for any
 * argument: what is out of range is refused, or stands for what the call's comment says. A flag is 0 or not 0; a cell that is a flag
 * becomes 0 or 1. A name is 1 to 16 bytes, without a zero at its end; other lengths name nothing.
 *
 * Answers. Each call answers a number: 0 done, or one of those below. "Refused" lists the numbers in the order in which they are
 * tested; the first that holds is answered. A refused call changes no word of state, tables, cells and blocks, with one exception:
 * after 12 the steals and reclaims that were made stand. Some answers are no refusals of the call: 1 to 3 of a value, a glide or a free
 * say why nothing was done; 13 or 14 of piecrag_render say that the block was rendered, silent; piecrag_turn answers what the spawn that
 * it served was answered, or PIECRAG_TURN_EMPTY.
 */
#ifndef PIECRAG_H
#define PIECRAG_H

#include <stddef.h>
#include <stdint.h>

#ifdef __cplusplus
extern "C" {
#endif

/* ---- the parts of the store, in words of 32 bits */
#define PIECRAG_STATE_WORDS 32
#define PIECRAG_NODE_WORDS 11264
#define PIECRAG_EDGE_WORDS 3072
#define PIECRAG_ORDER_WORDS 512
#define PIECRAG_VOICE_WORDS 9152
#define PIECRAG_EVENT_WORDS 3840
#define PIECRAG_STEAL_WORDS 320
#define PIECRAG_SEAL_WORDS 12      /* all 0: no seal */
#define PIECRAG_WAITING_WORDS 12   /* these two only for a console with keyboards */
#define PIECRAG_WISH_WORDS 31104

/* ---- records, in words: a row of the table of that name */
#define PIECRAG_VOICE_RECORD_WORDS 143
#define PIECRAG_NODE_RECORD_WORDS 22
#define PIECRAG_EDGE_RECORD_WORDS 3

/* ---- limits */
#define PIECRAG_MAX_RATE 384000
#define PIECRAG_MAX_BLOCK 128
#define PIECRAG_MAX_BUDGET 64
#define PIECRAG_MAX_NODES 512
#define PIECRAG_MAX_EDGES 1024
#define PIECRAG_MAX_VOICES 64
#define PIECRAG_MAX_EVENTS 256
#define PIECRAG_MAX_STEALS 64      /* of how many steals the record is held */
#define PIECRAG_MAX_PORTS 64
#define PIECRAG_MAX_NAME 16
#define PIECRAG_MAX_CHANNELS 2
#define PIECRAG_MAX_RANK 7
#define PIECRAG_MAX_KEYBOARDS 8
#define PIECRAG_MAX_WISHES 16      /* that wait at one keyboard */
#define PIECRAG_MAX_PAGE 4501      /* bytes of the longest page */
#define PIECRAG_FADE_TABLE_RATE 48000
#define PIECRAG_WHOLE_GAIN 16777216 /* 2^24: full gain in whole numbers */

/* ---- answers */
#define PIECRAG_DONE 0
#define PIECRAG_SAMPLE_RATE 1
#define PIECRAG_BLOCK_SIZE 2
#define PIECRAG_BUDGET_TOO_LARGE 3
#define PIECRAG_UNKNOWN_NODE 4
#define PIECRAG_VOICE_NODE 5
#define PIECRAG_PORT_OR_KIND 6
#define PIECRAG_TABLE_FULL 7
#define PIECRAG_IDS_USED_UP 8
#define PIECRAG_DEFINITION_LIMITS 9
#define PIECRAG_BUS_WITHOUT_PORTS 10
#define PIECRAG_REJECTED 11
#define PIECRAG_NO_PORT 12
#define PIECRAG_REQUIRED_PORT 13
#define PIECRAG_CYCLE 14
#define PIECRAG_CLOCK_END 15
#define PIECRAG_LENT_BLOCK 16
#define PIECRAG_SHORT_BUFFER 17
#define PIECRAG_MALFORMED_BOOK 18
#define PIECRAG_TABLE_RATE 20
#define PIECRAG_OUT_OF_RANGE 21
#define PIECRAG_NO_WIDTH 22
#define PIECRAG_SAMPLES_FALL 23
#define PIECRAG_KEYBOARD 24
#define PIECRAG_WISHES_FULL 25
#define PIECRAG_RANK_TOO_HIGH 26
#define PIECRAG_NOT_ACCEPTED 27
#define PIECRAG_CLOSED 28
#define PIECRAG_TURN_EMPTY 256     /* of piecrag_turn alone: no wish waited. Refusals are below 256 */

/* ---- why a value, a glide or a free was not applied: the answer of such a call, and the entries of a render's list */
#define PIECRAG_APPLIED 0
#define PIECRAG_NO_VOICE 1
#define PIECRAG_NO_PARAMETER 2
#define PIECRAG_NOT_TAKEN 3

/* ---- arguments that are numbers */
#define PIECRAG_REJECT 0   /* policies: which voice gives way at budget. Any other number is REJECT */
#define PIECRAG_OLDEST 1
#define PIECRAG_NEWEST 2
#define PIECRAG_QUIETEST 3
#define PIECRAG_GLOBAL 0   /* scopes: which voices a budget counts. Any other number is PER_GROUP */
#define PIECRAG_PER_GROUP 1
#define PIECRAG_VALUE 0    /* actions of an event. Any other number is FREE */
#define PIECRAG_GLIDE 1
#define PIECRAG_GATE 2
#define PIECRAG_FREE 3
#define PIECRAG_HOLD 0     /* shapes of a glide. Any other number is EXPONENTIAL, which alone looks at `curve` */
#define PIECRAG_LINEAR 1
#define PIECRAG_SINE 2
#define PIECRAG_EXPONENTIAL 3
#define PIECRAG_RAW 0      /* what a glide moves evenly in. Any other number is PITCH */
#define PIECRAG_PITCH 1

/* ---- words of a voice's record. A number of 64 bits has its low word first */
#define PIECRAG_VOICE_ID 0        /* 64 bits */
#define PIECRAG_VOICE_BIRTH 2     /* 64 bits: the clock at its spawn */
#define PIECRAG_VOICE_BUS 4       /* node id */
#define PIECRAG_VOICE_PORT 5      /* the port of the bus that it was given at its spawn */
#define PIECRAG_VOICE_FIRST 6     /* its definition's nodes have the ids from this one on, */
#define PIECRAG_VOICE_COUNT 7     /* so many of them; if it is panned, a constant and the pan node follow */
#define PIECRAG_VOICE_OUTPUT 8    /* node id */
#define PIECRAG_VOICE_PANNED 9    /* flag */
#define PIECRAG_VOICE_SEQUENCE 10 /* noise sequence */
#define PIECRAG_VOICE_STATE 11    /* one of the states below */
#define PIECRAG_VOICE_FADE 12     /* if it fades: the fade's node, */
#define PIECRAG_VOICE_START 13    /* 64 bits: the clock at the steal, */
#define PIECRAG_VOICE_POSITION 15 /* 64 bits: how far it has come, in samples, */
#define PIECRAG_VOICE_STEAL 17    /* 64 bits: the number of its steal record */
#define PIECRAG_VOICE_RANK 22
#define PIECRAG_TRACKED 1         /* states: counted by the budget; fading; any other number: loose */
#define PIECRAG_FADING 2

/* ---- words of a node's record */
#define PIECRAG_NODE_ID 0
#define PIECRAG_NODE_OWNER 1    /* 64 bits: the voice, 0 for the host */
#define PIECRAG_NODE_KIND 3     /* four words of four bytes each, low byte first; then the length of the name */
#define PIECRAG_NODE_PORTS 8
#define PIECRAG_NODE_REQUIRED 9 /* 64 bits: bit p for port p */
#define PIECRAG_NODE_VALUES 11  /* flags: whether it takes values, glides; whether it is done */
#define PIECRAG_NODE_GLIDES 12
#define PIECRAG_NODE_DONE 13
#define PIECRAG_NODE_LEVEL 14   /* a float's bits: the level of the last reported block */
#define PIECRAG_NODE_LAST 15    /* the last order: 0 none, 1 a value, 2 a glide; then floats' bits: value or target, */
#define PIECRAG_NODE_TARGET 16
#define PIECRAG_NODE_SECONDS 17 /* and of a glide its seconds, shape, curve and space */
#define PIECRAG_NODE_SHAPE 18
#define PIECRAG_NODE_CURVE 19
#define PIECRAG_NODE_SPACE 20
#define PIECRAG_NODE_NOISE 21   /* the noise sequence that the next voice on this bus gets */

/* ---- words of an edge's record */
#define PIECRAG_EDGE_FROM 0
#define PIECRAG_EDGE_TO 1
#define PIECRAG_EDGE_PORT 2

/* ---- words of `waiting` */
#define PIECRAG_WAITING_KEYBOARDS 0 /* 64 bits: how many keyboards there are */
#define PIECRAG_WAITING_NEXT 2      /* 64 bits: the keyboard after the last served, at first 0 */

/* ==== making */

/* A new store. rate: hertz; block: samples of a block; limited: 0 for no budget, else `budget` voices may be tracked; policy, scope:
 * above; table: not 0 if fades take their gains from the fade table. Nothing is read or stored in the tables.
 * Refused: 1 rate not a whole number from 1 to 384,000; 2 block not 1 to 128; 3 budget above 64; 20 table at a rate other than 48,000. */
uint32_t piecrag_make(uint32_t *state, float rate, size_t block, uint32_t limited, size_t budget, uint32_t policy, uint32_t scope,
                      uint32_t table);

/* ==== the calls that a seal may close: the host's nodes and edges, the spawn, the wish; and sealing
 *
 * Each takes the seal's words first and is refused by 28, before all else, where the board is sealed and the seal closes the call. Every
 * other call is open on every board: turns, values, glides, events, frees, reports, prepares, renders, clearing, reading and blocks of
 * sound. On a sealed board no spawn and no turn answers 7. */

/* A node of the host. kind: a name; ports: up to 64; required: bit p set if port p must be connected; values, glides: flags, whether
 * it takes them. *node becomes its id.
 * Refused: 28 the board is sealed; 6 kind or ports; 7 512 nodes; 8 node ids used up. */
uint32_t piecrag_add_node(const uint32_t *seal, uint32_t *state, uint32_t *nodes, const uint8_t *kind, size_t kind_length,
                          uint32_t ports, uint64_t required, uint32_t values, uint32_t glides, uint32_t *node);

/* A node of the host is removed, with its edges; if it was the sink there is none then.
 * Refused: 28 the board is sealed; 4 unknown node; 5 a voice's node. */
uint32_t piecrag_remove_node(const uint32_t *seal, uint32_t *state, uint32_t *nodes, uint32_t *edges, uint32_t node);

/* The output of `from` feeds the port `port` of `to`, in the place of what fed it.
 * Refused: 28 the board is sealed; 4 unknown node; 5 a voice's node; 6 no such port; 7 1,024 edges. */
uint32_t piecrag_connect(const uint32_t *seal, uint32_t *state, const uint32_t *nodes, uint32_t *edges, uint32_t from, uint32_t to,
                         uint32_t port);

/* Nothing feeds the port any more.
 * Refused: 28 the board is sealed; 4 unknown node; 5 a voice's node; 6 no such port. */
uint32_t piecrag_disconnect(const uint32_t *seal, uint32_t *state, const uint32_t *nodes, uint32_t *edges, uint32_t to, uint32_t port);

/* The host hears this node.
 * Refused: 28 the board is sealed; 4 unknown node; 5 a voice's node. */
uint32_t piecrag_set_sink(const uint32_t *seal, uint32_t *state, const uint32_t *nodes, uint32_t node);

/* A spawn: a new voice of the definition that the bytes of the book hold, on the lowest free port of the node `bus`, panned unless pan is
 * 0. If `managed` is not 0, then at budget a voice is stolen for it, and for want of a port fades, then voices of the bus, are reclaimed;
 * of voices those of the lowest rank first, and none whose rank is above the new one's, 0 to 7. If `managed` is 0 the new voice is loose:
 * no budget counts it and nobody is removed for it. *voice becomes its id.
 * Refused: 28 the board is sealed, and the spawn is unmanaged or not on its bus, whatever the bytes hold, or the book has more nodes or edges
 * than was stated, also where that is more than a definition may have; 18 the book is malformed; 26 rank above 7; 9 its definition is
 * outside the limits;
 * 4, 5 unknown node, a voice's node; 10 bus without ports; 7 no headroom for its nodes, edges or the voice; 8 ids used up; 11 managed, at
 * budget, and nobody may give way; 12 no port, nothing left to reclaim; of an unmanaged one: no free port. */
uint32_t piecrag_spawn(const uint32_t *seal, uint32_t *state, uint32_t *nodes, uint32_t *edges, uint32_t *voices, uint32_t *steals,
                       uint32_t managed, const uint8_t *book, size_t book_length, uint32_t bus, float pan, uint32_t rank,
                       uint64_t *voice);

/* A wish of a keyboard, from 0, for a spawn with these arguments. It waits for its turn. The book is read and held whole; of bus, pan,
 * rank and the definition nothing but what a seal asks is tested before the turn.
 * Refused: 28 and 18 as piecrag_spawn; 24 no such keyboard; 25 16 wishes of that keyboard wait. */
uint32_t piecrag_wish(const uint32_t *seal, uint32_t *waiting, uint32_t *wishes, size_t keyboard, uint32_t managed, const uint8_t *book,
                      size_t book_length, uint32_t bus, float pan, uint32_t rank);

/* The board is sealed by what its builder states: its one bus and how many ports it has, how many nodes and edges of the host there are,
 * and the nodes and edges of the largest definition. A store without keyboards lends a `waiting` of zeros. Nothing but the seal changes.
 * Refused: 28 it is sealed; 27 not accepted, unless ports is 2 to 31; host_nodes + (ports + 1) * (def_nodes + 3) is at most 512;
 * host_edges + (ports + 1) * (def_edges + 4) is at most 1,024; bus is a node of the host with so many ports; the store has so many nodes
 * and edges, no voice and no waiting wish. */
uint32_t piecrag_seal(uint32_t *seal, const uint32_t *state, const uint32_t *nodes, const uint32_t *edges, const uint32_t *voices,
                      const uint32_t *waiting, uint32_t bus, uint64_t ports, uint64_t host_nodes, uint64_t host_edges,
                      uint64_t def_nodes, uint64_t def_edges);

/* ==== prepare and events */

/* The processing order is worked out: a render is silent until this has been done after the last change of nodes, edges or sink. The
 * ids stand in `order`; piecrag_processing_order tells how many they are.
 * Refused: 13 a required port is not connected; 14 a cycle. */
uint32_t piecrag_prepare(uint32_t *state, const uint32_t *nodes, const uint32_t *edges, uint32_t *order);

/* An event: at the sample `time` an action for the voice, of which `value` is the value, the target of the glide or the gate. A value and
 * a glide are for the parameter `name`; a gate is a value for the parameter `gate`; a free frees the voice: a timed release. The name of a
 * gate or a free is held, and does nothing. Only a glide looks at seconds, shape, curve and space: above. It is applied by the render whose
 * block has that sample, or by the next one if the sample is past. An unknown voice, a name that is no parameter: nothing happens when it
 * is due. A pending value for the same voice, parameter and time is replaced; a glide replaces a glide, a gate is a value for `gate`.
 * Refused: 7 256 events are pending, and none of them is replaced. */
uint32_t piecrag_schedule(uint32_t *state, uint32_t *events, uint64_t time, uint64_t voice, const uint8_t *name, size_t name_length,
                          uint32_t action, float value, float seconds, uint32_t shape, float curve, uint32_t space);

/* The same with one action each, and no more arguments than it looks at. */
static inline uint32_t piecrag_schedule_value(uint32_t *state, uint32_t *events, uint64_t time, uint64_t voice, const uint8_t *name,
                                              size_t name_length, float value)
{
    return piecrag_schedule(state, events, time, voice, name, name_length, PIECRAG_VALUE, value, 0.0f, 0, 0.0f, 0);
}

static inline uint32_t piecrag_schedule_glide(uint32_t *state, uint32_t *events, uint64_t time, uint64_t voice, const uint8_t *name,
                                              size_t name_length, float target, float seconds, uint32_t shape, float curve,
                                              uint32_t space)
{
    return piecrag_schedule(state, events, time, voice, name, name_length, PIECRAG_GLIDE, target, seconds, shape, curve, space);
}

static inline uint32_t piecrag_schedule_gate(uint32_t *state, uint32_t *events, uint64_t time, uint64_t voice, const uint8_t *name,
                                             size_t name_length, float value)
{
    return piecrag_schedule(state, events, time, voice, name, name_length, PIECRAG_GATE, value, 0.0f, 0, 0.0f, 0);
}

static inline uint32_t piecrag_schedule_free(uint32_t *state, uint32_t *events, uint64_t time, uint64_t voice, const uint8_t *name,
                                             size_t name_length)
{
    return piecrag_schedule(state, events, time, voice, name, name_length, PIECRAG_FREE, 0.0f, 0.0f, 0, 0.0f, 0);
}

/* ==== voices */

/* The voice is removed, with its nodes and edges. Answers 0, or 1 no such voice; then nothing happens. */
uint32_t piecrag_free_voice(uint32_t *state, uint32_t *nodes, uint32_t *edges, uint32_t *voices, uint64_t voice);

/* Clearing: the voices whose fade has ended go, then those whose output is silent by the done flags that were reported. *removed
 * becomes how many they were. Never refused. */
uint32_t piecrag_free_done_synths(uint32_t *state, uint32_t *nodes, uint32_t *edges, uint32_t *voices, size_t *removed);

/* A value for a parameter of a voice, now: it becomes the last order of the parameter's node.
 * Answers 0 applied, or the first that is true of 1 no such voice, 2 no such parameter, 3 its node takes no values; then nothing changes. */
uint32_t piecrag_set_voice_param(const uint32_t *state, uint32_t *nodes, const uint32_t *voices, uint64_t voice, const uint8_t *name,
                                 size_t name_length, float value);

/* The same for a glide to `target` within `seconds`; shape, curve, space: above. Answers 0, 1, 2, or 3 its node takes no glides. */
uint32_t piecrag_set_voice_param_glide(const uint32_t *state, uint32_t *nodes, const uint32_t *voices, uint64_t voice,
                                       const uint8_t *name, size_t name_length, float target, float seconds, uint32_t shape,
                                       float curve, uint32_t space);

/* The block that a node's generator has written, channel after channel, and whether it is done.
 * Refused: 4 unknown node, or a voice's fade, pan or constant node; 16 channels not 1 or 2, or samples not channels times block. */
uint32_t piecrag_report(const uint32_t *state, uint32_t *nodes, const uint32_t *voices, uint32_t node, size_t channels,
                        const float *samples, size_t samples_length, uint32_t done);

/* A block: the events that are due are applied in order, then fades move and the clock advances by a block. *sounding becomes 1 if
 * the graph is prepared and has a sink, else 0: then fades do not move. *taken becomes how many events were due; entry i of `outcomes`
 * tells what became of the i-th: 0 applied, 1 no such voice, 2 no such parameter, 3 its node takes none of that sort; a free answers 0
 * or 1. Later entries stay. A free among the events prepares; if the last such prepare fails, the answer is its 13 or 14 and the block
 * is silent, but all the rest was done.
 * Refused: 15 the clock would pass 2^64 - 1; 17 outcomes has fewer than 256 entries. */
uint32_t piecrag_render(uint32_t *state, uint32_t *nodes, uint32_t *edges, uint32_t *order, uint32_t *voices, uint32_t *events,
                        uint8_t *outcomes, size_t outcomes_length, uint32_t *sounding, size_t *taken);

/* ==== keyboards: wishes for spawns wait, and turns serve them one by one, so that no keyboard waits for ever */

/* A new store with so many keyboards, at which nothing waits. The other arguments as of piecrag_make. Nothing is read or stored in the
 * tables.
 * Refused: 1, 2, 3, 20 as piecrag_make; 24 keyboards not 1 to 8. */
uint32_t piecrag_make_console(uint32_t *state, uint32_t *waiting, float rate, size_t block, uint32_t limited, size_t budget,
                              uint32_t policy, uint32_t scope, uint32_t table, size_t keyboards);

/* A turn: the oldest wish of the next keyboard, going round after the last served, that has one. With m keyboards a wish with k before
 * it on its own keyboard is served within (k + 1) times m turns. *keyboard becomes the keyboard served.
 * Answers 0, and *voice becomes the id of the new voice; or what the spawn was refused by: 26, 9, 4, 5, 10, 7, 8, 11, 12. The wish is
 * served then too and waits no more; of the store nothing changes, but that after 12 the steals and reclaims stand.
 * PIECRAG_TURN_EMPTY if no wish waited: then nothing changes, and no cell. Never refused itself. */
uint32_t piecrag_turn(uint32_t *state, uint32_t *nodes, uint32_t *edges, uint32_t *voices, uint32_t *steals, uint32_t *waiting,
                      const uint32_t *wishes, size_t *keyboard, uint64_t *voice);

/* *count becomes how many keyboards there are. */
uint32_t piecrag_keyboard_count(const uint32_t *waiting, size_t *count);

/* *count becomes how many wishes wait at a keyboard; 0 where there is no such keyboard. */
uint32_t piecrag_waiting_count(const uint32_t *waiting, size_t keyboard, size_t *count);

/* The keyboard that the next turn serves: *found becomes 1 and *keyboard that keyboard; *found 0 if no wish waits. */
uint32_t piecrag_next_keyboard(const uint32_t *waiting, uint32_t *found, size_t *keyboard);

/* ==== reading. These change nothing but the lent cells and blocks; where there is nothing to tell, a cell stays as it was */

/* The level of a voice: *known becomes 1 and *level its level; 0 for an unknown or newborn voice or a dead output. */
uint32_t piecrag_voice_level(const uint32_t *state, const uint32_t *nodes, const uint32_t *voices, uint64_t voice, uint32_t *known,
                             float *level);

/* The position of a voice's fade, in samples: *fading becomes 1; 0 if it has no fade. */
uint32_t piecrag_fade_position(const uint32_t *state, const uint32_t *voices, uint64_t voice, uint32_t *fading, uint64_t *position);

/* The record of a voice: *found becomes 1 and row the PIECRAG_VOICE_RECORD_WORDS words described above; 0 if there is none. */
uint32_t piecrag_voice(const uint32_t *state, const uint32_t *voices, uint64_t voice, uint32_t *found, uint32_t *row);

/* The same of the voice at a place in voice order, from 0. */
uint32_t piecrag_voice_at(const uint32_t *state, const uint32_t *voices, size_t place, uint32_t *found, uint32_t *row);

/* The record of a node: *found becomes 1 and row the PIECRAG_NODE_RECORD_WORDS words described above; 0 if there is none. */
uint32_t piecrag_node_record(const uint32_t *state, const uint32_t *nodes, uint32_t node, uint32_t *found, uint32_t *row);

/* *count becomes how many voices there are: in voice order they are the first rows of `voices`. */
uint32_t piecrag_voices(const uint32_t *state, const uint32_t *voices, size_t *count);

/* *count becomes how many edges there are: in their order they are the first rows of `edges`. */
uint32_t piecrag_edges(const uint32_t *state, const uint32_t *edges, size_t *count);

/* *count becomes how many nodes the processing order of the last good prepare has: their ids are the first words of `order`. */
uint32_t piecrag_processing_order(const uint32_t *state, const uint32_t *order, size_t *count);

/* The edge at a place in their order, from 0: *found becomes 1 and row its PIECRAG_EDGE_RECORD_WORDS words; 0 if there is none. */
uint32_t piecrag_edge_at(const uint32_t *state, const uint32_t *edges, size_t place, uint32_t *found, uint32_t *row);

/* What feeds a port of a node: *fed becomes 1 and *from the id of the source; 0 if nothing does. */
uint32_t piecrag_source(const uint32_t *state, const uint32_t *edges, uint32_t node, uint32_t port, uint32_t *fed, uint32_t *from);

/* *clock becomes the number of samples rendered so far. */
uint32_t piecrag_clock(const uint32_t *state, uint64_t *clock);

/* *total becomes how many steals there were, *held of how many the record is held: the newest, at most 64. */
uint32_t piecrag_steals(const uint32_t *state, const uint32_t *steals, uint64_t *total, size_t *held);

/* The record at a place of those that are held, oldest first, from 0: *found becomes 1, *sample the clock at the steal, *known whether
 * the victim's level was known, *level that level (it says nothing unless known), *cut whether the victim was cut; *found 0 if there
 * is none. */
uint32_t piecrag_steal_at(const uint32_t *state, const uint32_t *steals, size_t place, uint32_t *found, uint64_t *sample,
                          uint32_t *known, float *level, uint32_t *cut);

/* The busiest stretch of `width` consecutive samples among the records that are held: *count becomes how many records are in it,
 * *sample the sample of the first of them; without records *count becomes 0 and *sample stays.
 * Refused: 22 width is 0; 23 samples fall somewhere, which no calls bring about. */
uint32_t piecrag_busiest_steals(const uint32_t *state, const uint32_t *steals, uint64_t width, size_t *count, uint64_t *sample);

/* The page: a line for each voice with its id, age, port and state. *length becomes how many bytes of `out` it took; later bytes stay.
 * Refused: 17 out is too short. */
uint32_t piecrag_page(const uint32_t *state, const uint32_t *edges, const uint32_t *voices, uint8_t *out, size_t out_length,
                      size_t *length);

/* ==== blocks of sound, by the store's rules. Channel after channel; output channel c reads channel c modulo the input's count */

/* The output of a fade whose position before the render was `position`. ins, outs: channels. gains: the fade length or more, unless
 * the store was made with the fade table, then they are not looked at.
 * Refused: 16 channels not 1 or 2, a block not channels times block samples, or too few gains. */
uint32_t piecrag_fade_output(const uint32_t *state, const float *input, size_t input_length, size_t ins, const float *gains,
                             size_t gains_length, uint64_t position, float *out, size_t out_length, size_t outs);

/* The sum of a bus. inputs: the blocks of its fed ports one after the other; counts: the channels of each.
 * Refused: 16 channels not 1 or 2, a block of another length, or more than 64 inputs. */
uint32_t piecrag_bus_sum(const uint32_t *state, const float *inputs, size_t inputs_length, const size_t *counts, size_t counts_length,
                         float *out, size_t out_length, size_t outs);

/* The same two for samples from -2^23 to 2^23 - 1 and gains from 0 to 2^24; the sum is clipped to that range.
 * Refused: 16 as above; 21 a sample or a lent gain outside its range. */
uint32_t piecrag_whole_fade_output(const uint32_t *state, const int32_t *input, size_t input_length, size_t ins, const uint32_t *gains,
                                   size_t gains_length, uint64_t position, int32_t *out, size_t out_length, size_t outs);
uint32_t piecrag_whole_bus_sum(const uint32_t *state, const int32_t *inputs, size_t inputs_length, const size_t *counts,
                               size_t counts_length, int32_t *out, size_t out_length, size_t outs);

#ifdef __cplusplus
}
#endif

#endif
