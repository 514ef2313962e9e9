/* An output-queued switch of up to sixteen ports: a model of the crossbar's outputs, for a laptop. A new cell waits at
   its output at once. There are no lists, no crosspoints, no phases and no cues; what departs is what departs from the
   crossbar of crossbar.h. This header is the whole manual of the host; examples/outputs.c is an example of it.

   The switch is a table of bytes that the host keeps and lends to every call: oq_start makes one, oq_slot runs it for
   one slot, oq_check says whether bytes are one. At start each output may be set fair: there the host sends weights,
   and the switch makes the ranks. oq_convert writes what an older version kept in the layout of this one. No call asks
   anything of the values that it is lent: a bad one is a refusal. A call keeps nothing, allocates nothing and has no
   state of its own, so any number of threads may call, each with bytes of its own. A pointer to no bytes may be null:
   an empty slot is lent NULL, 0. Any other pointer is to as many bytes as the number behind it says, and what one call
   is lent does not overlap. docs/LAYOUT.md has every byte.

   A program may have this switch and the crossbar beside each other. Neither takes the other's table. */
#ifndef OQ_H
#define OQ_H

#include <stddef.h>
#include <stdint.h>

#ifdef __cplusplus
extern "C" {
#endif

/* The version of this header and of the library that it describes, and the number of the layout, with which every table
   begins. */
#define OQ_VERSION "3.0.0"
#define OQ_LAYOUT 102u

/* Limits. */
#define OQ_PORTS 16u    /* ports at most */
#define OQ_FLOWS 8u     /* flows of an input and output */
#define OQ_CELLS 64u    /* cells of an input in the switch at most */
#define OQ_WEIGHT 1024u /* weight at a fair output at most, and 1 at least */

/* Sizes in bytes. */
#define OQ_TABLE_BYTES 24680u
#define OQ_ARRIVAL_BYTES 20u   /* input, output, flow, rank or weight, tag: 32 bits each */
#define OQ_DEPARTURE_BYTES 28u /* 1 and input, output, flow, rank, tag, slot; or zeros */
#define OQ_ANSWER_BYTES 448u   /* 16 departures */
#define OQ_TALLY_BYTES 32u     /* slots run, slots refused, cells in, cells out: 64 bits each */

/* Refusals. 0 is done. Each has the number and the meaning that it has in crossbar.h. */
#define OQ_BAD_SIZE 1u      /* bad size: the number of ports is not 1 to 16 */
#define OQ_BROKEN_TABLE 2u  /* broken table: the lent table is not sound, or its length is wrong */
#define OQ_CLOCK_END 3u     /* clock end: the clock is at 4,294,967,295 */
#define OQ_NO_SUCH_PORT 4u  /* no such port: an input or an output is not below the number of ports */
#define OQ_NO_SUCH_FLOW 5u  /* no such flow: a flow is above 7 */
#define OQ_INPUT_ORDER 6u   /* out of turn: an input is not above the one of the record before */
#define OQ_RANK_ORDER 7u    /* falling rank: a cell of higher rank of the same flow is in the switch */
#define OQ_FULL 8u          /* full: 64 cells of this input are in the switch */
#define OQ_SHORT_BUFFER 10u /* short tray: the buffer for an answer is too short */
#define OQ_BAD_WEIGHT 14u   /* bad weight: at a fair output the rank is not 1 to 1,024 */
#define OQ_RANK_END 15u     /* rank end: at a fair output the rank made passes 4,294,967,295 */

/* The result of oq_slot, taken apart. */
#define OQ_REFUSAL(result) ((uint32_t)((result) & 255u)) /* 0, or a refusal */
#define OQ_PLACE(result) ((uint64_t)(result) >> 8)       /* of the refused record, from 1; 0 for 2, 3 and 10 */

/* The byte of an answer at which the departure of an output begins. */
#define OQ_DEPARTURE_AT(output) (OQ_DEPARTURE_BYTES * (output))

/* The bit of fair that marks an output, to be joined by |. */
#define OQ_FAIR(output) (1u << (output))

/* Writes the table of a fresh switch into the first OQ_TABLE_BYTES of table, with ports from 1 to 16, no cells, any
   first slot and the outputs fair whose bits are set; bytes past it are kept. Returns 0, or, changing nothing,
   OQ_BAD_SIZE, then OQ_NO_SUCH_PORT where a bit is set at an output that the switch does not have, then
   OQ_SHORT_BUFFER. With fair 0 every rank stands as it is sent. */
uint32_t oq_start(uint32_t ports, uint32_t first, uint32_t fair, uint8_t *table, size_t table_bytes);

/* Says whether bytes are the table of a sound state: 0, or OQ_BROKEN_TABLE. Changes nothing. */
uint32_t oq_check(const uint8_t *table, size_t table_bytes);

/* Runs one slot. arrivals are records of OQ_ARRIVAL_BYTES, a cell each; an empty slot has none.

   At a fair output the rank of a record is a weight, 1 to OQ_WEIGHT. The rank of its cell is the larger of two, the
   last rank given to its flow and the rank of the last cell that left this output (each 0 where there was none), plus
   1,048,576 / weight, rounded down. Both are of earlier slots. The switch remembers these ranks in its table until the
   next start; a refused slot remembers nothing. At any other output the rank is the record's own.

   Done, the result is 0. table is the switch after the slot, its clock one up. The first OQ_ANSWER_BYTES of answer are
   the departures, output 0 first; bytes past them are kept. tally counts one slot run, the cells that arrived and those
   that departed; a count at its top stays there. Each output sends, of all cells for it in the switch, those that just
   arrived included, the one of the smallest rank; for equal ranks that of the smaller slot. Among cells of equal rank
   and slot s, that of input s mod N goes first, then the next, round to the start; N is the number of ports, and s the
   slot in which the cells were accepted, not the clock.

   So it answers as a PIFO output-queued switch does, on any sound table. Begun with the same number of ports, the same
   first slot and the same fair outputs, and lent the same arrivals, a buffer that is long enough and a tally, it
   refuses just the slots that the crossbar refuses, with the same result, and sends the cells that the crossbar sends.

   A refusal is the first fault in this order:
     OQ_BROKEN_TABLE  table is not sound or not OQ_TABLE_BYTES long, arrivals_bytes is no multiple of
                      OQ_ARRIVAL_BYTES, or tally_bytes is not OQ_TALLY_BYTES
     OQ_SHORT_BUFFER  answer_bytes is below OQ_ANSWER_BYTES
     OQ_CLOCK_END
     record by record: OQ_NO_SUCH_PORT, OQ_NO_SUCH_FLOW, OQ_INPUT_ORDER, at a fair output OQ_BAD_WEIGHT and OQ_RANK_END,
                       then OQ_RANK_ORDER, OQ_FULL, the last three by the cells in the switch and the ranks remembered
                       before the slot
   The answer of a refused slot is no departures, and nothing of that is written: answer keeps its bytes, so read the
   result first, and answer only where it is 0. A refusal changes nothing but the tally's count of refused slots, and
   not even that where tally_bytes is wrong. So the host can mend the arrivals and call again. */
uint64_t oq_slot(uint8_t *table, size_t table_bytes, const uint8_t *arrivals, size_t arrivals_bytes, uint8_t *answer,
                 size_t answer_bytes, uint8_t *tally, size_t tally_bytes);

/* Writes the switch of an older table, of OQ_OLD_TABLE_BYTES and with the layout number 101 as versions before 3.0.0
   kept it, into the first OQ_TABLE_BYTES of table: its ports, its clock and its cells, no output fair and no rank
   remembered; bytes past it are kept. Returns 0, or, changing nothing, OQ_BROKEN_TABLE where old is not the table of a
   sound state in that layout, then OQ_SHORT_BUFFER. Every other call refuses an older table with OQ_BROKEN_TABLE. */
#define OQ_OLD_TABLE_BYTES 16420u
uint32_t oq_convert(const uint8_t *old, size_t old_bytes, uint8_t *table, size_t table_bytes);

#ifdef __cplusplus
}
#endif

#endif
