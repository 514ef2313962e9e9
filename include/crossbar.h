/* A buffered crossbar of up to sixteen ports. This header is the whole manual of the host; examples/host.c is an
   example of it, and examples/rehearsal.c one of its cues.

   The switch is a table of bytes that the host keeps and lends to every call: start makes one, slot runs it for one
   slot, check says whether bytes are one. At start each output may be set fair: there the host sends weights, and the
   switch makes the ranks. Up to four cues hold the whole switch, each under a name, to come back to; they are kept in a
   cue store, bytes of the host as well. convert and convert_cues write what an older version kept in the layout of this
   one. No call asks anything of the values that it is lent: a bad
   one is a refusal. A call keeps nothing, allocates nothing and has no state of its own, so any number of threads may
   call, each with bytes of its own. A pointer to no bytes may be null: an empty slot is lent NULL, 0. Any other pointer
   is to as many bytes as the number behind it says, and what one call is lent does not overlap. docs/LAYOUT.md has
   every byte. */
#ifndef CROSSBAR_H
#define CROSSBAR_H

#include <stddef.h>
#include <stdint.h>

#ifdef __cplusplus
extern "C" {
#endif

/* The version of this header and of the library that it describes, and the number of the layout, with which every table
   and every cue store begins. */
#define CROSSBAR_VERSION "3.0.0"
#define CROSSBAR_LAYOUT 2u

/* Limits. */
#define CROSSBAR_PORTS 16u    /* ports at most */
#define CROSSBAR_FLOWS 8u     /* flows of an input and output */
#define CROSSBAR_CELLS 64u    /* cells of an input in the switch at most */
#define CROSSBAR_CUES 4u      /* cues in a store at most */
#define CROSSBAR_WEIGHT 1024u /* weight at a fair output at most, and 1 at least */

/* Sizes in bytes. */
#define CROSSBAR_TABLE_BYTES 24680u
#define CROSSBAR_ARRIVAL_BYTES 20u    /* input, output, flow, rank or weight, tag: 32 bits each */
#define CROSSBAR_DEPARTURE_BYTES 28u  /* 1 and input, output, flow, rank, tag, slot; or zeros */
#define CROSSBAR_ANSWER_BYTES 584u    /* 16 departures, then the proposals and the occupancies of both phases */
#define CROSSBAR_TALLY_BYTES 32u      /* slots run, slots refused, cells in, cells out: 64 bits each */
#define CROSSBAR_NAME_BYTES 8u        /* a cue's name at most */
#define CROSSBAR_STORE_BYTES 98768u   /* 16 bytes, then four places, a name and a table each */

/* Refusals. 0 is done. */
#define CROSSBAR_BAD_SIZE 1u      /* bad size: the number of ports is not 1 to 16 */
#define CROSSBAR_BROKEN_TABLE 2u  /* broken table: the lent table or cue store is not sound, or its length is wrong */
#define CROSSBAR_CLOCK_END 3u     /* clock end: the clock is at 4,294,967,295 */
#define CROSSBAR_NO_SUCH_PORT 4u  /* no such port: an input or an output is not below the number of ports */
#define CROSSBAR_NO_SUCH_FLOW 5u  /* no such flow: a flow is above 7 */
#define CROSSBAR_INPUT_ORDER 6u   /* out of turn: an input is not above the one of the record before */
#define CROSSBAR_RANK_ORDER 7u    /* falling rank: a cell of higher rank of the same flow is in the switch */
#define CROSSBAR_FULL 8u          /* full: 64 cells of this input are in the switch */
#define CROSSBAR_BAD_LINE 9u      /* bad line: the text breaks the grammar */
#define CROSSBAR_SHORT_BUFFER 10u /* short tray: the buffer for an answer is too short */
#define CROSSBAR_BAD_NAME 11u     /* bad name: the name of a cue is not 1 to 8 lower-case letters */
#define CROSSBAR_CUES_FULL 12u    /* cues full: four cues are held, and none of this name */
#define CROSSBAR_NO_SUCH_CUE 13u  /* no such cue: no cue of this name is held */
#define CROSSBAR_BAD_WEIGHT 14u   /* bad weight: at a fair output the rank is not 1 to 1,024 */
#define CROSSBAR_RANK_END 15u     /* rank end: at a fair output the rank made passes 4,294,967,295 */

/* The result of slot, taken apart. */
#define CROSSBAR_REFUSAL(result) ((uint32_t)((result) & 255u)) /* 0, or a refusal */
#define CROSSBAR_PLACE(result) ((uint64_t)(result) >> 8)       /* of the refused record, from 1; 0 for 2, 3 and 10 */

/* An answer, taken apart: the byte at which each part begins. The first phase is 0, the second 1. A count has 32
   bits. */
#define CROSSBAR_DEPARTURE_AT(output) (CROSSBAR_DEPARTURE_BYTES * (output))
#define CROSSBAR_PROPOSALS_AT(phase) (448u + 4u * (phase))
#define CROSSBAR_OCCUPANCY_AT(phase, output) (456u + 64u * (phase) + 4u * (output))

/* The bit of fair that marks an output, to be joined by |. */
#define CROSSBAR_FAIR(output) (1u << (output))

/* Writes the table of a fresh switch into the first CROSSBAR_TABLE_BYTES of table, with ports from 1 to 16, no cells,
   any first slot and the outputs fair whose bits are set; bytes past it are kept. Returns 0, or, changing nothing,
   CROSSBAR_BAD_SIZE, then CROSSBAR_NO_SUCH_PORT where a bit is set at an output that the switch does not have, then
   CROSSBAR_SHORT_BUFFER. With fair 0 every rank stands as it is sent. */
uint32_t start(uint32_t ports, uint32_t first, uint32_t fair, uint8_t *table, size_t table_bytes);

/* Says whether bytes are the table of a sound state: 0, or CROSSBAR_BROKEN_TABLE. Changes nothing. */
uint32_t check(const uint8_t *table, size_t table_bytes);

/* Runs one slot. arrivals are records of CROSSBAR_ARRIVAL_BYTES, a cell each; an empty slot has none.

   At a fair output the rank of a record is a weight, 1 to CROSSBAR_WEIGHT. The rank of its cell is the larger of two,
   the last rank given to its flow and the rank of the last cell that left this output (each 0 where there was none),
   plus 1,048,576 / weight, rounded down. Both are of earlier slots. So flows that always have cells waiting share the
   output as their weights do, and one that was silent saves up no turns. The switch remembers these ranks in its table
   until the next start; a refused slot remembers nothing. At any other output the rank is the record's own.

   Done, the result is 0. table is the switch after the slot, its clock one up. The first CROSSBAR_ANSWER_BYTES of
   answer are the departures, output 0 first, then the proposals of both phases, then for each phase the occupancies,
   output 0 first; bytes past them are kept. tally counts one slot run, the cells that arrived and those that departed;
   a count at its top stays there. On a table that came from start by slot calls and by returns to cues of such tables
   alone, the departures are those of a PIFO output-queued switch with the same marks, which makes its own ranks: each
   output sends, of all cells for it in the switch, the one of the smallest rank; for equal ranks that of the smaller
   slot. Among cells of equal rank and slot s, that of input s mod N goes first, then the next, round to the start; N is
   the number of ports, and s the slot in which the cells were accepted, not the clock.

   An occupancy says how crowded an output is: how many of its crosspoints hold a cell when it chooses among them, from
   0 to the number of ports. Cells just sent there are counted, and so is the cell that it takes. Where a cell came to
   it straight it takes none, and those that wait are counted just the same. It is 0 at outputs that the switch does not
   have.

   A refusal is the first fault in this order:
     CROSSBAR_BROKEN_TABLE  table is not sound or not CROSSBAR_TABLE_BYTES long, arrivals_bytes is no multiple of
                            CROSSBAR_ARRIVAL_BYTES, or tally_bytes is not CROSSBAR_TALLY_BYTES
     CROSSBAR_SHORT_BUFFER  answer_bytes is below CROSSBAR_ANSWER_BYTES
     CROSSBAR_CLOCK_END
     record by record: CROSSBAR_NO_SUCH_PORT, CROSSBAR_NO_SUCH_FLOW, CROSSBAR_INPUT_ORDER, at a fair output
                       CROSSBAR_BAD_WEIGHT and CROSSBAR_RANK_END, then CROSSBAR_RANK_ORDER, CROSSBAR_FULL, the last
                       three by the cells in the switch and the ranks remembered before the slot
   At a fair output CROSSBAR_RANK_ORDER goes by the rank made, and never comes on a table that came from start by slot
   calls and by returns to cues of such tables alone.

   The answer of a refused slot is no departures, proposals 0 and occupancies 0, and nothing of that is written: answer
   keeps its bytes, so read the result first, and answer only where it is 0. A refusal changes nothing but the tally's
   count of refused slots, and not even that where tally_bytes is wrong. So the host can mend the arrivals and call
   again. */
uint64_t slot(uint8_t *table, size_t table_bytes, const uint8_t *arrivals, size_t arrivals_bytes, uint8_t *answer,
              size_t answer_bytes, uint8_t *tally, size_t tally_bytes);

/* Older tables. Versions before 3.0.0 kept tables of CROSSBAR_OLD_TABLE_BYTES and cue stores of
   CROSSBAR_OLD_STORE_BYTES, with the layout number 1. Every other call refuses them with CROSSBAR_BROKEN_TABLE. */
#define CROSSBAR_OLD_TABLE_BYTES 16416u
#define CROSSBAR_OLD_STORE_BYTES 65712u

/* Writes the switch of an older table into the first CROSSBAR_TABLE_BYTES of table: its ports, its clock and its cells,
   no output fair and no rank remembered; bytes past it are kept. Returns 0, or, changing nothing, CROSSBAR_BROKEN_TABLE
   where old is not the table of a sound state in that layout, then CROSSBAR_SHORT_BUFFER.

   In a table kept from version 2.0.0 the smaller input went first; now its ties go by the order above. If cells of
   equal rank and slot waited in it for one output, its departures are sure to be those of a PIFO switch only once it
   has been empty. */
uint32_t convert(const uint8_t *old, size_t old_bytes, uint8_t *table, size_t table_bytes);

/* Writes the cues of an older store into the first CROSSBAR_STORE_BYTES of store, each under its name, in its place and
   with its switch as convert writes it; bytes past it are kept. Returns 0, or, changing nothing, CROSSBAR_BROKEN_TABLE
   where old is no sound cue store in that layout, then CROSSBAR_SHORT_BUFFER. */
uint32_t convert_cues(const uint8_t *old, size_t old_bytes, uint8_t *store, size_t store_bytes);

/* Cues. A cue holds the whole switch as it was when the cue was set, clock and remembered ranks included, under a name
   of 1 to CROSSBAR_NAME_BYTES lower-case letters, a to z. A name is lent without a zero behind it: "intro", 5. A cue
   store has four places, each free or with a cue.

   A store is sound if its names are well formed, no two are alike, and each cue holds a sound table, of any number of
   ports and any clock; so one store may have cues of switches of several sizes. Anything else lent as a store, be it a
   sound one with a byte more, is refused with CROSSBAR_BROKEN_TABLE.

   No cue call is lent a tally, so the tally is never wound back: slots that are played, returned from and played again
   count twice. A refused call changes nothing. */

/* Writes a store without cues into the first CROSSBAR_STORE_BYTES of store; bytes past it are kept. Returns 0, or,
   changing nothing, CROSSBAR_SHORT_BUFFER. */
uint32_t cue_start(uint8_t *store, size_t store_bytes);

/* Says whether bytes are a sound cue store: 0, or CROSSBAR_BROKEN_TABLE. Changes nothing. */
uint32_t cue_check(const uint8_t *store, size_t store_bytes);

/* Sets a cue: under name the store then holds the switch of table. A name that is held is replaced in its place, also
   where four are held; a new name takes the lowest free place. The other cues are kept. Returns 0, or the first fault
   in this order:
     CROSSBAR_BROKEN_TABLE  table is not sound or not CROSSBAR_TABLE_BYTES long, or store is not sound or not
                            CROSSBAR_STORE_BYTES long
     CROSSBAR_BAD_NAME
     CROSSBAR_CUES_FULL     the name is new and four cues are held */
uint32_t cue_set(const uint8_t *table, size_t table_bytes, uint8_t *store, size_t store_bytes, const uint8_t *name,
                 size_t name_bytes);

/* Drops a cue, which frees its place for another; the other cues keep theirs. Returns 0, or the first fault in this
   order: CROSSBAR_BROKEN_TABLE of the store, CROSSBAR_BAD_NAME, CROSSBAR_NO_SUCH_CUE. */
uint32_t cue_drop(uint8_t *store, size_t store_bytes, const uint8_t *name, size_t name_bytes);

/* Returns to a cue: table is then the switch that the cue holds, with its number of ports, its clock, its fair outputs
   and the ranks that it remembered. No cue is dropped, so the host may return to it again. Every slot until the next
   return answers as if the slots since the cue had not been played. Returns 0, or the first fault in this order:
     CROSSBAR_BROKEN_TABLE  as for cue_set; table has to be sound although it is written over
     CROSSBAR_BAD_NAME
     CROSSBAR_NO_SUCH_CUE */
uint32_t cue_return(uint8_t *table, size_t table_bytes, const uint8_t *store, size_t store_bytes, const uint8_t *name,
                    size_t name_bytes);

#ifdef __cplusplus
}
#endif

#endif
