/*
 * Slot plans of toll plazas for programs in C.  The functions are those of the crate
 * `slotplan_lib`, which the crate `slotplan_lib_c` exports; `tools/library.sh` proves both and
 * writes target/staticlib/libslotplan_lib.a for x86-64 Linux.
 *
 * The state of a live site is its plan bytes and 576 counters.  The host keeps both; the library
 * keeps nothing between calls and reserves no memory.  Of the C library the archive asks for memcpy
 * and memset, and for nothing else.  A function that changes the site takes the bytes as they are
 * and writes the new ones into another buffer.  Nothing of a site is lost in its bytes and nothing
 * added, so a file with the bytes of the last change is the live site.
 *
 * What a host must guarantee, since nothing here can test it: each pointer is aligned for its type
 * and leads to as many elements as the length behind it says, all of them readable, and writable
 * where the pointer is not const; nobody else writes them during the call; and memory behind a
 * pointer that is not const overlaps no other memory of the same call.  Lists that are only read
 * may overlap.  With length 0 the pointer may be anything, NULL too: the list is empty.  Lengths
 * count elements, not bytes.  Everything else is tested: any bytes, numbers and lengths may be
 * handed in, and a call ends and answers.
 *
 * A site may have no links: its plan is END alone, the one byte FF, and so is its schedule file.
 *
 * Units: counters and arrivals are packets, capacities and rates packets a slot; gaps, periods,
 * offsets, deadlines and bounds are slots.  The width of a flow on a link of its route is its rate
 * times the link's period, in packets.
 *
 * Each function lists its checks in their order.  The first that fails refuses the call, with its
 * number and a place; then all memory is as it was before.  Both are proved over all eleven
 * functions: laws host_first and refused_leaves of the crate host_runs.  The numbers are those of
 * documents 01 and 02:
 *
 *    1  a buffer to be filled is too short; any other list has not the length it must have
 *    2  the operands of a command are cut off, or there is no END
 *    3  a command that plans do not have; in a schedule file, any command but LINK and END
 *    4  a NODE after a FLOW
 *    5  a number outside its limits
 *    6  a parent not below its node, a node that the site does not have, flow numbers not rising
 *    7  a 64th NODE
 *    8  a node deeper than 8
 *   10  bytes after END
 *   11  crowded: no base fits the children of a parent
 *   12  a link's capacity is below the sum of the widths of all flows that use it
 *   13  the periods on a flow's route sum to more than its deadline
 *   14  the plan bytes are refused; slotplan_read_plan tells by which check and where.  Or no file
 *       reads to the schedule that is handed in
 *   15  the flow number is live already
 *   16  the flow number is not live
 *   17  live flows leave less of a link's capacity than the new flow's width
 *   18  the periods on the route sum to more than the deadline of the new flow
 *   19  more than 4,294,967,295 packets of a live flow, its nine cells and its arrival together
 *   20  arrivals for a flow number that is not live
 *   21  in a schedule file, a LINK whose number does not follow on the one before (the first on 0),
 *       or a 64th LINK
 *   22  in a schedule file, a period that is 0 or above 1,024, or an offset not below its period
 *
 * Over lists of calls: a host hands each slot, admission and release the plan bytes and the counters
 * that the last of these left.  After an accepted change the first bytes of out, as many as the
 * value says, are its plan; after a refused one the old bytes still are.  Then what demand 3 claims
 * holds for every flow that begins with cells of 0, stays admitted and gets at most its rate in a
 * slot, while no rehearsal starts anew and the numbers of accepted slots rise by one: law
 * host_demand3 of the crate host_runs.  Calls of the other functions may stand anywhere between.
 */
#ifndef SLOTPLAN_LIB_H
#define SLOTPLAN_LIB_H

#include <stddef.h>
#include <stdint.h>

#ifdef __cplusplus
extern "C" {
#endif

#define SLOTPLAN_LINKS_MOST 63     /* links of a site, gaps of a list; length of a schedule's two lists */
#define SLOTPLAN_NUMBERS 64        /* flow numbers, 0 to 63: the length of every list of arrivals */
#define SLOTPLAN_CELLS 9           /* of a flow number: eight queues from its entry link up, delivered */
#define SLOTPLAN_COUNTERS 576      /* SLOTPLAN_NUMBERS times SLOTPLAN_CELLS */
#define SLOTPLAN_PLAN_MOST 763     /* bytes of the longest plan: a buffer of this size always does */
#define SLOTPLAN_SCHEDULE_MOST 379 /* bytes of the longest schedule */

/* An answer: 0 in the highest 8 bits and a value in the others, or the number of a refusal and its
 * place. */
typedef uint64_t slotplan_answer;

#define SLOTPLAN_NUMBER(answer) ((unsigned)((answer) >> 56)) /* 0: accepted */
#define SLOTPLAN_ACCEPTED(answer) (SLOTPLAN_NUMBER(answer) == 0)
#define SLOTPLAN_VALUE(answer) ((answer) & UINT64_C(0x00FFFFFFFFFFFFFF))
#define SLOTPLAN_PLACE(answer) SLOTPLAN_VALUE(answer)

/* The two parts of the value of slotplan_read_plan. */
#define SLOTPLAN_LINKS(answer) ((unsigned)((answer) & 0xFF))
#define SLOTPLAN_FLOWS(answer) ((unsigned)((answer) >> 8 & 0xFF))

/* The first of the nine cells of a flow number among the counters. */
#define SLOTPLAN_CELL(number) ((size_t)(number) * SLOTPLAN_CELLS)

/* Reads a plan and judges it.  Value: how many links it has, and how many flows (the macros
 * SLOTPLAN_LINKS and SLOTPLAN_FLOWS).
 * Checks: for each command 3, 2, 4, 7, 5, 6, 8; at END 10; then 11, 12, 13.
 * Places: offset of the command (of 10, of the first byte after END; of 2 without END, the number
 * of bytes); parent of 11; lowest link of 12; lowest flow number of 13. */
slotplan_answer slotplan_read_plan(const uint8_t *plan, size_t plan_length);

/* Writes the schedule of a plan into the front of out: for each link 11 hexadecimal, its number,
 * and offset and period in slots with the low byte first; then FF.  Value: the number of bytes
 * written.  The rest of out keeps what it held.
 * Checks: those of slotplan_read_plan, with their places; 1 for out, place 0. */
slotplan_answer slotplan_schedule(const uint8_t *plan, size_t plan_length,
                                  uint8_t *out, size_t out_length);

/* Reads a schedule file in the form that slotplan_schedule writes: LINK commands, then END.  Both
 * lists have SLOTPLAN_LINKS_MOST elements.  Value: the number of links.  Offset and period of link n
 * stand at index n - 1; the elements past the links become 0.  Links are not compared with each
 * other, so two of them may have a slot in common.
 * Checks: 1 for offsets or periods, place 0; for each command 3, 2, 21, 22; at END 10.
 * Places: offset of the command (of 10, of the first byte after END; of 2 without END, the number
 * of bytes). */
slotplan_answer slotplan_read_schedule(const uint8_t *file, size_t file_length,
                                       uint16_t *offsets, size_t offsets_length,
                                       uint16_t *periods, size_t periods_length);

/* Writes a schedule that is handed in, the number of its links and two lists as
 * slotplan_read_schedule fills them, into the front of out, in the form that slotplan_schedule
 * writes.  Value: the number of bytes written.  The rest of out keeps what it held.  The schedule
 * that an accepted file reads to gives the bytes of that file.
 * Checks: 1 for offsets or periods, 14, place 0; 1 for out, place 0.  What 14 refuses: more than 63
 * links; a link with a period that is 0 or above 1,024, or with an offset not below its period; an
 * element past the links that is not 0. */
slotplan_answer slotplan_write_schedule(uint8_t links,
                                        const uint16_t *offsets, size_t offsets_length,
                                        const uint16_t *periods, size_t periods_length,
                                        uint8_t *out, size_t out_length);

/* Takes a flow in: its number, its entry node, its rate in packets a slot, its deadline in slots.
 * The plan bytes with the flow go into the front of out, the nine cells of its number become 0.
 * Value: the number of bytes written.  The rest of out and the other cells keep what they held.
 * Checks: 1 for counters, 14, 5, 6, place 0; 15, place number; 17, place the first such link on the
 * way to the root; 18, place number; 1 for out, place 0. */
slotplan_answer slotplan_admit(const uint8_t *plan, size_t plan_length,
                               uint32_t *counters, size_t counters_length,
                               uint8_t number, uint8_t entry, uint8_t rate, uint16_t deadline,
                               uint8_t *out, size_t out_length);

/* Lets a flow go.  The plan bytes without it go into the front of out, the nine cells of its number
 * become 0.  Value: the number of bytes written.  The rest keeps what it held.
 * Checks: 1 for counters, 14, 5, place 0; 16, place number; 1 for out, place 0. */
slotplan_answer slotplan_release(const uint8_t *plan, size_t plan_length,
                                 uint32_t *counters, size_t counters_length,
                                 uint8_t number,
                                 uint8_t *out, size_t out_length);

/* Starts a rehearsal: all counters become 0.  Value: 0.
 * Checks: 1 for counters, 14, place 0. */
slotplan_answer slotplan_start(const uint8_t *plan, size_t plan_length,
                               uint32_t *counters, size_t counters_length);

/* One slot: arrivals[n] packets come for flow number n, and each link that sends in the slot moves
 * every live flow's queue on, or as much of it as the flow's width.  Value: 0.  Cells past a flow's
 * route and those of numbers not live keep what they held.
 * Checks: 1 for counters or arrivals, 14, place 0; 19, then 20, place the lowest such number. */
slotplan_answer slotplan_slot(const uint8_t *plan, size_t plan_length,
                              uint32_t *counters, size_t counters_length,
                              const uint16_t *arrivals, size_t arrivals_length,
                              uint32_t slot);

/* The child of parent that sends in the slot.  Value: its number, or 0 where none sends.  The root,
 * 0, is a parent too.
 * Checks: 14, 6, place 0. */
slotplan_answer slotplan_sender(const uint8_t *plan, size_t plan_length,
                                uint8_t parent, uint32_t slot);

/* The bound G of a live flow, in slots: the periods of all links of its route, added.
 * Checks: 14, 5, place 0; 16, place number. */
slotplan_answer slotplan_bound(const uint8_t *plan, size_t plan_length, uint8_t number);

/* The slot rule alone, for 1 to 63 children of one parent: from the gap that each wants, 1 to 1,024
 * slots, it fills their offsets and periods.  All three lists have the same length.  Value: the
 * base.
 * Checks: 1 for offsets or periods, 5 for a bad number of gaps, place 0; 5, place the index of the
 * first bad gap; 11, place 0. */
slotplan_answer slotplan_assign(const uint16_t *gaps, size_t gaps_length,
                                uint16_t *offsets, size_t offsets_length,
                                uint16_t *periods, size_t periods_length);

#ifdef __cplusplus
}
#endif

#endif
