/*
 * A host of a live site.  From the top of the repository:
 *
 *     tools/library.sh
 *     gcc -std=c99 -I include examples/live_site.c target/staticlib/libslotplan_lib.a -o live_site
 *     ./live_site
 *
 * It prints the lines of live_site.out and ends with status 0, or with status 1 at the first answer
 * that is not as it should be.
 */
#include <inttypes.h>
#include <stdio.h>
#include <stdlib.h>
#include <string.h>

#include "slotplan_lib.h"

/* Plan P of document 01: links 1 and 2 to the root, link 3 to node 1, and flow 0 from node 3. */
static const uint8_t plan_p[] = {
    0x01, 0x00, 0x14, 0x00, 0x04, 0x00,
    0x01, 0x00, 0x14, 0x00, 0x06, 0x00,
    0x01, 0x01, 0x09, 0x00, 0x03, 0x00,
    0x02, 0x00, 0x03, 0x03, 0x07, 0x00,
    0xFF
};

/* A change reads the plan from one buffer and writes the new one into the other.  So the plan in
 * use is whole at every moment, also while a change runs and after one that was refused. */
struct site {
    uint8_t buffers[2][SLOTPLAN_PLAN_MOST];
    int in_use;
    size_t length;
    uint32_t counters[SLOTPLAN_COUNTERS];
};

static const uint8_t *plan_of(const struct site *site)
{
    return site->buffers[site->in_use];
}

static uint8_t *other_buffer(struct site *site)
{
    return site->buffers[1 - site->in_use];
}

static void expect(int holds, const char *what)
{
    if (!holds) {
        fprintf(stderr, "not as it should be: %s\n", what);
        exit(EXIT_FAILURE);
    }
}

/* The value of an answer that has to be an acceptance. */
static uint64_t value_of(slotplan_answer answer, const char *call)
{
    if (!SLOTPLAN_ACCEPTED(answer)) {
        fprintf(stderr, "%s: refused %u, place %" PRIu64 "\n", call,
                SLOTPLAN_NUMBER(answer), SLOTPLAN_PLACE(answer));
        exit(EXIT_FAILURE);
    }
    return SLOTPLAN_VALUE(answer);
}

/* Takes the plan into use that an accepted change has written. */
static void swap_buffers(struct site *site, uint64_t length)
{
    site->in_use = 1 - site->in_use;
    site->length = (size_t)length;
}

static void open_site(struct site *site, const uint8_t *plan, size_t length)
{
    slotplan_answer answer = slotplan_read_plan(plan, length);

    value_of(answer, "read_plan");
    printf("plan of %u links and %u flow\n", SLOTPLAN_LINKS(answer), SLOTPLAN_FLOWS(answer));
    memset(site, 0, sizeof *site);
    memcpy(site->buffers[0], plan, length);
    site->length = length;
    value_of(slotplan_start(plan_of(site), site->length, site->counters, SLOTPLAN_COUNTERS), "start");
}

/* A schedule file read back: link n stands at index n - 1 of both lists. */
struct schedule {
    uint8_t links;
    uint16_t offsets[SLOTPLAN_LINKS_MOST];
    uint16_t periods[SLOTPLAN_LINKS_MOST];
};

static void read_back(struct schedule *schedule, const uint8_t *file, size_t length)
{
    uint64_t links = value_of(slotplan_read_schedule(file, length,
                                                     schedule->offsets, SLOTPLAN_LINKS_MOST,
                                                     schedule->periods, SLOTPLAN_LINKS_MOST),
                              "read_schedule");

    /* At most 63. */
    schedule->links = (uint8_t)links;
}

static void write_again(const struct schedule *schedule, const uint8_t *file, size_t length)
{
    uint8_t again[SLOTPLAN_SCHEDULE_MOST];
    uint64_t written = value_of(slotplan_write_schedule(schedule->links,
                                                        schedule->offsets, SLOTPLAN_LINKS_MOST,
                                                        schedule->periods, SLOTPLAN_LINKS_MOST,
                                                        again, sizeof again), "write_schedule");
    int equal = written == length && memcmp(again, file, length) == 0;

    printf("schedule of %zu bytes, read and written again: %s\n", length,
           equal ? "equal" : "not equal");
    expect(equal, "the schedule written again");
}

static void print_schedule(const struct site *site)
{
    uint8_t file[SLOTPLAN_SCHEDULE_MOST];
    size_t length = (size_t)value_of(slotplan_schedule(plan_of(site), site->length,
                                                       file, sizeof file), "schedule");
    struct schedule schedule;
    size_t index;

    read_back(&schedule, file, length);
    for (index = 0; index < schedule.links; index++) {
        printf("link %zu: offset %u, period %u\n", index + 1, schedule.offsets[index],
               schedule.periods[index]);
    }
    write_again(&schedule, file, length);
}

/* A flow number 5 at node 2 with a deadline of 5 slots. */
static slotplan_answer admit_5(struct site *site, uint8_t rate)
{
    return slotplan_admit(plan_of(site), site->length, site->counters, SLOTPLAN_COUNTERS,
                          5, 2, rate, 5, other_buffer(site), SLOTPLAN_PLAN_MOST);
}

/* Link 2 wants a gap of 6 slots and sends every 4.  With rate 6 the flow would reserve 24 packets
 * on it, which has room for 20. */
static void admit_in_two_attempts(struct site *site)
{
    slotplan_answer answer = admit_5(site, 6);

    printf("flow 5 at rate 6: refused %u, place %" PRIu64 "\n", SLOTPLAN_NUMBER(answer),
           SLOTPLAN_PLACE(answer));
    expect(SLOTPLAN_NUMBER(answer) == 17 && SLOTPLAN_PLACE(answer) == 2, "refusal of flow 5");
    swap_buffers(site, value_of(admit_5(site, 4), "admit"));
    printf("flow 5 at rate 4: accepted, plan of %zu bytes\n", site->length);
}

/* As many packets of both flows as their rates in each slot from 0 up to the last. */
static void run_slots(struct site *site, uint32_t last)
{
    uint16_t arrivals[SLOTPLAN_NUMBERS] = {0};
    uint32_t slot;

    arrivals[0] = 3;
    arrivals[5] = 4;
    for (slot = 0; slot <= last; slot++) {
        value_of(slotplan_slot(plan_of(site), site->length, site->counters, SLOTPLAN_COUNTERS,
                               arrivals, SLOTPLAN_NUMBERS, slot), "slot");
    }
}

/* The queues of the first two links of its route, and how many packets have reached the root. */
static void print_flow(const struct site *site, unsigned number)
{
    const uint32_t *cells = site->counters + SLOTPLAN_CELL(number);

    printf("flow %u: queues %" PRIu32 " %" PRIu32 ", delivered %" PRIu32 "\n", number,
           cells[0], cells[1], cells[SLOTPLAN_CELLS - 1]);
}

static void ask(const struct site *site)
{
    uint64_t sender = value_of(slotplan_sender(plan_of(site), site->length, 0, 17), "sender");
    uint64_t bound = value_of(slotplan_bound(plan_of(site), site->length, 0), "bound");

    printf("slot 17: link %" PRIu64 " sends to the root\n", sender);
    printf("flow 0: a packet leaves within %" PRIu64 " slots\n", bound);
    expect(sender == 2 && bound == 7, "sender and bound");
}

static void release_5(struct site *site)
{
    swap_buffers(site, value_of(slotplan_release(plan_of(site), site->length, site->counters,
                                                 SLOTPLAN_COUNTERS, 5, other_buffer(site),
                                                 SLOTPLAN_PLAN_MOST), "release"));
    expect(site->length == sizeof plan_p && memcmp(plan_of(site), plan_p, sizeof plan_p) == 0,
           "the plan is the first one again");
    printf("flow 5 released, plan of %zu bytes\n", site->length);
}

/* The slot rule needs no site: gaps in, offsets and periods out. */
static void assign_to_five_children(void)
{
    const uint16_t gaps[5] = {4, 6, 6, 6, 6};
    uint16_t offsets[5], periods[5];
    uint64_t base = value_of(slotplan_assign(gaps, 5, offsets, 5, periods, 5), "assign");
    size_t child;

    printf("gaps 4 6 6 6 6: base %" PRIu64 "\n", base);
    for (child = 0; child < 5; child++)
        printf("child %zu: offset %u, period %u\n", child, offsets[child],
               periods[child]);
    expect(base == 3 && offsets[4] == 5 && periods[4] == 6, "assign");
}

int main(void)
{
    static struct site site;

    open_site(&site, plan_p, sizeof plan_p);
    print_schedule(&site);
    admit_in_two_attempts(&site);
    run_slots(&site, 16);
    print_flow(&site, 0);
    print_flow(&site, 5);
    expect(site.counters[SLOTPLAN_CELL(0) + 8] == 42, "delivered packets of flow 0");
    expect(site.counters[SLOTPLAN_CELL(5) + 8] == 56, "delivered packets of flow 5");
    ask(&site);
    release_5(&site);
    assign_to_five_children();
    return EXIT_SUCCESS;
}
