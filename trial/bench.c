/* The proved library tried from C, through its header alone: cases of the bench sheet on a board with chip 0, refusals that must change nothing, and the
 * controller and the chip alone on what the whole-bus run traced. It says what differs and then returns 1. */
#include "bilvakront.h"

#include <stdio.h>
#include <string.h>

#define MEMORY 4096
#define ROOM 160   /* result area: more than any list here asks for */
#define TRACE 2048 /* trace: longer than most runs here, so that its rest can be seen to stay */
#define STAYS 0xEE /* what areas are filled with before a call */

static int checks, wrong;

static void same(const char *name, const char *what, unsigned long got, unsigned long want)
{
    checks++;
    if (got != want) {
        wrong++;
        printf("%s: %s is %lu, to be %lu\n", name, what, got, want);
    }
}

static void same_bytes(const char *name, const char *what, const uint8_t *got, const uint8_t *want, size_t count)
{
    checks++;
    for (size_t i = 0; i < count; i++) {
        if (got[i] != want[i]) {
            wrong++;
            printf("%s: %s, byte %zu is %02X, to be %02X\n", name, what, i, (unsigned)got[i], (unsigned)want[i]);
            return;
        }
    }
}

/* All that a whole-bus run on chip 0 is lent. */
struct board {
    uint8_t memory[MEMORY], state[4], results[ROOM], trace[TRACE];
    uint64_t ticks;
};

/* Memory all FF, as the sheet's board has it. */
static void fill(struct board *b, unsigned pointer, unsigned busy)
{
    memset(b->memory, 0xFF, sizeof b->memory);
    b->state[0] = (uint8_t)pointer;
    b->state[1] = (uint8_t)(pointer >> 8);
    b->state[2] = (uint8_t)busy;
    b->state[3] = (uint8_t)(busy >> 8);
    memset(b->results, STAYS, sizeof b->results);
    memset(b->trace, STAYS, sizeof b->trace);
    b->ticks = 123456789; /* to be overwritten, by 0 where the call is refused */
}

static unsigned pointer_of(const uint8_t *state) { return state[0] + 256u * state[1]; }
static unsigned busy_of(const uint8_t *state) { return state[2] + 256u * state[3]; }

static uint8_t run(struct board *b, const uint8_t *list, size_t list_len, const uint8_t *holds, size_t holds_len, uint16_t asked)
{
    return bilvakront_bus_run(list, list_len, 1, b->memory, sizeof b->memory, b->state, sizeof b->state, holds, holds_len, asked,
                              b->results, sizeof b->results, b->trace, sizeof b->trace, &b->ticks);
}

static const uint8_t none[1] = {0};
static const uint8_t sixteens[10] = {16, 16, 16, 16, 16, 16, 16, 16, 16, 16};
static const uint8_t seventeen[1] = {17};

/* A row of the sheet: list and start, then what is to come. Result bytes past `room` must stay. */
struct row {
    const char *name;
    uint8_t list[16];
    size_t list_len;
    const uint8_t *holds;
    size_t holds_len;
    unsigned pointer, busy;
    uint64_t ticks;
    uint8_t results[8];
    size_t room;
    unsigned pointer_left, busy_left;
};

static const struct row sheet[] = {
    {"empty list", {0}, 0, none, 0, 0, 0, 0, {0}, 0, 0, 0},
    {"address only", {1, 0, 0, 0x50, 0, 0}, 6, none, 0, 0, 0, 44, {0, 1, 0}, 3, 0, 0},
    {"address only, held", {1, 0, 0, 0x50, 0, 0}, 6, sixteens, 10, 0, 0, 204, {0, 1, 0}, 3, 0, 0},
    {"nobody there", {1, 0, 0, 0x51, 0, 0}, 6, none, 0, 0, 0, 44, {0, 0, 0}, 3, 0, 0},
    {"nobody there, non-critical", {2, 0, 0, 0x51, 2, 0, 0x50, 0, 0}, 9, none, 0, 0, 0, 84, {0, 0, 0, 1, 0}, 5, 0, 0},
    {"nobody there, critical", {2, 0, 0, 0x51, 0, 0, 0x50, 0, 0}, 9, none, 0, 0, 0, 44, {0, 0, 0, 0, 0}, 5, 0, 0},
    {"pointer, then read", {2, 0, 0, 0x50, 0, 2, 0, 0x10, 0x50, 1, 2}, 11, none, 0, 0, 0, 228, {0, 1, 2, 1, 2, 0xFF, 0xFF}, 7, 18, 0},
    {"page wrap", {1, 0, 0, 0x50, 0, 4, 0, 0x1F, 0xA1, 0xB2}, 10, none, 0, 0, 0, 188, {0, 1, 4}, 3, 1, 8000},
    {"free just in time", {1, 0x1C, 0x1F, 0x50, 0, 0}, 6, none, 0, 0, 8000, 8008, {0, 1, 0}, 3, 0, 0},
    {"busy a tick too long", {1, 0x1B, 0x1F, 0x50, 0, 0}, 6, none, 0, 0, 8000, 8007, {0, 0, 0}, 3, 0, 0},
    {"read over the memory's end", {1, 0, 0, 0x50, 1, 2}, 6, none, 0, 4095, 0, 116, {0, 1, 2, 0x5E, 0x5A}, 5, 1, 0},
    {"stored by no repeated START", {2, 0, 0, 0x50, 0, 3, 0, 0x10, 0xAA, 0x51, 0, 0}, 12, none, 0, 0, 0, 192, {0, 1, 3, 0, 0}, 5, 17, 0},
};

static void try_row(const struct row *r)
{
    struct board b;
    uint8_t memory[MEMORY], stays[TRACE];
    fill(&b, r->pointer, r->busy);
    b.memory[4095] = 0x5E;
    b.memory[0] = 0x5A;
    memcpy(memory, b.memory, sizeof memory);
    memset(stays, STAYS, sizeof stays);
    same(r->name, "number", run(&b, r->list, r->list_len, r->holds, r->holds_len, 8000), 0);
    same(r->name, "ticks", b.ticks, r->ticks);
    same_bytes(r->name, "result area", b.results, r->results, r->room);
    same_bytes(r->name, "result area's rest", b.results + r->room, stays, ROOM - r->room);
    same(r->name, "pointer", pointer_of(b.state), r->pointer_left);
    same(r->name, "busy", busy_of(b.state), r->busy_left);
    if (r->busy_left > 0) { /* only the page wrap stores */
        memory[31] = 0xA1;
        memory[0] = 0xB2;
    }
    same_bytes(r->name, "memory", b.memory, memory, MEMORY);
    if (r->ticks < TRACE)
        same_bytes(r->name, "trace's rest", b.trace + r->ticks, stays, TRACE - (size_t)r->ticks);
}

/* A refused run returns its number and 0 ticks and changes no lent byte. */
static void try_refusal(const char *name, unsigned number, const uint8_t *list, size_t list_len, const uint8_t *holds, size_t holds_len, uint16_t asked)
{
    struct board b, before;
    memset(&before, 0, sizeof before);
    fill(&before, 77, 5);
    b = before;
    same(name, "number", run(&b, list, list_len, holds, holds_len, asked), number);
    same(name, "ticks", b.ticks, 0);
    same_bytes(name, "memory", b.memory, before.memory, MEMORY);
    same_bytes(name, "state", b.state, before.state, 4);
    same_bytes(name, "result area", b.results, before.results, ROOM);
    same_bytes(name, "trace", b.trace, before.trace, TRACE);
}

static void try_refusals(void)
{
    static const uint8_t read_of_none[] = {1, 0, 0, 0x50, 1, 0}, nine[] = {9, 0, 0, 0x50, 0, 0}, address_128[] = {1, 0, 0, 128, 0, 0},
                         read_of_65[] = {1, 0, 0, 0x50, 1, 65}, read_of_64[] = {1, 0, 0, 0x50, 1, 64}, good[] = {1, 0, 0, 0x50, 0, 0};
    static const uint8_t long_list[4097];
    struct board b;
    try_refusal("read of none", 2, read_of_none, 6, none, 0, 8000);
    try_refusal("nine messages", 2, nine, 6, none, 0, 8000);
    try_refusal("address 128", 2, address_128, 6, none, 0, 8000);
    try_refusal("read of 65", 2, read_of_65, 6, none, 0, 8000);
    try_refusal("list cut short", 2, good, 5, none, 0, 8000);
    try_refusal("list too long", 1, long_list, sizeof long_list, none, 0, 8000);
    try_refusal("hold of 17, not used", 5, none, 0, seventeen, 1, 8000);
    try_refusal("busy time asked over 20,000", 6, good, 6, none, 0, 20001);
    fill(&b, 0, 0);
    same("read of 64", "number", run(&b, read_of_64, 6, none, 0, 8000), 0);
    same("read of 64", "ticks", b.ticks, 4 * (1 + 9 * 65 + 1));
}

/* The page wrap's trace, read again by controller and chip, each alone: both drives together are the lines again, and each leaves what the run left. */
static void try_alone(void)
{
    static const uint8_t list[] = {1, 0, 0, 0x50, 0, 4, 0, 0x1F, 0xA1, 0xB2};
    static const uint8_t not_free[] = {3, 2}, fault[] = {4, 0, 0};
    /* START, then STOP as the chip still holds SDA in its phase 0. */
    static const uint8_t begun[] = {3, 3, 3, 1}, ended[] = {0, 0, 1, 3};
    struct board b, c;
    uint8_t drives[200], chip_drives[200], lines[200], end = 99;
    const char *name = "alone";
    fill(&b, 0, 0);
    same(name, "number of the run", run(&b, list, sizeof list, none, 0, 8000), 0);
    same(name, "ticks of the run", b.ticks, 188);
    same_bytes(name, "START", b.trace, begun, 4);
    same_bytes(name, "STOP", b.trace + 184, ended, 4);

    fill(&c, 0, 0);
    memset(drives, STAYS, sizeof drives);
    same(name, "controller's number", bilvakront_controller_alone(list, sizeof list, b.trace, 188, drives, 200, c.results, ROOM, &end, &c.ticks), 0);
    same(name, "controller's end", end, 0);
    same(name, "controller's ticks", c.ticks, 188);
    same_bytes(name, "controller's results", c.results, b.results, ROOM);

    memset(chip_drives, STAYS, sizeof chip_drives);
    same(name, "chip's number", bilvakront_chip_alone(0, c.memory, MEMORY, c.state, 4, 8000, b.trace, 188, chip_drives, 200, &c.ticks), 0);
    same(name, "chip's ticks", c.ticks, 188);
    same_bytes(name, "chip's memory", c.memory, b.memory, MEMORY);
    same_bytes(name, "chip's state", c.state, b.state, 4);
    for (int i = 0; i < 200; i++)
        lines[i] = drives[i] & chip_drives[i];
    same_bytes(name, "both drives together", lines, b.trace, 200);

    end = 99;
    memset(drives, STAYS, sizeof drives);
    same("record cut", "number", bilvakront_controller_alone(list, sizeof list, b.trace, 187, drives, 200, c.results, ROOM, &end, &c.ticks), 0);
    same("record cut", "end", end, 6);
    same("record cut", "ticks", c.ticks, 187);
    same("record cut", "outcome", c.results[0], 255);
    same("record cut", "first drive past the end", drives[187], STAYS);

    same("bus not free", "number", bilvakront_controller_alone(list, sizeof list, not_free, 2, drives, 200, c.results, ROOM, &end, &c.ticks), 0);
    same("bus not free", "end", end, 4);
    same("bus not free", "ticks", c.ticks, 2);
    same_bytes("bus not free", "result area", c.results, fault, 3);

    c.ticks = 99;
    same("drives too short", "number", bilvakront_controller_alone(list, sizeof list, b.trace, 188, drives, 187, c.results, ROOM, &end, &c.ticks), 9);
    same("drives too short", "end", end, 7);
    same("drives too short", "ticks", c.ticks, 0);
    c.ticks = 99;
    same("strap 8", "number", bilvakront_chip_alone(8, c.memory, MEMORY, c.state, 4, 8000, b.trace, 188, chip_drives, 200, &c.ticks), 10);
    same("strap 8", "ticks", c.ticks, 0);
}

int main(void)
{
    for (size_t i = 0; i < sizeof sheet / sizeof *sheet; i++)
        try_row(&sheet[i]);
    try_refusals();
    try_alone();
    printf("trial in C: %d checks, %d different\n", checks, wrong);
    return wrong > 0;
}
