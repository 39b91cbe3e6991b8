/*
 * A store on an SPI flash: the chip is not in the processor's address space, so the steps of each call are planned and
 * then sent over the bus, in windows of 16.
 *
 * Every window is planned from the image as it was before the first step. The image in memory is a copy of the chip; it
 * stays as it is while the chip changes, until the last step is done or the power has failed. Then the chip is read back.
 *
 * What is sent is recorded as well, and replayed after each call over the image from before it: the chip must hold the
 * same, but for the byte at which the power failed.
 */
#include "chip.h"
#include "lilota.h"

#include <stdio.h>
#include <string.h>

#define SLOTS 16
#define ENTRIES 4096

/* ---- the driver */

/* Polls the status until nothing is under way. 1 if the chip does not answer. */
static int wait_for_chip(void)
{
    const uint8_t command = STATUS;
    uint8_t now;
    do {
        transfer(&command, 1, &now, 1);
        if (now == SILENCE)
            return 1;
    } while (now & BUSY);
    return 0;
}

/* Write enable, the command, busy polling. 1 if the chip does not answer. */
static int operation(uint8_t command, size_t address, const uint8_t *byte)
{
    const uint8_t enable = ENABLE;
    uint8_t sent[5];
    sent[0] = command;
    sent[1] = (uint8_t)(address >> 16);
    sent[2] = (uint8_t)(address >> 8);
    sent[3] = (uint8_t)address;
    sent[4] = byte ? *byte : 0;
    transfer(&enable, 1, NULL, 0);
    transfer(sent, byte ? 5 : 4, NULL, 0);
    return wait_for_chip();
}

/* What was sent since the last call began, as a logger on the bus has it. */
static struct {
    uint32_t kinds[ENTRIES], addresses[ENTRIES], bytes[ENTRIES];
    size_t count;
} bus;

static void record(uint32_t kind, uint32_t address, uint32_t byte)
{
    if (bus.count == ENTRIES)
        return;
    bus.kinds[bus.count] = kind;
    bus.addresses[bus.count] = address;
    bus.bytes[bus.count] = byte;
    bus.count++;
}

/*
 * One step. A page program could take more than one byte, but what is promised of power cuts is promised of steps done
 * one after another: so each is an operation of its own, and ends before the next begins.
 */
static int carry_out(uint32_t kind, uint32_t address, uint32_t byte)
{
    const uint8_t value = (uint8_t)byte;
    record(kind, address, byte);
    return kind == 2 ? operation(ERASE, address, NULL) : operation(PROGRAM, address, &value);
}

/* The copy of the chip that calls read. */
static uint8_t image[LENGTH];

static void read_back(void)
{
    const uint8_t command[4] = {READ, 0, 0, 0};
    transfer(command, sizeof command, image, LENGTH);
}

/* ---- the bus log */

/* The image as it was before the call; then what the log makes of it. */
static uint8_t before[LENGTH];

/* Replays the log, and compares with the chip as it was read back. 1 if it stops. */
static int replay_log(void)
{
    size_t position = 0, differ = 0, i;
    uint32_t stop = 0;
    uint32_t answer = lilota_replay(before, LENGTH, bus.kinds, bus.count, bus.addresses, bus.count, bus.bytes, bus.count,
                                    &position, &stop);
    for (i = 0; i < LENGTH; i++)
        differ += before[i] != image[i] ? 1 : 0;
    printf("  replay: %u of %u entries, stop %u, %u bytes differ\n", (unsigned)position, (unsigned)bus.count,
           (unsigned)stop, (unsigned)differ);
    return answer != LILOTA_DONE || stop != 0;
}

/* A log with two stray entries: one programs a free byte, the next would set a bit of it. */
static int stray_log(void)
{
    static const uint32_t kinds[2] = {1, 1}, addresses[2] = {LENGTH - 1, LENGTH - 1}, bytes[2] = {0x0F, 0x1F};
    size_t position = 0, count = 0;
    uint32_t stop = 0, there = 0, answer;
    memcpy(before, image, LENGTH);
    answer = lilota_first_refused(before, LENGTH, kinds, 2, addresses, 2, bytes, 2, &there, &count);
    printf("stray entries\n  mount would refuse: %u, after %u entries\n", (unsigned)there, (unsigned)count);
    memcpy(before, image, LENGTH);
    answer |= lilota_replay(before, LENGTH, kinds, 2, addresses, 2, bytes, 2, &position, &stop);
    printf("  replay: stop %u at entry %u\n", (unsigned)stop, (unsigned)position);
    return answer != LILOTA_DONE;
}

/* ---- calls, planned and carried out */

typedef struct {
    uint32_t kinds[SLOTS], addresses[SLOTS], bytes[SLOTS];
    size_t handed, steps;
} Window;

/* Plans the window that begins with this step. */
typedef uint32_t (*Plan)(size_t first, Window *w);

static const uint8_t *name, *content;
static size_t name_length, content_length;
static size_t moves, head, tail, files;
static size_t live, dead, blank, lost;
/* what is wrong with a name, as names.c prints it */
static uint32_t reason;
static size_t place;

static uint32_t plan_put(size_t first, Window *w)
{
    return lilota_plan_put(image, LENGTH, name, name_length, content, content_length, first, w->kinds, SLOTS,
                           w->addresses, SLOTS, w->bytes, SLOTS, &w->handed, &reason, &place, &live, &dead, &blank,
                           &lost, &w->steps);
}

static uint32_t plan_sweep(size_t first, Window *w)
{
    return lilota_plan_sweep(image, LENGTH, first, w->kinds, SLOTS, w->addresses, SLOTS, w->bytes, SLOTS, &w->handed,
                             &moves, &live, &dead, &blank, &lost, &w->steps);
}

static uint32_t plan_mount(size_t first, Window *w)
{
    return lilota_plan_mount(image, LENGTH, first, w->kinds, SLOTS, w->addresses, SLOTS, w->bytes, SLOTS, &w->handed,
                             &head, &tail, &files, &live, &dead, &blank, &lost, &w->steps);
}

/* A window's steps, address and byte, with ! for an erase. Of a long list only the windows that erase are shown. */
static void show(const Window *w, size_t first)
{
    size_t i, erases = 0;
    for (i = 0; i < w->handed; i++)
        erases += w->kinds[i] == 2 ? 1 : 0;
    if (w->handed == 0 || (w->steps > 40 && erases == 0))
        return;
    printf("  from step %u:", (unsigned)first);
    for (i = 0; i < w->handed; i++)
        printf(" %u%c%02X", (unsigned)w->addresses[i], w->kinds[i] == 2 ? '!' : '=', (unsigned)w->bytes[i]);
    printf("\n");
}

/* Sends window after window to the chip; the image stays as it is meanwhile. 1 if the answer is not LILOTA_DONE. */
static int perform(const char *call, Plan plan)
{
    Window w;
    size_t done = 0, windows = 0, i;
    int failed = 0;
    printf("%s\n", call);
    memcpy(before, image, LENGTH);
    bus.count = 0;
    do {
        uint32_t answer = plan(done, &w);
        if (answer != LILOTA_DONE) {
            printf("  answer %u\n", (unsigned)answer);
            return 1;
        }
        show(&w, done);
        windows++;
        for (i = 0; i < w.handed && !failed; i++) {
            failed = carry_out(w.kinds[i], w.addresses[i], w.bytes[i]);
            done += failed ? 0 : 1;
        }
    } while (!failed && done < w.steps);
    printf("  %u of %u steps done, in %u windows%s\n", (unsigned)done, (unsigned)w.steps, (unsigned)windows,
           failed ? "; then the power failed" : "");
    power_on();
    read_back();
    return replay_log();
}

static int put(const char *call, const char *file, const uint8_t *bytes, size_t count)
{
    name = (const uint8_t *)file;
    name_length = strlen(file);
    content = bytes;
    content_length = count;
    return perform(call, plan_put);
}

static int mount(void)
{
    int failed = perform("mount", plan_mount);
    printf("  head %u, tail %u, %u files\n", (unsigned)head, (unsigned)tail, (unsigned)files);
    return failed;
}

static int sweep(void)
{
    int failed = perform("sweep", plan_sweep);
    printf("  %u moves\n", (unsigned)moves);
    return failed;
}

/* The dose table as the pump reads it, from the copy in memory. */
static void load(void)
{
    size_t offset = 0, size = 0, i;
    uint32_t answer = lilota_get(image, LENGTH, (const uint8_t *)"dose", 4, &reason, &place, &offset, &size);
    printf("  get dose: answer %u", (unsigned)answer);
    for (i = 0; i < size; i++)
        printf("%s%02X", i == 0 ? ", " : " ", image[offset + i]);
    printf("\n");
}

/*
 * A format has no plan. It is done in memory, and the chip is then made to hold what the image does. Cut by the power, it
 * has to be done again.
 */
static int format(void)
{
    size_t steps = 0, a;
    uint32_t answer = lilota_format(image, LENGTH, SIZE_MAX, &steps);
    int failed = answer != LILOTA_DONE;
    for (a = 0; a < LENGTH; a += SECTOR)
        failed |= operation(ERASE, a, NULL);
    for (a = 0; a < LENGTH; a++)
        if (image[a] != 0xFF)
            failed |= operation(PROGRAM, a, &image[a]);
    printf("format\n  %u bytes programmed, %u sectors erased\n", chip.programmed, chip.erased);
    return failed;
}

int main(void)
{
    static const uint8_t old_table[3] = {1, 2, 3}, new_table[3] = {4, 5, 6};
    static uint8_t entries[4000];
    int failed;
    memset(chip.cell, 0x33, LENGTH);
    memset(entries, 0x11, sizeof entries);
    power_on();
    failed = format() || put("put dose", "dose", old_table, 3);
    load();

    power_fails(17, 0xFF);
    failed |= put("put dose, the power fails before the commit", "dose", new_table, 3);
    load();
    failed |= mount();
    load();

    power_fails(8, 0x80);
    failed |= put("put dose, the power fails inside a byte", "dose", new_table, 3);
    printf("  at 73 stands %02X\n", image[73]);
    load();
    failed |= mount();
    load();

    failed |= put("put dose", "dose", new_table, 3) || put("put log, 4000 bytes", "log", entries, sizeof entries);
    load();
    failed |= sweep() || sweep() || mount();
    load();
    failed |= stray_log();
    printf("the chip: %u bytes programmed, %u sectors erased\n", chip.programmed, chip.erased);
    return failed;
}
