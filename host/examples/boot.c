/* What boot code does with the store: mount it, then load the dose table. */
#include "lilota.h"

#include <stdio.h>
#include <string.h>

#define LENGTH 8192
#define NAME_LENGTH 4

static uint8_t image[LENGTH];
static const uint8_t NAME[NAME_LENGTH] = {'d', 'o', 's', 'e'};

/* What each answer means to boot code. */
static const char *meaning(uint32_t answer)
{
    switch (answer) {
    case LILOTA_DONE: return "go on";
    case LILOTA_CUT: return "not finished: mount again before anything else";
    case LILOTA_NO_FILE: return "there is no dose table: deliver nothing and say so";
    case LILOTA_BROKEN: return "the flash is damaged: deliver nothing, call for service";
    case LILOTA_NO_HEAD: return "the flash was never formatted: format it";
    case LILOTA_UNSETTLED: return "a power cut was not repaired: mount first";
    case LILOTA_NO_ROOM: return "no room: sweep or remove, then put again";
    case LILOTA_INVALID: return "a wrong length or name: an error in the boot code";
    default: return "no answer of this library";
    }
}

static uint32_t told(const char *call, uint32_t answer)
{
    printf("%s: %u, %s\n", call, (unsigned)answer, meaning(answer));
    return answer;
}

static void load(void)
{
    uint32_t reason = 0;
    size_t place = 0, offset = 0, size = 0;
    uint32_t answer = lilota_get(image, LENGTH, NAME, NAME_LENGTH, &reason, &place, &offset, &size);
    if (told("  get", answer) == LILOTA_DONE)
        printf("  dose table: %u bytes, the first is %u\n", (unsigned)size, (unsigned)image[offset]);
}

static void boot(const char *story)
{
    size_t head = 0, tail = 0, files = 0, steps = 0;
    size_t live = 0, dead = 0, blank = 0, lost = 0;
    uint32_t answer;
    printf("%s\n", story);
    answer = lilota_mount(image, LENGTH, SIZE_MAX, &head, &tail, &files, &live, &dead, &blank, &lost, &steps);
    if (told("  mount", answer) != LILOTA_DONE)
        return;
    printf("  %u steps, head %u, tail %u, %u files\n", (unsigned)steps, (unsigned)head, (unsigned)tail,
           (unsigned)files);
    printf("  bytes: %u live, %u dead, %u free, %u lost\n", (unsigned)live, (unsigned)dead, (unsigned)blank,
           (unsigned)lost);
    load();
}

/* A put of three bytes in which the power fails after so many steps. */
static void put_until(uint8_t first, size_t allowance)
{
    uint8_t table[3] = {0, 2, 3};
    uint32_t reason = 0;
    size_t place = 0, live = 0, dead = 0, blank = 0, lost = 0;
    size_t steps = 0;
    table[0] = first;
    lilota_put(image, LENGTH, NAME, NAME_LENGTH, table, sizeof table, allowance, &reason, &place, &live, &dead, &blank,
               &lost, &steps);
}

int main(void)
{
    size_t steps = 0;
    memset(image, 0xFF, sizeof image);
    boot("A new chip");
    lilota_format(image, LENGTH, SIZE_MAX, &steps);
    boot("Formatted");
    put_until(7, 7);
    boot("The power failed in the first put, before the commit");
    put_until(7, SIZE_MAX);
    boot("Put to the end");
    put_until(9, 17);
    load();
    boot("The power failed just before the commit of a new table");
    /* the old table is marked as being replaced already, which saves a step */
    put_until(9, 17);
    boot("The power failed just after the commit of a new table");
    /* one step done, which marks the old table; inside the next one, two of the four bits to clear are clear */
    put_until(4, 1);
    image[112] = 0xE7;
    boot("The power failed inside a byte: E7 stands where FF was to become A5");
    image[19] = 0;
    boot("A reserved byte was damaged");
    return 0;
}
