/*
 * The promise at work on an image file: the put of a new dose table is cut after every single step; each time the
 * image is written to a file, read back as after a restart, mounted, and the table that the pump then loads is shown.
 *
 * The power may also fail inside a step that programs a byte: then any subset of the bits that it would clear may be
 * clear. Every such value is tried, inside the put's next step and inside each step of the mount after the cut.
 */
#include "lilota.h"

#include <stdio.h>
#include <string.h>

#define LENGTH 8192
#define NAME_LENGTH 4
#define SIZE 3

static const uint8_t NAME[NAME_LENGTH] = {'d', 'o', 's', 'e'};
static const uint8_t OLD[SIZE] = {1, 2, 3};
static const uint8_t NEW[SIZE] = {7, 8, 9};

/* Which table the pump loads: a word, and a word with the bytes. */
typedef enum { NO_TABLE, OLD_TABLE, NEW_TABLE, OTHER_TABLE } Table;
static const char *const WORD[] = {"none", "old", "new", "NEITHER"};
static const char *const WORDS[] = {"none", "old, 01 02 03", "new, 07 08 09", "NEITHER"};

/* A call that may be cut. */
typedef uint32_t (*Call)(uint8_t *image, size_t allowance, size_t *steps);

/* A step that programs a byte; cut inside it, the values that may stand there, and what the pump loads with each. */
typedef struct {
    size_t at;
    uint8_t found, listed;
    size_t count;
    uint8_t value[256];
    Table loads[256];
} Inside;

static int save(const char *path, const uint8_t *image)
{
    FILE *file = fopen(path, "wb");
    size_t done = file ? fwrite(image, 1, LENGTH, file) : 0;
    return !file || fclose(file) != 0 || done != LENGTH;
}

static int load(const char *path, uint8_t *image)
{
    FILE *file = fopen(path, "rb");
    size_t done = file ? fread(image, 1, LENGTH, file) : 0;
    return !file || fclose(file) != 0 || done != LENGTH;
}

static uint32_t put_new(uint8_t *image, size_t allowance, size_t *steps)
{
    uint32_t reason = 0;
    size_t place = 0, live = 0, dead = 0, blank = 0, lost = 0;
    return lilota_put(image, LENGTH, NAME, NAME_LENGTH, NEW, SIZE, allowance, &reason, &place, &live, &dead, &blank,
                      &lost, steps);
}

static uint32_t recover(uint8_t *image, size_t allowance, size_t *steps)
{
    size_t head = 0, tail = 0, files = 0;
    size_t live = 0, dead = 0, blank = 0, lost = 0;
    return lilota_mount(image, LENGTH, allowance, &head, &tail, &files, &live, &dead, &blank, &lost, steps);
}

/* Which table the pump loads from this image; none before a whole mount. */
static Table table(const uint8_t *image)
{
    uint32_t reason = 0;
    size_t place = 0, offset = 0, size = 0;
    if (lilota_get(image, LENGTH, NAME, NAME_LENGTH, &reason, &place, &offset, &size) != LILOTA_DONE)
        return NO_TABLE;
    if (size == SIZE && memcmp(image + offset, OLD, SIZE) == 0)
        return OLD_TABLE;
    if (size == SIZE && memcmp(image + offset, NEW, SIZE) == 0)
        return NEW_TABLE;
    return OTHER_TABLE;
}

/*
 * The step from one image to the next: the one byte that differs, or none where a byte is programmed to what it holds.
 * 1 if more than one differs or a bit is set, which no such step does.
 */
static int compare(const uint8_t *before, const uint8_t *after, Inside *in)
{
    size_t a, differ = 0;
    in->at = 0;
    for (a = 0; a < LENGTH; a++)
        if (before[a] != after[a]) {
            in->at = a;
            differ++;
        }
    in->found = before[in->at];
    in->listed = after[in->at];
    return differ > 1 || (in->listed & ~in->found) != 0;
}

/* Cuts the call after so many steps and inside the next one, and mounts every image that this may leave. */
static int cut_inside(const uint8_t *image, Call call, size_t done, Inside *in)
{
    static uint8_t cut[LENGTH], other[LENGTH];
    size_t steps = 0;
    unsigned clears, kept;
    memcpy(cut, image, LENGTH);
    memcpy(other, image, LENGTH);
    call(cut, done, &steps);
    call(other, done + 1, &steps);
    if (compare(cut, other, in))
        return 1;
    in->count = 0;
    kept = clears = (unsigned)(in->found & ~in->listed);
    /* all subsets of these bits, from all of them to none */
    do {
        memcpy(other, cut, LENGTH);
        other[in->at] = in->value[in->count] = (uint8_t)(in->listed | kept);
        recover(other, SIZE_MAX, &steps);
        in->loads[in->count++] = table(other);
        kept = (kept - 1) & clears;
    } while (kept != clears);
    return 0;
}

static int alike(const Inside *in)
{
    size_t i;
    for (i = 1; i < in->count; i++)
        if (in->loads[i] != in->loads[0])
            return 0;
    return 1;
}

/* The put's next step: its byte, how many values may stand there, and what the pump loads, by value if it differs. */
static int print_next(const uint8_t *before, size_t done)
{
    Inside in;
    char text[256 * 16], *end = text;
    size_t i;
    if (cut_inside(before, put_new, done, &in))
        return 1;
    if (alike(&in))
        strcpy(text, WORD[in.loads[0]]);
    else
        for (i = 0; i < in.count; i++)
            end += sprintf(end, "%s%02X: %s", i > 0 ? "  " : "", in.value[i], WORD[in.loads[i]]);
    printf("   %02X -> %02X  %6u  %-16s", in.found, in.listed, (unsigned)in.count, text);
    return 0;
}

/* Every step of a mount of this image, cut inside and mounted again: all values together. */
static int print_mount(const uint8_t *image, size_t steps)
{
    Inside in;
    size_t done, values = 0;
    const char *loads = "-", *word;
    for (done = 0; done < steps; done++) {
        if (cut_inside(image, recover, done, &in))
            return 1;
        word = alike(&in) ? WORD[in.loads[0]] : "MIXED";
        loads = done == 0 || word == loads ? word : "MIXED";
        values += in.count;
    }
    printf("    %6u  %s\n", (unsigned)values, loads);
    return 0;
}

/* One line of the table: a put with this allowance, a restart, a mount. 1 if the file could not be used. */
static int restart(const char *path, const uint8_t *before, size_t allowance, uint32_t *put)
{
    static uint8_t image[LENGTH], cut[LENGTH];
    size_t repairs = 0, steps = 0;
    uint32_t mount;
    memcpy(image, before, LENGTH);
    *put = put_new(image, allowance, &steps);
    if (save(path, image) || load(path, image))
        return 1;
    memcpy(cut, image, LENGTH);
    mount = recover(image, SIZE_MAX, &repairs);
    printf("%3u  %4u  %5u  %5u  %-13s", (unsigned)steps, (unsigned)*put, (unsigned)mount, (unsigned)repairs,
           WORDS[table(image)]);
    if (save(path, image))
        return 1;
    if (*put != LILOTA_CUT)
        printf("   %-8s  %6s  %-16s", "-", "-", "-");
    else if (print_next(before, allowance))
        return 1;
    return print_mount(cut, repairs);
}

int main(int count, char **words)
{
    static uint8_t image[LENGTH];
    size_t steps = 0, allowance;
    size_t place = 0, live = 0, dead = 0, blank = 0, lost = 0;
    uint32_t put = LILOTA_CUT, reason = 0;
    if (count != 2)
        return 2;
    lilota_format(image, LENGTH, SIZE_MAX, &steps);
    lilota_put(image, LENGTH, NAME, NAME_LENGTH, OLD, SIZE, SIZE_MAX, &reason, &place, &live, &dead, &blank, &lost,
               &steps);
    printf("cut   put  mount    its  the pump        inside the next step:                 inside mount's steps:\n");
    printf(" at  says   says  steps  loads           byte      values  loads               values  loads\n");
    for (allowance = 0; put == LILOTA_CUT; allowance++)
        if (restart(words[1], image, allowance, &put))
            return 1;
    return 0;
}
