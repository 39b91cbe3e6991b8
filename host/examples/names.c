/* Names that a clinic types in, and what the screen says where the store refuses one. */
#include "lilota.h"

#include <stdio.h>
#include <string.h>

#define LENGTH 8192

static uint8_t image[LENGTH];

/* What a call said of a name. */
typedef struct {
    uint32_t answer, reason;
    size_t place;
} Said;

static Said put(size_t length, const uint8_t *name, size_t name_length)
{
    static const uint8_t table[] = {1, 2, 3};
    size_t live = 0, dead = 0, blank = 0, lost = 0, steps = 0;
    Said s = {0, 0, 0};
    s.answer = lilota_put(image, length, name, name_length, table, sizeof table, SIZE_MAX, &s.reason, &s.place, &live,
                          &dead, &blank, &lost, &steps);
    return s;
}

static Said get(size_t length, const uint8_t *name, size_t name_length)
{
    size_t offset = 0, size = 0;
    Said s = {0, 0, 0};
    s.answer = lilota_get(image, length, name, name_length, &s.reason, &s.place, &offset, &size);
    return s;
}

/* A byte that can't be shown is shown as its number. */
static void show(const uint8_t *name, size_t length)
{
    size_t i;
    printf("\"");
    for (i = 0; i < length; i++)
        printf(name[i] < 0x20 || name[i] > 0x7E ? "\\x%02X" : "%c", name[i]);
    printf("\": ");
}

/* The line on the screen. */
static void explain(Said s)
{
    if (s.answer == LILOTA_DONE)
        printf("taken\n");
    else if (s.answer != LILOTA_INVALID)
        printf("answer %u\n", (unsigned)s.answer);
    else if (s.reason == LILOTA_NAME_EMPTY)
        printf("refused, no name\n");
    else if (s.reason == LILOTA_NAME_TOO_LONG)
        printf("refused, more than 63 bytes\n");
    else if (s.reason == LILOTA_NAME_BAD_BYTE)
        printf("refused, bad byte at %u\n", (unsigned)s.place);
    else if (s.reason == LILOTA_NAME_FINAL_SLASH)
        printf("refused, a slash at the end\n");
    else
        printf("refused, the image's length is bad\n");
}

/* Puts a file of this name and gets it. 1 if the two calls do not say the same of it. */
static int asked(size_t length, const char *text)
{
    const uint8_t *name = (const uint8_t *)text;
    Said first = put(length, name, strlen(text)), second = get(length, name, strlen(text));
    show(name, strlen(text));
    explain(first);
    return first.answer != second.answer || first.reason != second.reason || first.place != second.place;
}

int main(void)
{
    static const char *const names[] = {
        "night basal",     "night  basal", "night basal ",
        " night basal",    "night\tbasal", "night basal/",
        "night\177basal/", "/clinic 3/a",  "m\303\274de",
        "",                "0123456789 0123456789 0123456789 0123456789 0123456789 012345678",
    };
    size_t steps = 0, i;
    int failed = lilota_format(image, LENGTH, SIZE_MAX, &steps) != LILOTA_DONE;
    for (i = 0; i < sizeof names / sizeof names[0]; i++)
        failed |= asked(LENGTH, names[i]);
    printf("in half a store:\n");
    failed |= asked(LENGTH / 2, "night basal ");
    return failed;
}
