/*
 * Checks image files and shows the place of a broken rule: check FILE..., with one image in each file. The files stay as they are.
 */
#include "lilota.h"

#include <stdio.h>
#include <stdlib.h>

#define MOST (16u * 1024 * 1024)

static const char *const WORDS[] = {"", "head", "unfinished", "header", "name", "end", "mark", "free"};
static const char *const ASKS[] = {
    "",
    "The search from 0 must find a START, or a CLEAN where none stands at 0.",
    "A torn or reserved record, or a torn marker, may only be the last thing of the chain.",
    "A record begins with its magic (A5, A0 or 00, then 5A), a marker with FA 5A F0, and the fourth byte is FF.",
    "A name ends in 64 bytes; a live one has 1 to 63 good bytes, and no two FC or two F8 records have one name.",
    "A record ends at the image's end at most, after the turn at the start of the head's sector.",
    "A START or CLEAN may only be first, or second behind a record that is not live; a marker only where the chain can turn.",
    "The free run must be FF.",
};
static const char *const REPAIRS[] = {
    "",
    "the head is CLEAN: dirty sectors of the free run are erased, and it becomes START",
    "the second record is CLEAN or START: a move is finished",
    "the last thing is unfinished: it is voided, or the marker is finished",
    "an F8 record has an FC record of its name: it is deleted",
};

/* The whole file; a length that no image has if it can't be read or is too long. */
static size_t load(const char *path, uint8_t *image)
{
    FILE *file = fopen(path, "rb");
    size_t length = file ? fread(image, 1, MOST + 1, file) : 0;
    if (file && fclose(file) != 0)
        length = 0;
    return length;
}

/* The lines of 16 bytes around an address. */
static void bytes_around(const uint8_t *image, size_t length, size_t at)
{
    size_t from = at / 16 * 16, line, i;
    from = from < 16 ? 0 : from - 16;
    for (line = from; line < from + 48 && line < length; line += 16) {
        printf("  %8lu ", (unsigned long)line);
        for (i = line; i < line + 16 && i < length; i++)
            printf("%c%02X", i == at ? '>' : ' ', image[i]);
        printf("\n");
    }
}

/* The name of the record that stands there, as far as it is printable. */
static void name_there(const uint8_t *image, size_t length, size_t at)
{
    size_t i;
    if (at + 8 >= length || image[at + 1] != 0x5A || image[at + 8] < 0x20 || image[at + 8] > 0x7E)
        return;
    printf("  the record there: \"");
    for (i = at + 8; i < length && i < at + 72 && image[i] >= 0x20 && image[i] <= 0x7E; i++)
        putchar(image[i]);
    printf("\"\n");
}

static void show(const uint8_t *image, size_t length, uint32_t verdict, uint32_t number, size_t address)
{
    if (verdict == LILOTA_CHECK_SETTLED) {
        printf("settled\n");
    } else if (verdict == LILOTA_CHECK_RECOVERY) {
        printf("recovery %lu\n  %s\n", (unsigned long)number, REPAIRS[number]);
    } else {
        printf("broken %s %lu\n  %s\n", WORDS[number], (unsigned long)address, ASKS[number]);
        if (number != LILOTA_RULE_FREE && number != LILOTA_RULE_HEAD)
            name_there(image, length, address);
        bytes_around(image, length, address);
    }
}

int main(int count, char **paths)
{
    uint8_t *image = (uint8_t *)malloc(MOST + 1);
    int i, worst = 0;
    if (!image)
        return 2;
    for (i = 1; i < count; i++) {
        size_t length = load(paths[i], image), address = 0;
        uint32_t verdict = 0, number = 0, answer = lilota_check(image, length, &verdict, &number, &address);
        printf("%s: ", paths[i]);
        if (answer != 0)
            printf("%lu, a bad length\n", (unsigned long)answer);
        else
            show(image, length, verdict, number, address);
        if (answer != 0 || verdict == LILOTA_CHECK_BROKEN)
            worst = 1;
    }
    free(image);
    return worst;
}
