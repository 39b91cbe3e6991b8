/* Writes a dose table, replaces it, and reads it back. */
#include "lilota.h"

#include <stdio.h>
#include <string.h>

#define LENGTH 8192
#define NAME_LENGTH 4

static uint8_t image[LENGTH];
static const uint8_t NAME[NAME_LENGTH] = {'d', 'o', 's', 'e'};

/* Answer and steps of a writing call; 1 if it did not end as it should. */
static int told(const char *call, uint32_t answer, size_t steps)
{
    printf("%s: answer %u, %u steps\n", call, (unsigned)answer, (unsigned)steps);
    return answer != LILOTA_DONE;
}

static int write_table(const char *call, const uint8_t *table, size_t size)
{
    uint32_t reason = 0;
    size_t place = 0, live = 0, dead = 0, blank = 0, lost = 0;
    size_t steps = 0;
    uint32_t answer = lilota_put(image, LENGTH, NAME, NAME_LENGTH, table, size, SIZE_MAX, &reason, &place, &live, &dead,
                                 &blank, &lost, &steps);
    return told(call, answer, steps);
}

/* The file stands in the image itself: nothing is copied. */
static int read_table(void)
{
    uint32_t reason = 0;
    size_t place = 0, offset = 0, size = 0, i;
    uint32_t answer = lilota_get(image, LENGTH, NAME, NAME_LENGTH, &reason, &place, &offset, &size);
    printf("get: answer %u, %u bytes at %u:", (unsigned)answer, (unsigned)size, (unsigned)offset);
    for (i = 0; i < size; i++)
        printf(" %02X", image[offset + i]);
    printf("\n");
    return answer != LILOTA_DONE;
}

int main(void)
{
    static const uint8_t first[] = {1, 2, 3};
    static const uint8_t second[] = {4, 5, 6};
    size_t steps = 0;
    uint32_t answer;
    memset(image, 0x33, sizeof image);
    answer = lilota_format(image, LENGTH, SIZE_MAX, &steps);
    return told("format", answer, steps) || write_table("put", first, sizeof first) || read_table()
           || write_table("put again", second, sizeof second) || read_table();
}
