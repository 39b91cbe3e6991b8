/*
 * The service screen: what the bytes of an image file are good for, after a mount in memory. The file stays as it is.
 * report FILE..., with one image in each file.
 */
#include "lilota.h"

#include <stdio.h>
#include <stdlib.h>

#define MOST (16u * 1024 * 1024)
#define WIDTH 64

/* The whole file; its length is 0 if it can't be read or is too long. */
static size_t load(const char *path, uint8_t *image)
{
    FILE *file = fopen(path, "rb");
    size_t length = file ? fread(image, 1, MOST + 1, file) : 0;
    if (file && fclose(file) != 0)
        length = 0;
    return length > MOST ? 0 : length;
}

/* A part of the bar, from one byte up to another; what is there at all gets a character. */
static void part(char *bar, char mark, size_t from, size_t to, size_t length)
{
    size_t i = from * WIDTH / length, end = (to * WIDTH + length - 1) / length;
    for (; from < to && i < end; i++)
        bar[i] = mark;
}

static void line(const char *name, char mark, size_t bytes, size_t length)
{
    printf("  %c %-5s %9lu bytes %5.1f %%\n", mark, name, (unsigned long)bytes, 100.0 * (double)bytes / (double)length);
}

typedef struct {
    size_t live, dead, free, lost;
} Bytes;

static void show(const Bytes *s, size_t length)
{
    char bar[WIDTH + 1] = {0};
    part(bar, '.', s->live + s->dead, s->live + s->dead + s->free, length);
    part(bar, 'x', length - s->lost, length, length);
    part(bar, '-', s->live, s->live + s->dead, length);
    part(bar, '#', 0, s->live, length);
    printf("  [%s]\n", bar);
    line("live", '#', s->live, length);
    line("dead", '-', s->dead, length);
    line("free", '.', s->free, length);
    line("lost", 'x', s->lost, length);
}

static int report(const char *path, uint8_t *image)
{
    size_t length = load(path, image), head = 0, tail = 0, files = 0, steps = 0;
    Bytes b = {0, 0, 0, 0};
    uint32_t answer;
    if (length == 0) {
        printf("%s: cannot be read\n", path);
        return 1;
    }
    answer = lilota_mount(image, length, SIZE_MAX, &head, &tail, &files, &b.live, &b.dead, &b.free, &b.lost, &steps);
    if (answer != LILOTA_DONE) {
        printf("%s: mount answers %u\n", path, (unsigned)answer);
        return 1;
    }
    printf("%s: %lu bytes, %lu files, head %lu, tail %lu; mount took %lu steps in memory\n", path, (unsigned long)length,
           (unsigned long)files, (unsigned long)head, (unsigned long)tail, (unsigned long)steps);
    show(&b, length);
    return 0;
}

int main(int count, char **words)
{
    uint8_t *image = (uint8_t *)malloc(MOST + 1);
    int failed = image == NULL || count < 2 ? 2 : 0, i;
    for (i = 1; !failed && i < count; i++)
        failed = report(words[i], image);
    free(image);
    return failed;
}
