/*
 * A simulated SPI NOR flash for spi.c: write enable, page program that only clears bits, sector erase, a status to poll,
 * and power that fails between two operations or inside the programming of a byte.
 */
#include <stddef.h>
#include <stdint.h>
#include <string.h>

#define LENGTH 16384
#define SECTOR 4096
#define PAGE 256

/* Its commands, and the bits of its status. */
enum { PROGRAM = 0x02, READ = 0x03, STATUS = 0x05, ENABLE = 0x06, ERASE = 0x20 };
enum { BUSY = 0x01, ENABLED = 0x02 };

#define SILENCE 0xFF   /* what the bus reads if no chip answers */
#define NEVER SIZE_MAX /* the power holds */

static struct {
    uint8_t cell[LENGTH];
    int powered, enabled;
    /* status reads up to the end of what is under way */
    unsigned busy;
    /* the power fails after so many finished operations; then the next byte keeps these bits that it was to clear */
    size_t fails_after;
    uint8_t keeps;
    /* finished operations */
    unsigned programmed, erased;
} chip;

/* An operation begins: 0 if the power fails in it. */
static int operate(void)
{
    chip.enabled = 0;
    chip.powered = chip.fails_after > 0;
    if (chip.powered && chip.fails_after != NEVER)
        chip.fails_after--;
    return chip.powered;
}

/* Only clears bits, and stays within its page. */
static void program_page(size_t address, const uint8_t *bytes, size_t count)
{
    int done = operate();
    uint8_t kept = done ? 0x00 : chip.keeps;
    size_t i, page = address / PAGE * PAGE;
    for (i = 0; i < count; i++)
        chip.cell[page + (address + i) % PAGE] &= (uint8_t)(bytes[i] | kept);
    chip.programmed += done ? 1 : 0;
    chip.busy = 3;
}

/* Done whole or not at all. */
static void erase_sector(size_t address)
{
    if (!operate())
        return;
    memset(chip.cell + address / SECTOR * SECTOR, 0xFF, SECTOR);
    chip.erased++;
    chip.busy = 50;
}

static uint8_t status(void)
{
    int busy = chip.busy > 0;
    chip.busy -= busy ? 1 : 0;
    return (uint8_t)((busy ? BUSY : 0) | (chip.enabled ? ENABLED : 0));
}

/* One transfer: a command with its address and bytes goes to the chip, then so many bytes come back. */
static void transfer(const uint8_t *sent, size_t count, uint8_t *back, size_t wanted)
{
    size_t i, address = 0;
    for (i = 0; i < wanted; i++)
        back[i] = SILENCE;
    if (count >= 4)
        address = (((size_t)sent[1] << 16) | ((size_t)sent[2] << 8) | sent[3]) % LENGTH;
    if (!chip.powered)
        return;
    if (sent[0] == STATUS && wanted > 0)
        back[0] = status();
    else if (chip.busy > 0)
        return; /* it hears nothing but the status command */
    else if (sent[0] == READ)
        for (i = 0; i < wanted; i++)
            back[i] = chip.cell[(address + i) % LENGTH];
    else if (sent[0] == ENABLE)
        chip.enabled = 1;
    else if (sent[0] == PROGRAM && chip.enabled)
        program_page(address, sent + 4, count - 4);
    else if (sent[0] == ERASE && chip.enabled)
        erase_sector(address);
}

static void power_on(void)
{
    chip.powered = 1;
    chip.enabled = 0;
    chip.busy = 0;
    chip.fails_after = NEVER;
}

/* The power fails after so many steps; inside the next one these bits are not cleared yet, FF: it has not begun. */
static void power_fails(size_t steps, uint8_t keeps)
{
    chip.fails_after = steps;
    chip.keeps = keeps;
}
