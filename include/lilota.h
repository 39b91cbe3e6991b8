/*
 * lilota: a small file store over one image of NOR flash.
 *
 * The image is lent for each call: its first byte and its length in bytes, a
 * multiple of 4,096 from 8,192 to 16,777,216. Nothing is kept between calls.
 *
 * Arguments. A pointer and the length behind it name a stretch of bytes; with
 * length 0 the pointer may be null. A file name has 1 to 63 bytes, each 20 to
 * 7E hex, a space (20) neither first nor last, '/' not last, and no 00 behind
 * it. Name and content must not overlap the image. The pointers to numbers that
 * a call gives back must not be null, nor overlap anything else.
 *
 * Flash steps. To program one byte or to erase one sector of 4,096 bytes is a
 * step. A writing call takes an allowance, the most steps that it may do, and
 * gives back the steps that it did. SIZE_MAX allows all that a call needs.
 * The comment of each call says how many steps that can be, divisions rounded
 * down; docs/WATCHDOG.md has the cases and the times.
 *
 * Power cuts. A cut after k steps leaves what the same call with allowance k
 * leaves. If the next step programs a byte, the cut may also fall inside it:
 * then any of the bits that this step would clear may be clear already, and the
 * others not yet; all other bytes are as after k steps. An erase is done whole
 * or not at all. Where a whole format came first and only these calls wrote
 * since, a mount that runs to its end answers 0 after any number of such cuts;
 * all files are then whole, and each put or remove that was cut has been done
 * or has changed no file. A format that was cut has to be done again.
 *
 * Bytes. Mount, put and sweep give back, when done, what the bytes of the image
 * that they leave are good for: live, in files; dead, in other records and in a
 * wrap marker; free, to be written; lost, below the head in its sector or behind
 * a wrap marker, until the head comes past. They sum to the image's length.
 * Cut or refused, all four are 0.
 *
 * Names. Put, get, remove, plan_put and plan_remove give back what is wrong with
 * the name: reason, one of the LILOTA_NAME_ numbers below, and place, where the
 * first bad byte stands in the name (0 the first byte). If several things are
 * wrong, the reason is the first of them in the order below. Place is 0 unless
 * the reason is LILOTA_NAME_BAD_BYTE. Reason and place are both 0 on every
 * answer but LILOTA_INVALID, and there too where the image's length is bad.
 *
 * Answers. Each call answers with one of the numbers below, checked in their
 * order. Unless the answer is LILOTA_DONE or LILOTA_CUT, every number given
 * back but a bad name's reason and place is 0 and the image is unchanged.
 */
#ifndef LILOTA_H
#define LILOTA_H

#include <stddef.h>
#include <stdint.h>

#ifdef __cplusplus
extern "C" {
#endif

/* The image's length is bad, or the name is (put, get, remove). */
#define LILOTA_INVALID 22u
/* The image breaks a rule of the layout. All calls but format. */
#define LILOTA_BROKEN 5u
/* The image has no head: it was never formatted. All calls but format. */
#define LILOTA_NO_HEAD 6u
/* Something is left unfinished: mount first. All calls but mount and format. */
#define LILOTA_UNSETTLED 16u
/* No such file (get, remove), or no file with that index (list). */
#define LILOTA_NO_FILE 2u
/*
 * Put: no room for the file, then for one more copy of each file that begins in
 * the head's sector, then for two of the largest size. Sweep: no room for the
 * first move.
 */
#define LILOTA_NO_ROOM 28u
/* The allowance was used up before the last step; the steps before are done. */
#define LILOTA_CUT 4u
/* Done. */
#define LILOTA_DONE 0u

/* The name has no byte. */
#define LILOTA_NAME_EMPTY 1u
/* The name has more than 63 bytes. */
#define LILOTA_NAME_TOO_LONG 2u
/* A byte is not 20 to 7E, or the first or the last byte is a space. */
#define LILOTA_NAME_BAD_BYTE 3u
/* The last byte is '/'. */
#define LILOTA_NAME_FINAL_SLASH 4u

/* What lilota_check says. */
#define LILOTA_CHECK_SETTLED 0u  /* mount has nothing to do */
#define LILOTA_CHECK_RECOVERY 1u /* it has; number: the first repair's */
#define LILOTA_CHECK_BROKEN 2u   /* mount refuses; number: the rule's */

/* The rules, in the order in which they are tested at one address. */
#define LILOTA_RULE_HEAD 1u       /* no head is found (address 0) */
#define LILOTA_RULE_UNFINISHED 2u /* an unfinished thing that is not last */
#define LILOTA_RULE_HEADER 3u     /* magic, status or reserved byte */
#define LILOTA_RULE_NAME 4u       /* a name without end, bad or repeated */
#define LILOTA_RULE_END 5u        /* a record past its end */
#define LILOTA_RULE_MARK 6u       /* CLEAN, START or marker out of place */
#define LILOTA_RULE_FREE 7u       /* a byte of the free run that is not FF */

/*
 * Erases all and leaves an empty store. Gives back the steps done.
 * Steps: length/4,096 + 8, of which 8 program a byte.
 * Answers: 22, 4, 0.
 */
uint32_t lilota_format(uint8_t *image, size_t length, size_t allowance,
                       size_t *steps);

/*
 * Repairs what a power cut left, between two steps or inside one, so that the
 * other calls take the image. Done, it gives back the head's and the tail's
 * address, the number of files, the bytes and the steps done; cut, the steps
 * alone: then mount again. An image with nothing to repair is done in 0 steps.
 * Steps: at most length/8 + length/4,096 + 8 after any cuts (see above).
 * Answers: 22, 5, 6, 4, 0.
 */
uint32_t lilota_mount(uint8_t *image, size_t length, size_t allowance,
                      size_t *head, size_t *tail, size_t *files,
                      size_t *live_bytes, size_t *dead_bytes,
                      size_t *free_bytes, size_t *lost_bytes,
                      size_t *steps);

/*
 * Writes a whole file, in place of an older one of its name. One step is the
 * commit, and clears a single bit: cut before it the old file stands, after it
 * the new one does, inside it one of the two. Gives back what is wrong with the
 * name, the bytes, if done, and the steps done. Done, it has left room for
 * sweeps, as said there.
 * Steps: name_length + content_length + 10 to 15, no erase.
 * Answers: 22, 5, 6, 16, 28, 4, 0.
 */
uint32_t lilota_put(uint8_t *image, size_t length,
                    const uint8_t *name, size_t name_length,
                    const uint8_t *content, size_t content_length,
                    size_t allowance,
                    uint32_t *reason, size_t *place,
                    size_t *live_bytes, size_t *dead_bytes,
                    size_t *free_bytes, size_t *lost_bytes,
                    size_t *steps);

/*
 * Gives back what is wrong with the name; where the file's bytes stand in the
 * image, and how many there are. They stay there up to the next writing call.
 * Answers: 22, 5, 6, 16, 2, 0.
 */
uint32_t lilota_get(const uint8_t *image, size_t length,
                    const uint8_t *name, size_t name_length,
                    uint32_t *reason, size_t *place,
                    size_t *offset, size_t *size);

/*
 * How long the file of this name is, from the head that mount gave back, by
 * headers and names alone: no byte of a file's data is read, so it takes as long
 * as there are records before the end of the chain, however large the image.
 * Gives back what is wrong with the name, and the file's length. On a settled
 * image with its own head the answer is get's. On any other image or head it is
 * 5 if the head is not a multiple of 8 below the image's length, or if something
 * is met that cannot stand there in a settled chain; else it goes by the first
 * committed record of the name, else by the first migrating one, else it is 2.
 * Answers: 22, 5, 2, 0.
 */
uint32_t lilota_length(const uint8_t *image, size_t length, size_t head,
                       const uint8_t *name, size_t name_length,
                       uint32_t *reason, size_t *place, size_t *size);

/*
 * The file with this index, 0 the first: gives back where its name stands in
 * the image, the name's length, and the file's length. Answers: 22, 5, 6, 16,
 * 2, 0.
 */
uint32_t lilota_list(const uint8_t *image, size_t length, size_t index,
                     size_t *name_offset, size_t *name_length, size_t *size);

/*
 * Removes a file, in one step: cut inside it, the file is whole or gone. Gives
 * back what is wrong with the name, and the steps done. Steps: 1, no erase.
 * Answers: 22, 5, 6, 16, 2, 4, 0.
 */
uint32_t lilota_remove(uint8_t *image, size_t length,
                       const uint8_t *name, size_t name_length,
                       size_t allowance,
                       uint32_t *reason, size_t *place,
                       size_t *steps);

/*
 * Makes room: moves the head on by up to 5 records, copies the live ones to the
 * tail and erases what is left behind. Gives back the finished moves and the
 * steps done, if cut too, and the bytes, if done.
 *
 * Where a whole format came first and only these calls wrote since, sweeps do
 * not get stuck after a put that is done: with r records, of files or not, that
 * then begin in the head's sector, r / 5 sweeps (rounded up, 52 at most) that
 * run to their end, with nothing between them, each answer 0 and together make
 * at least r moves, which is past all of these records. Nothing is promised of
 * sweeps that are cut: what is left of their copies takes room, and cut often
 * enough a sweep answers 28 until a file is removed.
 *
 * Steps: at most 5 (length + length/8 + 8 + length/4,096).
 * Answers: 22, 5, 6, 16, 28, 4, 0.
 */
uint32_t lilota_sweep(uint8_t *image, size_t length, size_t allowance,
                      size_t *moves,
                      size_t *live_bytes, size_t *dead_bytes,
                      size_t *free_bytes, size_t *lost_bytes,
                      size_t *steps);

/*
 * Planned steps, for a flash that is not in the processor's address space: the
 * image is a copy of it in memory. Each of the four calls below reads the image
 * and changes nothing in it. It hands out the steps that the direct call would
 * do, in their order, from the step with the number first on (0 the first),
 * into three lent slices: kinds[i] is 1 to program a byte or 2 to erase a
 * sector, addresses[i] is where, and bytes[i] the byte, 255 for an erase. It
 * hands out as many as fit the shortest slice and gives back how many (handed).
 * Slots that get nothing stay as they were.
 *
 * The answer and the other numbers are those of the direct call with an
 * allowance of SIZE_MAX; steps is the number of all steps, handed out or not.
 * With first at or past that number nothing is handed out. On a refusal handed
 * and every other number but a bad name's reason and place are 0, and no slot
 * is changed.
 *
 * A list of steps that is longer than the slices is handed out window after
 * window, with first growing by handed, and every window is planned from the
 * image as it was before the first step: carry the steps out in the flash, and
 * leave the image as it is until the last one is done. The first k steps leave
 * in the flash what the direct call with allowance k leaves in the image.
 *
 * The slices must not overlap each other, the image, name or content.
 */

/* Plans lilota_put. Answers: 22, 5, 6, 16, 28, 0. */
uint32_t lilota_plan_put(const uint8_t *image, size_t length,
                         const uint8_t *name, size_t name_length,
                         const uint8_t *content, size_t content_length,
                         size_t first,
                         uint32_t *kinds, size_t kinds_length,
                         uint32_t *addresses, size_t addresses_length,
                         uint32_t *bytes, size_t bytes_length,
                         size_t *handed,
                         uint32_t *reason, size_t *place,
                         size_t *live_bytes, size_t *dead_bytes,
                         size_t *free_bytes, size_t *lost_bytes,
                         size_t *steps);

/* Plans lilota_remove. Answers: 22, 5, 6, 16, 2, 0. */
uint32_t lilota_plan_remove(const uint8_t *image, size_t length,
                            const uint8_t *name, size_t name_length,
                            size_t first,
                            uint32_t *kinds, size_t kinds_length,
                            uint32_t *addresses, size_t addresses_length,
                            uint32_t *bytes, size_t bytes_length,
                            size_t *handed,
                            uint32_t *reason, size_t *place,
                            size_t *steps);

/* Plans lilota_sweep. Answers: 22, 5, 6, 16, 28, 0. */
uint32_t lilota_plan_sweep(const uint8_t *image, size_t length, size_t first,
                           uint32_t *kinds, size_t kinds_length,
                           uint32_t *addresses, size_t addresses_length,
                           uint32_t *bytes, size_t bytes_length,
                           size_t *handed, size_t *moves,
                           size_t *live_bytes, size_t *dead_bytes,
                           size_t *free_bytes, size_t *lost_bytes,
                           size_t *steps);

/*
 * Plans lilota_mount. Head, tail, files and bytes are those of the image that
 * the steps leave. Answers: 22, 5, 6, 0.
 */
uint32_t lilota_plan_mount(const uint8_t *image, size_t length, size_t first,
                           uint32_t *kinds, size_t kinds_length,
                           uint32_t *addresses, size_t addresses_length,
                           uint32_t *bytes, size_t bytes_length,
                           size_t *handed, size_t *head, size_t *tail,
                           size_t *files,
                           size_t *live_bytes, size_t *dead_bytes,
                           size_t *free_bytes, size_t *lost_bytes,
                           size_t *steps);

/*
 * Checks an image of this length: the first broken rule in reading order, or
 * what mount would begin with. Answers: 22 (a bad length; the numbers are then
 * 0), 0.
 */
uint32_t lilota_check(const uint8_t *image, size_t length, uint32_t *verdict,
                      uint32_t *number, size_t *address);

/*
 * Traces. A logger on the flash's bus has three slices of numbers, as the
 * planning calls hand them out: kinds (1 program, 2 erase), addresses, bytes (of
 * an erase ignored). They must not overlap the image. The two calls below carry
 * a trace out over it, up to the first entry that can't be carried out, the
 * stop. Slices of unequal length and an image of a bad length are
 * LILOTA_INVALID: the image stays as it was, and the numbers are 0.
 */

/* Why an entry stops a trace; if more than one is true, the first of them.
 * The address lies outside the image, or inside a sector that is to be erased,
 * or the byte to program is above 255; */
#define LILOTA_STOP_OUT_OF_RANGE 1u
/* the kind is neither 1 nor 2; */
#define LILOTA_STOP_UNKNOWN_KIND 2u
/* a bit would go from 0 to 1. */
#define LILOTA_STOP_SETS_BIT 3u

/*
 * Replays a trace; the image is then that after all entries before the stop.
 * Position says which entry stops it (0 the first), stop why; without a stop,
 * position is the count of all entries and stop 0. A trace that a planning call
 * handed out from step 0 on has no stop over the image that it was planned
 * from. Answers: 22, 0.
 */
uint32_t lilota_replay(uint8_t *image, size_t length,
                       const uint32_t *kinds, size_t kinds_length,
                       const uint32_t *addresses, size_t addresses_length,
                       const uint32_t *bytes, size_t bytes_length,
                       size_t *position, uint32_t *stop);

/*
 * Looks for the least count of entries, 0 too, after which lilota_mount would
 * refuse the image. If one is found up to the stop, *there is 1 and *count is it;
 * else *there is 0 and *count how many entries come before the stop. The image
 * is left as after *count entries. It is read before the first entry and behind
 * each that may change it: for n entries up to n + 1 times. Answers: 22, 0.
 */
uint32_t lilota_first_refused(uint8_t *image, size_t length,
                              const uint32_t *kinds, size_t kinds_length,
                              const uint32_t *addresses,
                              size_t addresses_length,
                              const uint32_t *bytes, size_t bytes_length,
                              uint32_t *there, size_t *count);

#ifdef __cplusplus
}
#endif

#endif
