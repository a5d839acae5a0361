/*
 * slipknoll.h: an AT45DB081D data flash chip with pages of 264 or of 256
 * bytes, as docs/SPECIFICATION.md describes it, held and driven through
 * libslipknoll.a; and the slot driver that keeps recipes in such a chip, held
 * here or real.
 *
 * The library keeps no state and allocates nothing. The caller holds a chip as
 * two pieces of memory:
 *
 *   record   765 bytes: registers, operation under way, buffers, compare bit
 *            (layout below);
 *   array    the flash pages. Its length alone tells the part:
 *
 *              length         pages  status    slot  recipe    term        junk
 *           1,081,344   4,096 x 264     A4h   2,112   2,109   2,101   1,081,872
 *              33,792     128 x 264     A4h   2,112   2,109   2,101      34,320
 *           1,048,576   4,096 x 256     A5h   2,048   2,045   2,037   1,049,088
 *              32,768     128 x 256     A5h   2,048   2,045   2,037      33,280
 *
 *            Here are the status of a fresh chip, and the lengths of a slot,
 *            of the longest recipe, of the longest with a term (a first and a
 *            last day) and of a cut's junk. The two parts of 128 pages are the
 *            short ones.
 *
 * A copy of both is a copy of the chip. Each call goes by the array that it is
 * lent, also where a record meets arrays of several parts one after the other.
 * Calls on chips that share no memory may run at the same time.
 *
 * There are three groups of functions:
 *
 *   the chip         slipknoll_fresh, _send, _end_busy, _move_pin, _cut
 *   the slot calls   slipknoll_put, _put_term, _patch, _get, _wipe, _raw:
 *                    recipes in the slots of a chip that is held here
 *   the slot driver  slipknoll_driver_*: the same without the chip, for a real
 *                    one; the caller carries the frames
 *
 * examples/c/recipes.c uses all three, and says how to compile it.
 *
 * Answers. A function that returns uint8_t returns the number of an answer in
 * the table below (the driver's also SLIPKNOLL_RUNNING: no answer yet). 0 is
 * accepted. With 1 to 7 and with 14 the call changed nothing: record, array,
 * reply, log and get buffer are as they were, byte for byte. 8 to 13, 15 and 16,
 * which only the slot calls and the driver have, end a call that was under
 * way; what its frames have done stays.
 *
 * Pointers. None may be null, and those of one call must not overlap. `record`
 * points to 765 bytes, `factory` to 64, `counts` to three aligned uint64_t, and
 * what the driver is lent to the lengths given there. Any other pointer comes
 * with its length; with length 0 it may be any non-null pointer. A pointer to
 * const is only read. Bytes need no alignment. Nothing is kept after the call.
 */
#ifndef SLIPKNOLL_H
#define SLIPKNOLL_H

#include <stdbool.h>
#include <stddef.h>
#include <stdint.h>

#ifdef __cplusplus
extern "C" {
#endif

/* ---- Lengths in bytes. */

#define SLIPKNOLL_RECORD_LEN 765
#define SLIPKNOLL_FACTORY_LEN 64
#define SLIPKNOLL_ARRAY_LEN 1081344          /* 4,096 pages of 264 bytes */
#define SLIPKNOLL_SHORT_ARRAY_LEN 33792      /* 128 pages of 264 bytes */
#define SLIPKNOLL_ARRAY_256_LEN 1048576      /* 4,096 pages of 256 bytes */
#define SLIPKNOLL_SHORT_ARRAY_256_LEN 32768  /* 128 pages of 256 bytes */
/* What goes by the part. `array_len`, at times evaluated twice, is one of these four. */
#define SLIPKNOLL_PAGE_LEN(array_len) ((array_len) % 264 == 0 ? 264 : 256)
/* The junk of a cut: a page for each buffer, then a byte for each of the array. */
#define SLIPKNOLL_JUNK_LEN(array_len) (2 * SLIPKNOLL_PAGE_LEN(array_len) + (array_len))
/* A slot: eight pages; 2,112 or 2,048. */
#define SLIPKNOLL_SLOT_LEN(array_len) (8 * SLIPKNOLL_PAGE_LEN(array_len))
/* The number of slots: 512, or 16 in a short part. */
#define SLIPKNOLL_SLOTS(array_len) ((array_len) / SLIPKNOLL_SLOT_LEN(array_len))
/* A recipe has 0 to 2,109 bytes, or 0 to 2,045. */
#define SLIPKNOLL_RECIPE_MAX(array_len) (SLIPKNOLL_SLOT_LEN(array_len) - 3)
/* One with a term has 0 to 2,101, or 0 to 2,037. */
#define SLIPKNOLL_TERM_RECIPE_MAX(array_len) (SLIPKNOLL_SLOT_LEN(array_len) - 11)
/* What goes by no part. */
#define SLIPKNOLL_SLOT_ROOM 2112         /* room for a slot of any part */
#define SLIPKNOLL_FRAME_MAX 1100         /* a frame has 1 to 1,100 bytes */
#define SLIPKNOLL_POLL_LIMIT_MAX 1000    /* a poll limit is 1 to 1,000 */
/* The shortest log of a call with poll limit b: six bytes for each frame that it can send. */
#define SLIPKNOLL_PUT_LOG_LEN(b) (6 * (17 * (b) + 26))
#define SLIPKNOLL_PATCH_LOG_LEN(b) (6 * (17 * (b) + 34))
#define SLIPKNOLL_GET_LOG_LEN(b) (6 * ((b) + 8))
#define SLIPKNOLL_WIPE_LOG_LEN(b) (6 * (2 * (b) + 3))
#define SLIPKNOLL_RAW_LOG_LEN 6
#define SLIPKNOLL_DRIVER_LEN 72          /* the driver's state */
#define SLIPKNOLL_DRIVER_FRAME_LEN 272   /* room for the driver's longest frame, on any part */
/* Where a recipe begins in the bytes of its slot: at 3, or at 11 behind a term. */
#define SLIPKNOLL_BODY(staged) ((staged)[0] == 2 ? 11 : 3)

/* ---- Answers. */

#define SLIPKNOLL_ACCEPTED 0
/* part: no part has an array of this length, or the part lacks the page, block
   or sector that the operation under way names, or one of its set */
#define SLIPKNOLL_PART 1
/* frame: empty or over 1,100 bytes, or the reply's length is another */
#define SLIPKNOLL_FRAME 2
/* slot: the part does not have it */
#define SLIPKNOLL_SLOT 3
/* limit: poll limit 0, or over 1,000 */
#define SLIPKNOLL_LIMIT 4
/* size: a recipe of more than the part's 2,109 or 2,045 bytes, with a term of
   more than its 2,101 or 2,037; a patch that ends behind 2,109 or 2,045, a get
   buffer of less */
#define SLIPKNOLL_SIZE 5
/* log: no room for six bytes of each frame that the call can send */
#define SLIPKNOLL_LOG 6
/* script: a byte that is 3 or more; or a 2, and junk that has not the part's
   length, SLIPKNOLL_JUNK_LEN(array_len) */
#define SLIPKNOLL_SCRIPT 7
/* chip: a status without 1001 in bits 5-2: no AT45DB081D, or a deep one */
#define SLIPKNOLL_CHIP 8
/* busy: as many polls as the limit allows, and not ready */
#define SLIPKNOLL_BUSY 9
/* sealed: the slot's sector is locked or protected; nothing was written */
#define SLIPKNOLL_SEALED 10
/* cut: the script cut the supply */
#define SLIPKNOLL_CUT 11
/* blank: the slot holds no record: its first byte, the version, is neither 1 nor
   2, or the length behind it is over that version's limit: 2,109 or 2,045 of 1,
   2,101 or 2,037 of 2 */
#define SLIPKNOLL_BLANK 12
/* end: the patch would end behind the recipe that is there */
#define SLIPKNOLL_END 13
/* dates: a date of a term, or today's, that does not exist or lies before 2000 or
   after 2199; or a term whose first day is after its last. Next after 5 */
#define SLIPKNOLL_DATES 14
/* term: today is before the first or after the last day in the slot; from get
   alone, after 12 */
#define SLIPKNOLL_TERM 15
/* miscompare: a page that was programmed is not what was loaded for it, by the
   status after its 60; from put and patch alone, at their end, after 13. The chip
   that is held here never miscompares: it is an answer of the driver's */
#define SLIPKNOLL_MISCOMPARE 16
/* Of slipknoll_driver_answer alone: the call has not ended, there is no answer. */
#define SLIPKNOLL_RUNNING 255

/*
 * ---- The record: where each field begins.
 *
 * Every content of the 765 bytes reads as some chip. A mark is one byte: 0 is
 * off and anything else on. Numbers are big-endian. A call that is not
 * answered with 1 to 7 or 14 writes the whole record: marks as 0 or 1, and 0 in the
 * fields that the operation under way does not have. A pin move writes the WP
 * mark alone.
 *
 * The fields from SLIPKNOLL_AT_TAG to SLIPKNOLL_AT_DATA are the operation
 * under way. Of these a tag reads the fields that are named at it below; the
 * others may hold anything.
 *
 * Each buffer has 264 bytes. A part of 256-byte pages uses the first 256; the
 * last eight are not its, and no call on it reads or changes them, but for
 * slipknoll_fresh, which makes them 0.
 */
#define SLIPKNOLL_AT_PROTECTION 0   /* 16: protection register: sector j has byte j, 0a bits
                                       7-6 of byte 0, and 0b its bits 5-4 */
#define SLIPKNOLL_AT_LOCKDOWN 16    /* 16: lockdown register, likewise */
#define SLIPKNOLL_AT_USER 32        /* 64: security register, user bytes */
#define SLIPKNOLL_AT_FACTORY 96     /* 64: security register, factory bytes */
#define SLIPKNOLL_AT_USED 160       /* 1: mark, user bytes programmed */
#define SLIPKNOLL_AT_PROTECT 161    /* 1: mark, software protection on */
#define SLIPKNOLL_AT_WP 162         /* 1: mark, WP pin high */
#define SLIPKNOLL_AT_DEEP 163       /* 1: mark, deep power-down */
#define SLIPKNOLL_AT_TAG 164        /* 1: which operation, a tag below */
#define SLIPKNOLL_AT_BUFFER 165     /* 1: its buffer, 1 or 2; 0 for none */
#define SLIPKNOLL_AT_NUMBER 166     /* 2: its page, block or sector */
#define SLIPKNOLL_AT_SECTORS 168    /* 4: sectors of a chip erase, bit i for sector i */
#define SLIPKNOLL_AT_DATA 172       /* 64: data of FC (its 16 bytes first) or of 9B */
#define SLIPKNOLL_AT_BUFFER_1 236   /* 264: buffer 1 */
#define SLIPKNOLL_AT_BUFFER_2 500   /* 264: buffer 2 */
#define SLIPKNOLL_AT_COMPARE 764    /* 1: mark, compare bit */

/*
 * ---- Tags of the operation under way: the opcode, or the last byte of a 3D
 * sequence. Opcodes for buffer 2 share the tag of buffer 1, 82 and 85 that of
 * 83. Any other tag, or a buffer that does not fit the tag, reads as an
 * operation beyond every array: the calls that take an array and a record
 * then answer 1 (slipknoll_fresh, which reads no record, does not).
 *
 * Every tag reads the buffer field. Number, sectors and data are ignored where
 * the tag is not said to have them.
 *
 * Sectors of 7C, 30 and C7 are numbered 0 (0a), 1 (0b), j + 1 (sector j). The
 * short parts have 0 and 1 alone: a number, or a bit of the set of a C7, beyond
 * the part's sectors is answered 1 too.
 */
#define SLIPKNOLL_TAG_IDLE 0x00          /* buffer 0; nothing else is read */
/* with buffer 1 or 2; number: page */
#define SLIPKNOLL_TAG_PROGRAM 0x83       /* 83/86, 82/85: page becomes buffer */
#define SLIPKNOLL_TAG_PROGRAM_OVER 0x88  /* 88/89: page becomes page AND buffer */
#define SLIPKNOLL_TAG_TRANSFER 0x53      /* 53/55: buffer becomes page */
#define SLIPKNOLL_TAG_COMPARE 0x60       /* 60/61: buffer and page compared */
#define SLIPKNOLL_TAG_REWRITE 0x58       /* 58/59: buffer becomes page, page rewritten */
/* with buffer 0 */
#define SLIPKNOLL_TAG_ERASE_PAGE 0x81          /* number: page */
#define SLIPKNOLL_TAG_ERASE_BLOCK 0x50         /* number: block of eight pages */
#define SLIPKNOLL_TAG_ERASE_SECTOR 0x7C        /* number: sector */
#define SLIPKNOLL_TAG_ERASE_CHIP 0xC7          /* sectors: those found unsealed; no number */
#define SLIPKNOLL_TAG_ERASE_PROTECTION 0xCF    /* 3D 2A 7F CF; none of the three */
#define SLIPKNOLL_TAG_PROGRAM_PROTECTION 0xFC  /* 3D 2A 7F FC; data: the first 16 bytes */
#define SLIPKNOLL_TAG_LOCK_SECTOR 0x30         /* 3D 2A 7F 30; number: sector */
#define SLIPKNOLL_TAG_PROGRAM_SECURITY 0x9B    /* data: all 64 bytes */

/*
 * ---- The chip.
 *
 * A fresh short part is asked for its status:
 *
 *     static uint8_t array[SLIPKNOLL_SHORT_ARRAY_LEN];
 *     uint8_t record[SLIPKNOLL_RECORD_LEN];
 *     const uint8_t factory[SLIPKNOLL_FACTORY_LEN] = {0};
 *     slipknoll_fresh(record, factory, array, sizeof array);
 *
 *     const uint8_t frame[2] = {0xD7, 0x00};
 *     uint8_t reply[2];
 *     if (slipknoll_send(record, array, sizeof array, frame, 2, reply, 2) == SLIPKNOLL_ACCEPTED)
 *         printf("%02X\n", reply[1]);                                     // A4
 *
 * Buffer 1 is written, and programmed to page 5 (N = 512 * 5):
 *
 *     const uint8_t load[6] = {0x84, 0, 0, 0, 'h', 'i'};
 *     const uint8_t program[4] = {0x83, 0x00, 0x0A, 0x00};
 *     uint8_t r6[6], r4[4];
 *     slipknoll_send(record, array, sizeof array, load, 6, r6, 6);
 *     slipknoll_send(record, array, sizeof array, program, 4, r4, 4);     // busy now: status 24
 *     slipknoll_end_busy(record, array, sizeof array);                    // array[5 * 264] is 'h'
 *
 * Rust: the same functions as `extern "C"`, `*mut u8`, `*const u8`, `usize`,
 * `u32` and `bool`. Python: make a shared object of the archive,
 *
 *     gcc -shared -o libslipknoll.so -Wl,--whole-archive libslipknoll.a -Wl,--no-whole-archive
 *
 *     import ctypes as c
 *     lib = c.CDLL("./libslipknoll.so")
 *     for name in ("fresh", "send", "end_busy", "move_pin", "cut",
 *                  "put", "put_term", "patch", "get", "wipe", "raw"):
 *         getattr(lib, "slipknoll_" + name).restype = c.c_uint8
 *     for length in (33792, 32768):                          # short parts of 264 and of 256
 *         record, array = (c.c_uint8 * 765)(), (c.c_uint8 * length)()
 *         lib.slipknoll_fresh(record, bytes(64), array, c.c_size_t(length))
 *         reply = (c.c_uint8 * 2)()
 *         lib.slipknoll_send(record, array, c.c_size_t(length), b"\xd7\x00", c.c_size_t(2), reply, c.c_size_t(2))
 *         print("%02X" % reply[1])                                        # A4, then A5
 */

/*
 * Makes a fresh chip, whatever record and array held before: FFh throughout
 * the array and in the user bytes, the factory bytes as given, zeros in the
 * other registers and in the buffers. No mark is set but that of WP, and
 * nothing is under way. Answers 0, 1 (by the array's length alone).
 */
uint8_t slipknoll_fresh(uint8_t *record, const uint8_t *factory, uint8_t *array, size_t array_len);

/*
 * Sends one frame, the bytes of one chip-select period, straight to the chip.
 * The reply is as long as the frame: FFh where the chip gives no data. A
 * self-timed command (program, erase, transfer, compare, 58/59, CF, FC, 30, 9B)
 * starts here and takes effect at slipknoll_end_busy; the array is not written
 * before. Buffers are written when the frame ends: by 84/87, by 82/85 their own,
 * by FC and 9B the first 16 or 64 bytes of buffer 1. A frame that the chip
 * ignores is answered 0 too. Answers 0, 1, 2.
 */
uint8_t slipknoll_send(uint8_t *record, const uint8_t *array, size_t array_len, const uint8_t *frame, size_t frame_len, uint8_t *reply, size_t reply_len);

/*
 * Ends the busy period: the operation under way takes effect, and the chip is
 * idle. An idle chip stays as it is; its record is stored as by any call, with
 * marks of 0 or 1 and 0 in the fields of the operation. Answers 0, 1.
 */
uint8_t slipknoll_end_busy(uint8_t *record, uint8_t *array, size_t array_len);

/* Moves the WP pin: changes the byte at SLIPKNOLL_AT_WP alone. Answer 0. */
uint8_t slipknoll_move_pin(uint8_t *record, bool high);

/*
 * Cuts the supply. Junk stands for what is lost: as many bytes as a page has
 * become buffer 1, as many behind them buffer 2, and of the rest, which begins at
 * byte 528 (pages of 264) or 512 (of 256), byte i becomes array byte i where the
 * operation under way was erasing or programming that byte. Under CF or FC the
 * protection register becomes the beginning of the rest, under 9B the user bytes
 * do, and used is set; under 30 the sector is locked if the first byte of the rest
 * is 80h or more.
 * The chip starts again idle, with compare bit, protect and deep cleared. What
 * is not named here stays, the level of WP too. Answers 0, 1, 7.
 */
uint8_t slipknoll_cut(uint8_t *record, uint8_t *array, size_t array_len, const uint8_t *junk, size_t junk_len);

/*
 * ---- The slot calls.
 *
 * Slot s is block s: pages 8s to 8s + 7, 2,112 or 2,048 bytes. In it stand a 1,
 * the version; n, the recipe's length, high byte first; the recipe; and zeros to
 * the end. A recipe with a term has a 2 for the version, and between n and the
 * recipe its first and its last day, each a number of four bytes, high byte first.
 *
 * Days and dates. A day's number counts from 1 January 2000, which is 0, in the
 * Gregorian calendar; 31 December 2199 is 73,048. Callers give dates: year, month
 * (1 is January) and day, any numbers at all. 14 is the answer to a date that does
 * not exist, such as 29 February 2100, or that lies before 2000 or after 2199, and
 * to a first day after the last. A get tests today's date whatever the slot holds.
 * It then reads a recipe without a term on every day, and one with a term from its
 * first day to its last, both inside; outside it answers 15. The days in a slot
 * may be any 32-bit numbers, since a frame of the caller's may have written them:
 * they are compared with today's number, and nothing else is asked of them.
 *
 * A call first looks at its arguments: the first of 1, 2, 3, 4, 5, 14, 6, 7, in
 * this order, that applies to them is its answer. If none does, it sends frames to
 * the chip:
 *
 *   wait    D7 00, again and again until bit 7 of the status, which is reply
 *           byte 1, is set. Bits 5-2 that are not 1001 end the call with 8,
 *           whatever bit 7 is; poll_limit polls of a busy chip with 9.
 *   seal    32 and 35, each with nineteen 00 behind it (20 bytes): protection
 *           and lockdown register. The call ends with 10 if these, and bit 1 of
 *           the status before them, tell that the slot's sector is sealed.
 *   check   60 with the page's address (4), wait: bit 6 of the status that ends
 *           this wait is 1 if page and buffer 1 differ. Whatever it is, the call
 *           goes on; it answers 16 at its end if it was 1 for any page, and
 *           neither 12 nor 13 is due. On the chip that is held here it is never 1.
 *
 *   put     wait, seal; for each page 84 00 00 00 with its bytes (268 or 260),
 *           83 with the page's address (4), wait, check
 *   patch   wait, seal; for each page D2 with its address and 00 behind it
 *           (272 or 264), then 84, 83, wait and check as put
 *   get     wait; D2 for each page
 *   wipe    wait, seal; 50 with the first page's address (4), wait
 *   raw     one frame of the caller's; no wait
 *
 * A page's address is 512 times its number, or 256 times with pages of 256 bytes,
 * in three bytes. Which frames are sent, and how long they are, depends on the
 * part, call, slot, poll limit, script and the chip's registers, and never on
 * recipes, on days or on what the slots hold: a patch under 12 or 13 programs every
 * page as it was, get always reads eight pages, under 12 and 15 too, and a page is
 * programmed whether or not its bytes are there already. A put with a term sends
 * what one without sends, as far as a listener sees it.
 *
 * Script. Its byte i says what follows frame i: 0 a busy end, 1 nothing, 2 a
 * cut with `junk` (as slipknoll_cut), which ends the call with 11 whatever the
 * reply was. Frames beyond the script have 0, so that an empty script is a chip
 * that has done its work by the next frame. A byte of 3 or more anywhere in the
 * script is answered with 7, reached or not; so is a 2 anywhere if the junk's
 * length is not the part's. Without a 2 the junk is not looked at and may
 * have any length.
 *
 * Log. Each frame writes a line of six bytes: its length, high byte first, and
 * its first four bytes, with FFh for those that it has not. Behind the lines the
 * log stays as it was. It must have room for the frames that the call can send:
 * see SLIPKNOLL_PUT_LOG_LEN and the others.
 *
 * Counts. Every call, a refused one too, sets all three:
 *   counts[0]   frames that the call sent
 *   counts[1]   polls among them: the D7 of its waits
 *   counts[2]   of a get with answer 0, the recipe's length n; else 0
 *
 * A recipe is put into slot 3 of a chip and read back:
 *
 *     uint8_t log[SLIPKNOLL_PUT_LOG_LEN(1)], buffer[SLIPKNOLL_RECIPE_MAX(sizeof array)], none[1];
 *     uint64_t counts[3];
 *     slipknoll_put(record, array, sizeof array, 3, 1, (const uint8_t *)"AB", 2,
 *                   none, 0, none, 0, log, sizeof log, counts);          // 0; counts 43, 17, 0
 *     slipknoll_get(record, array, sizeof array, 3, 1, 2026, 11, 16, buffer, sizeof buffer,
 *                   none, 0, none, 0, log, sizeof log, counts);          // 0; counts 9, 1, 2
 *
 * The same for one season, 1 May to 31 October 2027:
 *
 *     slipknoll_put_term(record, array, sizeof array, 3, 1, 2027, 5, 1, 2027, 10, 31,
 *                        (const uint8_t *)"AB", 2,
 *                        none, 0, none, 0, log, sizeof log, counts);     // 0; counts 43, 17, 0
 *     slipknoll_get(record, array, sizeof array, 3, 1, 2027, 4, 30, buffer, sizeof buffer,
 *                   none, 0, none, 0, log, sizeof log, counts);          // 15; counts 9, 1, 0
 *     slipknoll_get(record, array, sizeof array, 3, 1, 2027, 10, 31, buffer, sizeof buffer,
 *                   none, 0, none, 0, log, sizeof log, counts);          // 0; counts 9, 1, 2
 */

/*
 * Stores a recipe of up to 2,109 bytes, or 2,045 with pages of 256, in a slot,
 * without a term. With answer 0 the slot holds it. With 8 to 11 pages of the slot
 * may be old, new, or (11) junk. Answers 0, 1, 3 to 11.
 */
uint8_t slipknoll_put(uint8_t *record, uint8_t *array, size_t array_len, size_t slot,
                      size_t poll_limit, const uint8_t *recipe, size_t recipe_len,
                      const uint8_t *script, size_t script_len,
                      const uint8_t *junk, size_t junk_len, uint8_t *log, size_t log_len,
                      uint64_t *counts);

/*
 * The same with a term, for a recipe of up to 2,101 bytes, or 2,037 with pages of
 * 256: it may be read from the first day to the last, both inside. Answers 0, 1, 3
 * to 11, 14.
 */
uint8_t slipknoll_put_term(uint8_t *record, uint8_t *array, size_t array_len, size_t slot,
                           size_t poll_limit,
                           uint32_t first_year, uint32_t first_month, uint32_t first_day,
                           uint32_t last_year, uint32_t last_month, uint32_t last_day,
                           const uint8_t *recipe, size_t recipe_len,
                           const uint8_t *script, size_t script_len,
                           const uint8_t *junk, size_t junk_len, uint8_t *log, size_t log_len,
                           uint64_t *counts);

/*
 * Changes bytes of a slot's recipe: those from `place` on become `bytes`, where
 * place 0 is the recipe's first, with a term or without. The recipe grows no
 * longer: place + bytes_len may not be over its length (13) nor over the part's
 * longest (5). A term stays as it is, and is not looked at: a recipe may be patched
 * on any day. Under 12 and 13 all frames are sent and the slot keeps its bytes.
 * Answers 0, 1, 3 to 13.
 */
uint8_t slipknoll_patch(uint8_t *record, uint8_t *array, size_t array_len, size_t slot,
                        size_t poll_limit, size_t place, const uint8_t *bytes, size_t bytes_len,
                        const uint8_t *script, size_t script_len,
                        const uint8_t *junk, size_t junk_len, uint8_t *log, size_t log_len,
                        uint64_t *counts);

/*
 * Reads a slot's recipe; year, month and day are today's. With answer 0 its n bytes
 * are the first n of `buffer`, and counts[2] is n; the rest of the buffer keeps.
 * With any other answer, 15 too, the buffer keeps whole, and counts[2] is 0. The
 * buffer has at least SLIPKNOLL_RECIPE_MAX(array_len) bytes, whatever the slot
 * holds. Answers 0, 1, 3 to 9, 11, 12, 14, 15.
 */
uint8_t slipknoll_get(uint8_t *record, uint8_t *array, size_t array_len, size_t slot,
                      size_t poll_limit, uint32_t year, uint32_t month, uint32_t day,
                      uint8_t *buffer, size_t buffer_len,
                      const uint8_t *script, size_t script_len,
                      const uint8_t *junk, size_t junk_len, uint8_t *log, size_t log_len,
                      uint64_t *counts);

/* Erases a slot to FFh. Answers 0, 1, 3, 4, 6 to 11. */
uint8_t slipknoll_wipe(uint8_t *record, uint8_t *array, size_t array_len, size_t slot,
                       size_t poll_limit, const uint8_t *script, size_t script_len,
                       const uint8_t *junk, size_t junk_len, uint8_t *log, size_t log_len,
                       uint64_t *counts);

/*
 * Sends one frame of the caller's, of 1 to 1,100 bytes, as slipknoll_send does,
 * with log and script: after it an empty script ends the busy period, a script
 * of 1 leaves the chip busy. The reply is as long as the frame; it is kept under
 * 11. Answers 0, 1, 2, 6, 7, 11.
 */
uint8_t slipknoll_raw(uint8_t *record, uint8_t *array, size_t array_len,
                      const uint8_t *frame, size_t frame_len, uint8_t *reply, size_t reply_len,
                      const uint8_t *script, size_t script_len,
                      const uint8_t *junk, size_t junk_len, uint8_t *log, size_t log_len,
                      uint64_t *counts);

/*
 * ---- The slot driver alone, for a real chip.
 *
 * The slot calls above run this driver over the chip that the library holds.
 * With a real AT45DB081D, say behind a radio bridge, the caller carries the
 * frames: the driver takes in a reply and hands out the frame that follows, or
 * none at the end. It knows nothing of the link and never waits by itself.
 *
 * The caller lends it
 *
 *   state     SLIPKNOLL_DRIVER_LEN bytes; where the call stands. A start writes
 *             it whole, whatever it held. It has no pointers in it: it may be
 *             copied, and kept while a reply is under way.
 *   payload   the recipe of a put or the bytes of a patch, the same at every
 *             step; of a get or wipe, anything of length 0. It is not copied.
 *   staged    SLIPKNOLL_SLOT_ROOM bytes, whatever the part, in which a patch and
 *             a get keep what they have read of the slot; the caller leaves them
 *             alone between the steps. What they hold at the start does not
 *             matter.
 *   frame     SLIPKNOLL_DRIVER_FRAME_LEN bytes, whatever the part; the frame to
 *             send is written to its beginning, and its length returned.
 *
 * The loop is the same for every call:
 *
 *     static uint8_t staged[SLIPKNOLL_SLOT_ROOM];
 *     uint8_t state[SLIPKNOLL_DRIVER_LEN];
 *     uint8_t frame[SLIPKNOLL_DRIVER_FRAME_LEN], reply[SLIPKNOLL_DRIVER_FRAME_LEN];
 *     size_t len, got;
 *
 *     slipknoll_driver_start_put(state, SLIPKNOLL_ARRAY_LEN, slot, 100, recipe, recipe_len);
 *     len = slipknoll_driver_frame(state, recipe, recipe_len, staged, frame);
 *     while (len != 0) {
 *         if (!exchange(frame, len, reply, &got))   // yours; see below
 *             break;                                // the frame may be lost: give up
 *         len = slipknoll_driver_next(state, recipe, recipe_len, reply, got, staged, frame);
 *     }
 *     answer = slipknoll_driver_answer(state);      // 0, 1, 3 to 5, 8 to 10, 12 to 16;
 *                                                   // given up: SLIPKNOLL_RUNNING
 *
 * exchange() makes one chip-select period of the frame: CS low, len bytes out
 * on SI while len bytes come in on SO, CS high. Programs and erases begin when
 * CS goes high, so a frame may not be split, joined with another, or sent twice.
 * The reply is all that came in, from the first byte on, so that it lines up
 * with the frame: the status stands in reply[1], a page read from reply[8] on to
 * its end. Bytes behind the frame's length are not looked at.
 *
 * A link that loses bytes. What is not there counts as FFh; so a status that
 * did not come ends the call with 8 and registers that did not come with 10.
 * Two losses the driver cannot see, and the caller must end the call by not
 * going on with it:
 *
 *   - A frame that may not have reached the chip whole. The replies to 84, 83,
 *     60 and 50 carry nothing that is looked at: over a lost 84 or 60 the driver
 *     would go on, and a put might answer 0 with the slot holding something
 *     else. Such a frame may not be sent again either.
 *   - A reply to D2 that may be short or damaged. A get would hand over bytes
 *     that are not the slot's; a patch would program them back into it.
 *
 * Replies to D7, 32 and 35 that came short may be handed over as they are, none
 * at all if need be; a link that can change bits unseen needs a checksum of its
 * own. A call given up so has written any number of pages: start it again.
 *
 * Waiting. A busy chip is asked again at once, poll_limit times. A real one is
 * busy for up to 35 ms with an 83, 0.2 ms with a 60 and 75 ms with a 50, by the
 * data sheet of 11/2017: let exchange() pause before a D7 frame (frame[0] == 0xD7),
 * or choose poll_limit so that as many polls outlast this.
 *
 * What a listener sees of it, the frames' lengths and their first four bytes,
 * is the same whatever the recipes and their days are, whatever today is, and
 * whether or not a page took. Send each frame whole, as it is, and without pauses
 * that depend on the recipe.
 *
 * At the end. After a put, patch or wipe the answer is all; under 16 a page of the
 * slot does not hold what it was to hold: put the recipe again. After a get with
 * answer 0 the recipe stands in `staged` from staged + SLIPKNOLL_BODY(staged) on,
 * and slipknoll_driver_count tells its length. With any other answer `staged` means
 * nothing; under 15 it holds a recipe that is not to be read.
 *
 * If the supply or the link is lost in between, the slot may hold pages of both
 * recipes, or of none. Start the call again from its beginning.
 *
 * Before the first call: wake the chip with AB if it may be in deep power-down.
 * The driver does not look at status bit 0, which is 1 on a chip that is set to
 * 256-byte pages: read it with D7 00, and start the calls with
 * SLIPKNOLL_ARRAY_256_LEN where it is 1 and with SLIPKNOLL_ARRAY_LEN where it is 0.
 *
 * Any bytes of `state` are a state. One that no call comes to, made up or
 * damaged, has ended, with 1, 3 or 4: it gives no frame. Any other gives frames
 * of the call that it names, none but those, and ends within that call's bound
 * whatever comes back. The bytes that name the call differ in at least four
 * bits, so that a flipped bit does not make a get a wipe.
 */

/*
 * Each start tests its arguments: 1 (array_len, which tells the part: for a real
 * chip SLIPKNOLL_ARRAY_LEN or SLIPKNOLL_ARRAY_256_LEN), 3, 4, 5 and, where there are
 * dates, 14 in this order. A start that is refused is at its end:
 * slipknoll_driver_frame returns 0, and slipknoll_driver_answer tells why.
 */
void slipknoll_driver_start_put(uint8_t *state, size_t array_len, size_t slot, size_t poll_limit,
                                const uint8_t *recipe, size_t recipe_len);
/* A put with a term; what follows the start is the same. */
void slipknoll_driver_start_put_term(uint8_t *state, size_t array_len, size_t slot,
                                     size_t poll_limit, uint32_t first_year,
                                     uint32_t first_month, uint32_t first_day,
                                     uint32_t last_year, uint32_t last_month,
                                     uint32_t last_day,
                                     const uint8_t *recipe, size_t recipe_len);
void slipknoll_driver_start_patch(uint8_t *state, size_t array_len, size_t slot, size_t poll_limit,
                                  size_t place, const uint8_t *bytes, size_t bytes_len);
/* year, month, day: today's. buffer_len: room for the recipe, at least
   SLIPKNOLL_RECIPE_MAX(array_len). */
void slipknoll_driver_start_get(uint8_t *state, size_t array_len, size_t slot, size_t poll_limit,
                                uint32_t year, uint32_t month, uint32_t day, size_t buffer_len);
void slipknoll_driver_start_wipe(uint8_t *state, size_t array_len, size_t slot, size_t poll_limit);

/*
 * Writes the frame to send now and returns its length, 2 to 272; 0 at the end.
 * Changes no state: it may be asked again.
 */
size_t slipknoll_driver_frame(const uint8_t *state, const uint8_t *payload, size_t payload_len,
                              const uint8_t *staged, uint8_t *frame);

/*
 * Takes the reply to the frame last yielded, writes the next frame and returns
 * its length; 0 at the end. After the end it gives the end again.
 */
size_t slipknoll_driver_next(uint8_t *state, const uint8_t *payload, size_t payload_len,
                             const uint8_t *reply, size_t reply_len, uint8_t *staged,
                             uint8_t *frame);

/*
 * The answer, once there is no frame left to send; SLIPKNOLL_RUNNING (255) while
 * there is one.
 */
uint8_t slipknoll_driver_answer(const uint8_t *state);

/*
 * Of a get that has ended with 0 the recipe's length, at most the part's longest:
 * the recipe is the n bytes from staged + SLIPKNOLL_BODY(staged) on. 0 of any other
 * call or answer, and before the end.
 */
size_t slipknoll_driver_count(const uint8_t *state, const uint8_t *staged);

#ifdef __cplusplus
}
#endif

#endif
