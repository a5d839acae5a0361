/*
 * Calls every function of slipknoll.h and checks what the header says of it, on
 * the short part of 264-byte pages, or with PAGES_256 defined on that of 256. It
 * is C99 and C++ at once. Prints each check that fails, and how many there were.
 */
#include <stdio.h>
#include <string.h>

#include "slipknoll.h"

static unsigned checks, failures;

#define CHECK(fact) check((fact), #fact, __LINE__)

static void check(int holds, const char *fact, int line)
{
    checks++;
    if (!holds) {
        failures++;
        printf("line %d does not hold: %s\n", line, fact);
    }
}

/* ---- The chip, and a copy of it from before a call. */

/* What the header's table has of the part; and the middle bytes of the addresses
   of pages 5 and 24. */
#ifdef PAGES_256
#define ARRAY SLIPKNOLL_SHORT_ARRAY_256_LEN
enum { PAGE = 256, SLOT = 2048, MOST = 2045, TERM_MOST = 2037, JUNK = 33280 };
enum { READY = 0xA5, BUSY = 0x25 };
enum { PAGE_5 = 0x05, PAGE_24 = 0x18 };
#else
#define ARRAY SLIPKNOLL_SHORT_ARRAY_LEN
enum { PAGE = 264, SLOT = 2112, MOST = 2109, TERM_MOST = 2101, JUNK = 34320 };
enum { READY = 0xA4, BUSY = 0x24 };
enum { PAGE_5 = 0x0A, PAGE_24 = 0x30 };
#endif

static uint8_t record[SLIPKNOLL_RECORD_LEN], record_before[SLIPKNOLL_RECORD_LEN];
static uint8_t array[ARRAY], array_before[ARRAY];
static uint8_t factory[SLIPKNOLL_FACTORY_LEN];
static uint8_t junk[34320]; /* room for either part's */
static const uint8_t none[1] = {0};

static void remember(void)
{
    memcpy(record_before, record, sizeof record);
    memcpy(array_before, array, sizeof array);
}

/* Neither record nor array has changed since. */
static int kept(void)
{
    return memcmp(record, record_before, sizeof record) == 0
        && memcmp(array, array_before, sizeof array) == 0;
}

static int all(const uint8_t *bytes, size_t len, uint8_t value)
{
    size_t i;
    for (i = 0; i < len; i++)
        if (bytes[i] != value)
            return 0;
    return 1;
}

static uint8_t fresh(void)
{
    return slipknoll_fresh(record, factory, array, sizeof array);
}

/* The status of the chip; 0 if it cannot be asked. */
static uint8_t status(void)
{
    const uint8_t frame[2] = {0xD7, 0x00};
    uint8_t reply[2] = {0, 0};
    if (slipknoll_send(record, array, sizeof array, frame, 2, reply, 2) != SLIPKNOLL_ACCEPTED)
        return 0;
    return reply[1];
}

/* ---- The lengths, as the header's words have them. */

static void check_lengths(void)
{
    CHECK(SLIPKNOLL_ARRAY_LEN == 4096 * 264 && SLIPKNOLL_SHORT_ARRAY_LEN == 128 * 264);
    CHECK(SLIPKNOLL_ARRAY_256_LEN == 4096 * 256 && SLIPKNOLL_SHORT_ARRAY_256_LEN == 128 * 256);
    CHECK(SLIPKNOLL_PAGE_LEN(ARRAY) == PAGE && SLIPKNOLL_SLOT_LEN(ARRAY) == SLOT);
    CHECK(SLIPKNOLL_RECIPE_MAX(ARRAY) == MOST && SLIPKNOLL_JUNK_LEN(ARRAY) == JUNK);
    CHECK(SLIPKNOLL_TERM_RECIPE_MAX(ARRAY) == TERM_MOST);
    CHECK(SLIPKNOLL_TERM_RECIPE_MAX(SLIPKNOLL_ARRAY_LEN) == 2101);
    CHECK(SLIPKNOLL_TERM_RECIPE_MAX(SLIPKNOLL_ARRAY_256_LEN) == 2037);
    CHECK(SLIPKNOLL_PAGE_LEN(SLIPKNOLL_ARRAY_LEN) == 264);
    CHECK(SLIPKNOLL_PAGE_LEN(SLIPKNOLL_ARRAY_256_LEN) == 256);
    CHECK(SLIPKNOLL_SLOTS(SLIPKNOLL_ARRAY_LEN) == 512 && SLIPKNOLL_SLOTS(ARRAY) == 16);
    CHECK(SLIPKNOLL_SLOTS(SLIPKNOLL_ARRAY_256_LEN) == 512);
    CHECK(SLIPKNOLL_SLOT_ROOM == 2112 && SLIPKNOLL_SLOT_ROOM >= SLOT);
    /* Frames of an undisturbed call, one poll a wait: 43, 51, 9 and 5. */
    CHECK(SLIPKNOLL_PUT_LOG_LEN(1) == 6 * 43 && SLIPKNOLL_PATCH_LOG_LEN(1) == 6 * 51);
    CHECK(SLIPKNOLL_GET_LOG_LEN(1) == 6 * 9 && SLIPKNOLL_WIPE_LOG_LEN(1) == 6 * 5);
    /* Put and patch have 17 waits. */
    CHECK(SLIPKNOLL_PUT_LOG_LEN(2) == 6 * 60 && SLIPKNOLL_PATCH_LOG_LEN(2) == 6 * 68);
    CHECK(SLIPKNOLL_AT_COMPARE + 1 == SLIPKNOLL_RECORD_LEN);
    CHECK(SLIPKNOLL_DRIVER_FRAME_LEN == 8 + 264);
    CHECK(SLIPKNOLL_DRIVER_LEN == 8 + 8 * 8);
    CHECK(SLIPKNOLL_DATES == 14 && SLIPKNOLL_TERM == 15 && SLIPKNOLL_MISCOMPARE == 16);
}

/* ---- The chip. */

static void check_fresh(void)
{
    memset(record, 0x77, sizeof record);
    memset(array, 0x77, sizeof array);
    remember();
    CHECK(slipknoll_fresh(record, factory, array, sizeof array - 1) == SLIPKNOLL_PART);
    CHECK(kept());
    CHECK(fresh() == SLIPKNOLL_ACCEPTED);
    CHECK(all(array, sizeof array, 0xFF));
    CHECK(all(record, 32, 0));
    CHECK(all(record + SLIPKNOLL_AT_USER, 64, 0xFF));
    CHECK(memcmp(record + SLIPKNOLL_AT_FACTORY, factory, sizeof factory) == 0);
    CHECK(record[SLIPKNOLL_AT_USED] == 0 && record[SLIPKNOLL_AT_PROTECT] == 0);
    CHECK(record[SLIPKNOLL_AT_WP] == 1 && record[SLIPKNOLL_AT_DEEP] == 0);
    CHECK(all(record + SLIPKNOLL_AT_TAG, SLIPKNOLL_RECORD_LEN - SLIPKNOLL_AT_TAG, 0));
}

/* Writes "hi" to buffer 1 and begins to program it to page 5. */
static void program_page_5(void)
{
    const uint8_t load[6] = {0x84, 0, 0, 0, 'h', 'i'};
    const uint8_t program[4] = {0x83, 0x00, PAGE_5, 0x00};
    uint8_t reply[6];
    CHECK(slipknoll_send(record, array, sizeof array, load, 6, reply, 6) == SLIPKNOLL_ACCEPTED);
    CHECK(all(reply, 6, 0xFF));
    CHECK(slipknoll_send(record, array, sizeof array, program, 4, reply, 4) == SLIPKNOLL_ACCEPTED);
    CHECK(record[SLIPKNOLL_AT_TAG] == SLIPKNOLL_TAG_PROGRAM);
    CHECK(record[SLIPKNOLL_AT_BUFFER] == 1);
    CHECK(record[SLIPKNOLL_AT_NUMBER] == 0 && record[SLIPKNOLL_AT_NUMBER + 1] == 5);
}

static void check_send(void)
{
    static uint8_t frame[SLIPKNOLL_FRAME_MAX + 1], reply[SLIPKNOLL_FRAME_MAX + 1];
    fresh();
    CHECK(status() == READY);
    remember();
    memset(reply, 0x33, sizeof reply);
    CHECK(slipknoll_send(record, array, sizeof array - 1, frame, 2, reply, 2) == SLIPKNOLL_PART);
    CHECK(slipknoll_send(record, array, sizeof array, frame, 0, reply, 0) == SLIPKNOLL_FRAME);
    CHECK(slipknoll_send(record, array, sizeof array, frame, 2, reply, 3) == SLIPKNOLL_FRAME);
    CHECK(slipknoll_send(record, array, sizeof array, frame, sizeof frame, reply, sizeof reply)
          == SLIPKNOLL_FRAME);
    CHECK(all(reply, sizeof reply, 0x33) && kept());
    /* No command begins with 00: ignored, and answered 0. */
    CHECK(slipknoll_send(record, array, sizeof array, frame, SLIPKNOLL_FRAME_MAX, reply,
                         SLIPKNOLL_FRAME_MAX) == SLIPKNOLL_ACCEPTED);
    CHECK(all(reply, SLIPKNOLL_FRAME_MAX, 0xFF) && reply[SLIPKNOLL_FRAME_MAX] == 0x33 && kept());
}

static void check_end_busy(void)
{
    fresh();
    remember();
    CHECK(slipknoll_end_busy(record, array, sizeof array) == SLIPKNOLL_ACCEPTED && kept());
    program_page_5();
    CHECK(status() == BUSY);
    CHECK(all(array, sizeof array, 0xFF));
    remember();
    CHECK(slipknoll_end_busy(record, array, 0) == SLIPKNOLL_PART && kept());
    CHECK(slipknoll_end_busy(record, array, sizeof array) == SLIPKNOLL_ACCEPTED);
    CHECK(array[5 * PAGE] == 'h' && array[5 * PAGE + 1] == 'i');
    CHECK(all(array + 5 * PAGE + 2, PAGE - 2, 0));
    CHECK(all(array, 5 * PAGE, 0xFF) && all(array + 6 * PAGE, sizeof array - 6 * PAGE, 0xFF));
    CHECK(status() == READY && record[SLIPKNOLL_AT_TAG] == SLIPKNOLL_TAG_IDLE);
}

static void check_move_pin(void)
{
    fresh();
    remember();
    CHECK(slipknoll_move_pin(record, false) == SLIPKNOLL_ACCEPTED);
    CHECK(record[SLIPKNOLL_AT_WP] == 0);
    record_before[SLIPKNOLL_AT_WP] = 0;
    CHECK(kept());
    CHECK(slipknoll_move_pin(record, true) == SLIPKNOLL_ACCEPTED);
    CHECK(record[SLIPKNOLL_AT_WP] == 1);
}

static void check_cut(void)
{
    fresh();
    program_page_5();
    slipknoll_move_pin(record, false);
    /* Behind the page's bytes; with 264-byte pages there are none. */
    memset(record + SLIPKNOLL_AT_BUFFER_1 + PAGE, 0x66, 264 - PAGE);
    memset(record + SLIPKNOLL_AT_BUFFER_2 + PAGE, 0x66, 264 - PAGE);
    remember();
    CHECK(slipknoll_cut(record, array, 7, junk, JUNK) == SLIPKNOLL_PART);
    CHECK(slipknoll_cut(record, array, sizeof array, junk, JUNK - 1) == SLIPKNOLL_SCRIPT);
    CHECK(slipknoll_cut(record, array, sizeof array, junk, sizeof junk + 33280 - JUNK)
          == SLIPKNOLL_SCRIPT);
    CHECK(kept());
    CHECK(slipknoll_cut(record, array, sizeof array, junk, JUNK) == SLIPKNOLL_ACCEPTED);
    CHECK(memcmp(record + SLIPKNOLL_AT_BUFFER_1, junk, PAGE) == 0);
    CHECK(memcmp(record + SLIPKNOLL_AT_BUFFER_2, junk + PAGE, PAGE) == 0);
    CHECK(all(record + SLIPKNOLL_AT_BUFFER_1 + PAGE, 264 - PAGE, 0x66));
    CHECK(all(record + SLIPKNOLL_AT_BUFFER_2 + PAGE, 264 - PAGE, 0x66));
    CHECK(record[SLIPKNOLL_AT_TAG] == SLIPKNOLL_TAG_IDLE && record[SLIPKNOLL_AT_WP] == 0);
    CHECK(memcmp(array + 5 * PAGE, junk + 2 * PAGE + 5 * PAGE, PAGE) == 0);
    CHECK(all(array, 5 * PAGE, 0xFF) && all(array + 6 * PAGE, sizeof array - 6 * PAGE, 0xFF));
}

/* ---- The slot calls, with poll limit 1. */

static uint8_t lines[SLIPKNOLL_PATCH_LOG_LEN(1)];
static uint64_t counts[3];
static uint8_t buffer[MOST];

static int counted(uint64_t frames, uint64_t polls, uint64_t n)
{
    return counts[0] == frames && counts[1] == polls && counts[2] == n;
}

static uint8_t put(size_t slot, const char *recipe, const uint8_t *script, size_t script_len)
{
    return slipknoll_put(record, array, sizeof array, slot, 1, (const uint8_t *)recipe,
                         strlen(recipe), script, script_len, junk, JUNK, lines, sizeof lines,
                         counts);
}

static uint8_t put_term(size_t slot, uint32_t first_year, uint32_t first_month, uint32_t first_day,
                        uint32_t last_year, uint32_t last_month, uint32_t last_day,
                        const char *recipe)
{
    return slipknoll_put_term(record, array, sizeof array, slot, 1, first_year, first_month,
                              first_day, last_year, last_month, last_day,
                              (const uint8_t *)recipe, strlen(recipe), none, 0, none, 0, lines,
                              sizeof lines, counts);
}

static uint8_t patch(size_t slot, size_t place, const char *bytes)
{
    return slipknoll_patch(record, array, sizeof array, slot, 1, place, (const uint8_t *)bytes,
                           strlen(bytes), none, 0, none, 0, lines, sizeof lines, counts);
}

static uint8_t get_on(size_t slot, uint32_t year, uint32_t month, uint32_t day)
{
    memset(buffer, 0x55, sizeof buffer);
    return slipknoll_get(record, array, sizeof array, slot, 1, year, month, day, buffer,
                         sizeof buffer, none, 0, none, 0, lines, sizeof lines, counts);
}

static uint8_t get(size_t slot)
{
    return get_on(slot, 2026, 11, 16);
}

static uint8_t wipe(size_t slot, size_t poll_limit, size_t log_len)
{
    return slipknoll_wipe(record, array, sizeof array, slot, poll_limit, none, 0, none, 0, lines,
                          log_len, counts);
}

/* One frame of up to four bytes. */
static uint8_t raw(uint8_t a, uint8_t b, uint8_t c, uint8_t d, size_t len, uint8_t *reply)
{
    uint8_t frame[4];
    frame[0] = a;
    frame[1] = b;
    frame[2] = c;
    frame[3] = d;
    return slipknoll_raw(record, array, sizeof array, frame, len, reply, len, none, 0, none, 0,
                         lines, sizeof lines, counts);
}

static void check_put(void)
{
    const uint8_t poll[6] = {0, 2, 0xD7, 0, 0xFF, 0xFF};
    const uint8_t seal[6] = {0, 20, 0x32, 0, 0, 0};
    const uint8_t load[6] = {1, PAGE + 4 - 256, 0x84, 0, 0, 0};
    const uint8_t program[6] = {0, 4, 0x83, 0, PAGE_24, 0};
    const uint8_t compare[6] = {0, 4, 0x60, 0, PAGE_24, 0};
    const uint8_t head[5] = {1, 0, 2, 'A', 'B'};
    fresh();
    memset(lines, 0x99, sizeof lines);
    CHECK(put(3, "AB", none, 0) == SLIPKNOLL_ACCEPTED && counted(43, 17, 0));
    CHECK(memcmp(lines, poll, 6) == 0 && memcmp(lines + 6, seal, 6) == 0);
    CHECK(memcmp(lines + 18, load, 6) == 0 && memcmp(lines + 24, program, 6) == 0);
    CHECK(memcmp(lines + 30, poll, 6) == 0 && memcmp(lines + 36, compare, 6) == 0);
    CHECK(memcmp(lines + 6 * 42, poll, 6) == 0 && lines[6 * 43] == 0x99);
    CHECK(memcmp(array + 3 * SLOT, head, 5) == 0);
    CHECK(all(array + 3 * SLOT + 5, SLOT - 5, 0));
    CHECK(all(array, 3 * SLOT, 0xFF) && array[4 * SLOT] == 0xFF);
}

/* The compare bit of an earlier 60 is no miscompare. */
static void check_compared(void)
{
    uint8_t reply[4];
    fresh();
    CHECK(raw(0x60, 0, PAGE_24, 0, 4, reply) == SLIPKNOLL_ACCEPTED);
    CHECK(status() == (READY | 0x40) && record[SLIPKNOLL_AT_COMPARE] == 1);
    CHECK(put(3, "AB", none, 0) == SLIPKNOLL_ACCEPTED && status() == READY);
    record[SLIPKNOLL_AT_COMPARE] = 0xFF;
    CHECK(patch(3, 1, "C") == SLIPKNOLL_ACCEPTED && status() == READY);
    record[SLIPKNOLL_AT_COMPARE] = 1;
    CHECK(get(3) == SLIPKNOLL_ACCEPTED && status() == (READY | 0x40));
}

static void check_put_refused(void)
{
    const uint8_t three[1] = {3}, cut[2] = {0, 2};
    static uint8_t recipe[MOST + 1];
    fresh();
    remember();
    memset(lines, 0x99, sizeof lines);
    counts[0] = counts[1] = counts[2] = 9;
    CHECK(put(16, "AB", none, 0) == SLIPKNOLL_SLOT && counted(0, 0, 0));
    CHECK(put(0, "AB", three, 1) == SLIPKNOLL_SCRIPT && counted(0, 0, 0));
    CHECK(slipknoll_put(record, array, sizeof array, 0, 1, recipe, sizeof recipe, none, 0, none, 0,
                        lines, sizeof lines, counts) == SLIPKNOLL_SIZE);
    CHECK(slipknoll_put(record, array, sizeof array, 0, 1, recipe, 1, none, 0, none, 0, lines,
                        SLIPKNOLL_PUT_LOG_LEN(1) - 1, counts) == SLIPKNOLL_LOG);
    CHECK(slipknoll_put(record, array, sizeof array, 0, 1, recipe, 1, cut, 2, none, 0, lines,
                        sizeof lines, counts) == SLIPKNOLL_SCRIPT);
    CHECK(kept() && all(lines, sizeof lines, 0x99));
    /* The supply goes after the second frame; the buffers become junk. */
    CHECK(put(0, "AB", cut, 2) == SLIPKNOLL_CUT && counted(2, 1, 0));
    CHECK(memcmp(record + SLIPKNOLL_AT_BUFFER_1, junk, PAGE) == 0);
    CHECK(memcmp(record + SLIPKNOLL_AT_BUFFER_2, junk + PAGE, PAGE) == 0);
    CHECK(memcmp(array, array_before, sizeof array) == 0);
}

/* 1 May to 31 October 2027: days 9,982 (26FEh) and 10,165 (27B5h). */
static void check_put_term(void)
{
    const uint8_t head[13] = {2, 0, 2, 0, 0, 0x26, 0xFE, 0, 0, 0x27, 0xB5, 'A', 'B'};
    uint8_t plain[6 * 43];
    fresh();
    put(3, "a longer recipe", none, 0);
    memcpy(plain, lines, sizeof plain);
    CHECK(put_term(3, 2027, 5, 1, 2027, 10, 31, "AB") == SLIPKNOLL_ACCEPTED && counted(43, 17, 0));
    /* It looks the same on the wire. */
    CHECK(memcmp(plain, lines, sizeof plain) == 0);
    CHECK(memcmp(array + 3 * SLOT, head, 13) == 0);
    CHECK(all(array + 3 * SLOT + 13, SLOT - 13, 0));
    CHECK(SLIPKNOLL_BODY(array + 3 * SLOT) == 11);
    /* First and last day are inside. */
    CHECK(get_on(3, 2027, 4, 30) == SLIPKNOLL_TERM && counted(9, 1, 0));
    CHECK(all(buffer, sizeof buffer, 0x55));
    CHECK(get_on(3, 2027, 5, 1) == SLIPKNOLL_ACCEPTED && counted(9, 1, 2));
    CHECK(memcmp(buffer, "AB", 2) == 0 && all(buffer + 2, sizeof buffer - 2, 0x55));
    CHECK(get_on(3, 2027, 10, 31) == SLIPKNOLL_ACCEPTED && counted(9, 1, 2));
    CHECK(get_on(3, 2027, 11, 1) == SLIPKNOLL_TERM && counted(9, 1, 0));
    /* A patch counts from the recipe's first byte, on any day. */
    CHECK(patch(3, 1, "C") == SLIPKNOLL_ACCEPTED && counted(51, 17, 0));
    CHECK(get_on(3, 2027, 7, 1) == SLIPKNOLL_ACCEPTED && memcmp(buffer, "AC", 2) == 0);
    CHECK(memcmp(array + 3 * SLOT, head, 12) == 0);
    CHECK(patch(3, 2, "C") == SLIPKNOLL_END);
    /* The whole calendar. */
    CHECK(put_term(3, 2000, 1, 1, 2199, 12, 31, "AB") == SLIPKNOLL_ACCEPTED);
    CHECK(all(array + 3 * SLOT + 3, 5, 0) && array[3 * SLOT + 8] == 0x01);
    CHECK(array[3 * SLOT + 9] == 0x1D && array[3 * SLOT + 10] == 0x58);
    CHECK(get_on(3, 2000, 1, 1) == SLIPKNOLL_ACCEPTED);
    CHECK(get_on(3, 2199, 12, 31) == SLIPKNOLL_ACCEPTED);
}

/* Days that no put stores, and lengths around the limit of a version. */
static void check_stored_terms(void)
{
    uint8_t *slot = array + 3 * SLOT;
    fresh();
    put_term(3, 2000, 1, 1, 2000, 1, 1, "AB");
    memset(slot + 7, 0xFF, 4);
    CHECK(get_on(3, 2199, 12, 31) == SLIPKNOLL_ACCEPTED);
    memset(slot + 3, 0xFF, 4);
    CHECK(get_on(3, 2199, 12, 31) == SLIPKNOLL_TERM);
    memset(slot + 7, 0, 4);
    CHECK(get_on(3, 2000, 1, 1) == SLIPKNOLL_TERM && patch(3, 0, "x") == SLIPKNOLL_ACCEPTED);
    CHECK(slot[11] == 'x');
    memset(slot + 3, 0, 4);
    slot[1] = TERM_MOST >> 8;
    slot[2] = TERM_MOST & 255;
    CHECK(get_on(3, 2000, 1, 1) == SLIPKNOLL_ACCEPTED && counted(9, 1, TERM_MOST));
    slot[2]++;
    /* 12 before 15. */
    CHECK(get_on(3, 2000, 1, 1) == SLIPKNOLL_BLANK && counted(9, 1, 0));
    CHECK(get_on(3, 2000, 1, 2) == SLIPKNOLL_BLANK && patch(3, 0, "x") == SLIPKNOLL_BLANK);
    slot[0] = 1;
    CHECK(get_on(3, 2000, 1, 2) == SLIPKNOLL_ACCEPTED && counted(9, 1, TERM_MOST + 1));
    slot[0] = 3;
    slot[1] = 0;
    CHECK(get_on(3, 2000, 1, 1) == SLIPKNOLL_BLANK);
}

/* Nothing but 14 happens, after 5 and before 6, whatever the slot holds. */
static void check_dates(void)
{
    const uint32_t huge = 4294967295u;
    static const uint8_t recipe[MOST + 1] = {0};
    size_t i;
    fresh();
    put(3, "AB", none, 0);
    put_term(4, 2000, 1, 1, 2199, 12, 31, "AB");
    remember();
    memset(lines, 0x99, sizeof lines);
    for (i = 3; i <= 5; i++) {
        CHECK(get_on(i, 2100, 2, 29) == SLIPKNOLL_DATES && counted(0, 0, 0));
        CHECK(get_on(i, 2026, 2, 29) == SLIPKNOLL_DATES && get_on(i, 2026, 4, 31) == 14);
        CHECK(get_on(i, 2026, 0, 1) == SLIPKNOLL_DATES && get_on(i, 2026, 13, 1) == 14);
        CHECK(get_on(i, 2026, 1, 0) == SLIPKNOLL_DATES && get_on(i, 2026, 1, huge) == 14);
        CHECK(get_on(i, 0, 1, 1) == SLIPKNOLL_DATES && get_on(i, huge, 1, 1) == 14);
        CHECK(get_on(i, 1999, 12, 31) == SLIPKNOLL_DATES && get_on(i, 2200, 1, 1) == 14);
        CHECK(get_on(i, huge, huge, huge) == SLIPKNOLL_DATES && counted(0, 0, 0));
        CHECK(all(buffer, sizeof buffer, 0x55));
    }
    CHECK(put_term(3, 2026, 11, 16, 2026, 11, 15, "AB") == SLIPKNOLL_DATES && counted(0, 0, 0));
    CHECK(put_term(3, 2100, 2, 29, 2100, 3, 1, "AB") == SLIPKNOLL_DATES);
    CHECK(put_term(3, 2100, 2, 28, 2100, 2, 29, "AB") == SLIPKNOLL_DATES);
    CHECK(put_term(3, 2000, 1, 1, huge, 1, 1, "AB") == SLIPKNOLL_DATES);
    CHECK(put_term(3, 0, 0, 0, 2000, 1, 1, "AB") == SLIPKNOLL_DATES);
    CHECK(slipknoll_put_term(record, array, sizeof array, 0, 1, 0, 0, 0, 0, 0, 0, recipe,
                             TERM_MOST + 1, none, 0, none, 0, lines, 0, counts) == SLIPKNOLL_SIZE);
    CHECK(slipknoll_put_term(record, array, sizeof array, 0, 1, 0, 0, 0, 0, 0, 0, recipe,
                             TERM_MOST, none, 0, none, 0, lines, 0, counts) == SLIPKNOLL_DATES);
    CHECK(slipknoll_put_term(record, array, sizeof array, 0, 1, 2000, 1, 1, 2000, 1, 1, recipe,
                             TERM_MOST, none, 0, none, 0, lines, 0, counts) == SLIPKNOLL_LOG);
    CHECK(slipknoll_get(record, array, sizeof array, 3, 1, 0, 0, 0, buffer, MOST - 1, none, 0,
                        none, 0, lines, 0, counts) == SLIPKNOLL_SIZE);
    CHECK(slipknoll_get(record, array, sizeof array, 3, 1, 0, 0, 0, buffer, MOST, none, 0,
                        none, 0, lines, 0, counts) == SLIPKNOLL_DATES);
    CHECK(kept() && all(lines, sizeof lines, 0x99));
    CHECK(get_on(3, 2000, 2, 29) == SLIPKNOLL_ACCEPTED && get_on(4, 2096, 2, 29) == 0);
}

static void check_get(void)
{
    fresh();
    CHECK(get(3) == SLIPKNOLL_BLANK && counted(9, 1, 0) && all(buffer, sizeof buffer, 0x55));
    put(3, "AB", none, 0);
    CHECK(get(3) == SLIPKNOLL_ACCEPTED && counted(9, 1, 2));
    CHECK(buffer[0] == 'A' && buffer[1] == 'B' && all(buffer + 2, sizeof buffer - 2, 0x55));
    CHECK(slipknoll_get(record, array, sizeof array, 3, 1, 2026, 11, 16, buffer, MOST - 1, none,
                        0, none, 0, lines, sizeof lines, counts) == SLIPKNOLL_SIZE);
    CHECK(get(16) == SLIPKNOLL_SLOT && counted(0, 0, 0));
}

static void check_patch(void)
{
    fresh();
    CHECK(patch(3, 0, "x") == SLIPKNOLL_BLANK && counted(51, 17, 0));
    CHECK(all(array, sizeof array, 0xFF));
    put(3, "salt", none, 0);
    CHECK(patch(3, 1, "ol") == SLIPKNOLL_ACCEPTED && counted(51, 17, 0));
    CHECK(get(3) == SLIPKNOLL_ACCEPTED && counted(9, 1, 4) && memcmp(buffer, "solt", 4) == 0);
    remember();
    CHECK(patch(3, 3, "ol") == SLIPKNOLL_END && counted(51, 17, 0));
    CHECK(memcmp(array, array_before, sizeof array) == 0);
    CHECK(patch(3, MOST - 1, "ol") == SLIPKNOLL_SIZE && counted(0, 0, 0));
}

static void check_wipe(void)
{
    fresh();
    put(3, "AB", none, 0);
    put(4, "CD", none, 0);
    CHECK(wipe(3, 1, SLIPKNOLL_WIPE_LOG_LEN(1)) == SLIPKNOLL_ACCEPTED && counted(5, 2, 0));
    CHECK(all(array + 3 * SLOT, SLOT, 0xFF));
    CHECK(get(4) == SLIPKNOLL_ACCEPTED && counted(9, 1, 2));
    CHECK(wipe(3, 1, SLIPKNOLL_WIPE_LOG_LEN(1) - 1) == SLIPKNOLL_LOG);
    CHECK(wipe(3, 0, sizeof lines) == SLIPKNOLL_LIMIT);
    CHECK(wipe(3, SLIPKNOLL_POLL_LIMIT_MAX + 1, sizeof lines) == SLIPKNOLL_LIMIT);
}

static void check_raw(void)
{
    const uint8_t poll[6] = {0, 2, 0xD7, 0, 0xFF, 0xFF};
    uint8_t reply[4];
    fresh();
    CHECK(raw(0xD7, 0, 0, 0, 2, reply) == SLIPKNOLL_ACCEPTED && counted(1, 0, 0));
    CHECK(reply[1] == READY && memcmp(lines, poll, 6) == 0);
    CHECK(raw(0, 0, 0, 0, 0, reply) == SLIPKNOLL_FRAME && counted(0, 0, 0));
    CHECK(slipknoll_raw(record, array, sizeof array, poll + 2, 2, reply, 2, none, 0, none, 0, lines,
                        SLIPKNOLL_RAW_LOG_LEN - 1, counts) == SLIPKNOLL_LOG);
    /* Every sector listed and protection on: nothing may be written. */
    CHECK(raw(0x3D, 0x2A, 0x7F, 0xCF, 4, reply) == SLIPKNOLL_ACCEPTED);
    CHECK(raw(0x3D, 0x2A, 0x7F, 0xA9, 4, reply) == SLIPKNOLL_ACCEPTED);
    CHECK(put(3, "AB", none, 0) == SLIPKNOLL_SEALED && counted(3, 1, 0));
    /* Deep: no status comes back. */
    CHECK(raw(0xB9, 0, 0, 0, 1, reply) == SLIPKNOLL_ACCEPTED);
    CHECK(get(3) == SLIPKNOLL_CHIP && counted(1, 1, 0));
}

/* A busy chip that stays so: one poll, and no more by the limit. */
static void check_busy(void)
{
    const uint8_t nothing[1] = {1};
    fresh();
    program_page_5();
    CHECK(put(3, "AB", nothing, 1) == SLIPKNOLL_BUSY && counted(1, 1, 0));
    CHECK(record[SLIPKNOLL_AT_TAG] == SLIPKNOLL_TAG_PROGRAM);
}

/* ---- The driver alone, in front of the same chip. */

static uint8_t state[SLIPKNOLL_DRIVER_LEN], staged[SLIPKNOLL_SLOT_ROOM];
static uint8_t frame[SLIPKNOLL_DRIVER_FRAME_LEN], reply[SLIPKNOLL_DRIVER_FRAME_LEN];

/* The page, from 1 on, whose compare is made to find a difference; 0 for none. */
static unsigned odd_page;

/* Carries a call's frames to the chip; how many there were, and their bytes. */
static unsigned carry(const char *payload, size_t *bytes)
{
    const uint8_t *lent = (const uint8_t *)payload;
    unsigned frames = 0, compares = 0;
    uint8_t last = 0; /* the opcode of the last frame that was no poll */
    size_t len = slipknoll_driver_frame(state, lent, strlen(payload), staged, frame);
    *bytes = 0;
    while (len != 0 && frames < 100) {
        CHECK(slipknoll_driver_answer(state) == SLIPKNOLL_RUNNING);
        CHECK(slipknoll_driver_frame(state, lent, strlen(payload), staged, frame) == len);
        slipknoll_send(record, array, sizeof array, frame, len, reply, len);
        slipknoll_end_busy(record, array, sizeof array);
        if (frame[0] != 0xD7) {
            last = frame[0];
            compares += last == 0x60;
        } else if (last == 0x60 && compares == odd_page) {
            reply[1] |= 0x40;
        }
        frames++;
        *bytes += len;
        len = slipknoll_driver_next(state, lent, strlen(payload), reply, len, staged, frame);
    }
    CHECK(slipknoll_driver_next(state, lent, strlen(payload), reply, 0, staged, frame) == 0);
    return frames;
}

static void check_driver(void)
{
    size_t bytes;
    fresh();
    slipknoll_driver_start_put(state, sizeof array, 3, 1, (const uint8_t *)"salt", 4);
    CHECK(carry("salt", &bytes) == 43 && bytes == 2 + 20 + 20 + 8 * (4 + PAGE + 4 + 2 + 4 + 2));
    CHECK(slipknoll_driver_answer(state) == SLIPKNOLL_ACCEPTED);
    CHECK(slipknoll_driver_count(state, staged) == 0);
    slipknoll_driver_start_patch(state, sizeof array, 3, 1, 1, (const uint8_t *)"ol", 2);
    CHECK(carry("ol", &bytes) == 51);
    CHECK(bytes == 2 + 20 + 20 + 8 * (8 + PAGE + 4 + PAGE + 4 + 2 + 4 + 2));
    CHECK(slipknoll_driver_answer(state) == SLIPKNOLL_ACCEPTED);
    slipknoll_driver_start_get(state, sizeof array, 3, 1, 2026, 11, 16, MOST);
    CHECK(carry("", &bytes) == 9 && bytes == 2 + 8 * (8 + PAGE));
    CHECK(slipknoll_driver_answer(state) == SLIPKNOLL_ACCEPTED);
    CHECK(slipknoll_driver_count(state, staged) == 4 && memcmp(staged + 3, "solt", 4) == 0);
    CHECK(SLIPKNOLL_BODY(staged) == 3);
    slipknoll_driver_start_wipe(state, sizeof array, 3, 1);
    CHECK(carry("", &bytes) == 5 && bytes == 2 + 20 + 20 + 4 + 2);
    CHECK(slipknoll_driver_answer(state) == SLIPKNOLL_ACCEPTED);
    CHECK(all(array, sizeof array, 0xFF));
}

/* A page that did not take: all frames are sent, and 16 is told at the end. */
static void check_driver_miscompare(void)
{
    size_t bytes;
    fresh();
    for (odd_page = 1; odd_page <= 8; odd_page++) {
        slipknoll_driver_start_put(state, sizeof array, 3, 1, (const uint8_t *)"salt", 4);
        CHECK(carry("salt", &bytes) == 43);
        CHECK(slipknoll_driver_answer(state) == SLIPKNOLL_MISCOMPARE);
        slipknoll_driver_start_put_term(state, sizeof array, 3, 1, 2000, 1, 1, 2000, 1, 1,
                                        (const uint8_t *)"salt", 4);
        CHECK(carry("salt", &bytes) == 43);
        CHECK(slipknoll_driver_answer(state) == SLIPKNOLL_MISCOMPARE);
        slipknoll_driver_start_patch(state, sizeof array, 3, 1, 1, (const uint8_t *)"ol", 2);
        CHECK(carry("ol", &bytes) == 51);
        CHECK(slipknoll_driver_answer(state) == SLIPKNOLL_MISCOMPARE);
        CHECK(slipknoll_driver_count(state, staged) == 0);
        /* 12 and 13 come first. */
        slipknoll_driver_start_patch(state, sizeof array, 4, 1, 1, (const uint8_t *)"ol", 2);
        CHECK(carry("ol", &bytes) == 51 && slipknoll_driver_answer(state) == SLIPKNOLL_BLANK);
        slipknoll_driver_start_patch(state, sizeof array, 3, 1, 3, (const uint8_t *)"ol", 2);
        CHECK(carry("ol", &bytes) == 51 && slipknoll_driver_answer(state) == SLIPKNOLL_END);
    }
    odd_page = 0;
    CHECK(get_on(3, 2000, 1, 1) == SLIPKNOLL_ACCEPTED && memcmp(buffer, "solt", 4) == 0);
}

static void check_driver_term(void)
{
    size_t bytes;
    fresh();
    slipknoll_driver_start_put_term(state, sizeof array, 3, 1, 2027, 5, 1, 2027, 10, 31,
                                    (const uint8_t *)"salt", 4);
    CHECK(carry("salt", &bytes) == 43 && bytes == 2 + 20 + 20 + 8 * (4 + PAGE + 4 + 2 + 4 + 2));
    CHECK(slipknoll_driver_answer(state) == SLIPKNOLL_ACCEPTED);
    CHECK(get_on(3, 2027, 10, 31) == SLIPKNOLL_ACCEPTED && memcmp(buffer, "salt", 4) == 0);
    CHECK(get_on(3, 2027, 11, 1) == SLIPKNOLL_TERM);
    slipknoll_driver_start_patch(state, sizeof array, 3, 1, 1, (const uint8_t *)"ol", 2);
    CHECK(carry("ol", &bytes) == 51);
    CHECK(slipknoll_driver_answer(state) == SLIPKNOLL_ACCEPTED);
    slipknoll_driver_start_get(state, sizeof array, 3, 1, 2027, 5, 1, MOST);
    CHECK(carry("", &bytes) == 9 && bytes == 2 + 8 * (8 + PAGE));
    CHECK(slipknoll_driver_answer(state) == SLIPKNOLL_ACCEPTED);
    CHECK(slipknoll_driver_count(state, staged) == 4 && SLIPKNOLL_BODY(staged) == 11);
    CHECK(memcmp(staged + SLIPKNOLL_BODY(staged), "solt", 4) == 0);
    slipknoll_driver_start_get(state, sizeof array, 3, 1, 2027, 10, 31, MOST);
    CHECK(carry("", &bytes) == 9 && slipknoll_driver_answer(state) == SLIPKNOLL_ACCEPTED);
    CHECK(slipknoll_driver_count(state, staged) == 4);
    slipknoll_driver_start_get(state, sizeof array, 3, 1, 2027, 4, 30, MOST);
    CHECK(carry("", &bytes) == 9 && bytes == 2 + 8 * (8 + PAGE));
    CHECK(slipknoll_driver_answer(state) == SLIPKNOLL_TERM);
    CHECK(slipknoll_driver_count(state, staged) == 0);
    slipknoll_driver_start_get(state, sizeof array, 3, 1, 2027, 11, 1, MOST);
    CHECK(carry("", &bytes) == 9 && slipknoll_driver_answer(state) == SLIPKNOLL_TERM);
}

/* A start that is refused is at its end, and tells why. */
static int refused(uint8_t answer)
{
    return slipknoll_driver_frame(state, none, 0, staged, frame) == 0
        && slipknoll_driver_answer(state) == answer
        && slipknoll_driver_count(state, staged) == 0;
}

static void check_driver_refused(void)
{
    slipknoll_driver_start_put(state, sizeof array + 1, 3, 1, none, 0);
    CHECK(refused(SLIPKNOLL_PART));
    slipknoll_driver_start_put(state, 32 * sizeof array, 512, 1, none, 0);
    CHECK(refused(SLIPKNOLL_SLOT));
    slipknoll_driver_start_wipe(state, 32 * sizeof array, 511, 1001);
    CHECK(refused(SLIPKNOLL_LIMIT));
    slipknoll_driver_start_patch(state, sizeof array, 3, 1, MOST, none, 1);
    CHECK(refused(SLIPKNOLL_SIZE));
    slipknoll_driver_start_get(state, sizeof array, 3, 1, 0, 0, 0, MOST - 1);
    CHECK(refused(SLIPKNOLL_SIZE));
    slipknoll_driver_start_get(state, sizeof array, 3, 1, 2100, 2, 29, MOST);
    CHECK(refused(SLIPKNOLL_DATES));
    slipknoll_driver_start_put_term(state, sizeof array, 3, 1, 2000, 1, 2, 2000, 1, 1, none,
                                    TERM_MOST + 1);
    CHECK(refused(SLIPKNOLL_SIZE));
    slipknoll_driver_start_put_term(state, sizeof array, 3, 1, 2000, 1, 2, 2000, 1, 1, none, 0);
    CHECK(refused(SLIPKNOLL_DATES));
    slipknoll_driver_start_put_term(state, sizeof array, 3, 0, 2000, 1, 2, 2000, 1, 1, none, 0);
    CHECK(refused(SLIPKNOLL_LIMIT));
}

int main(void)
{
    size_t i;
    for (i = 0; i < sizeof factory; i++)
        factory[i] = (uint8_t)(3 * i + 1);
    for (i = 0; i < sizeof junk; i++)
        junk[i] = (uint8_t)(i * i + 7);
    check_lengths();
    check_fresh();
    check_send();
    check_end_busy();
    check_move_pin();
    check_cut();
    check_put();
    check_compared();
    check_put_refused();
    check_put_term();
    check_stored_terms();
    check_dates();
    check_get();
    check_patch();
    check_wipe();
    check_raw();
    check_busy();
    check_driver();
    check_driver_miscompare();
    check_driver_term();
    check_driver_refused();
    printf("%u of %u checks hold\n", checks - failures, checks);
    return failures == 0 ? 0 : 1;
}
