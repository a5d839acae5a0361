/*
 * Keeps recipes in a chip, in the two ways of slipknoll.h: by the slot calls
 * on a chip that is held here, and by the slot driver over an exchange()
 * function, behind which any AT45DB081D may stand. Here it is the same chip,
 * with pages of 264 bytes and then with pages of 256.
 *
 * From the root of the repository, after `scripts/library`:
 *
 *     cc -std=c99 -Wall -Wextra -pedantic -I include -o recipes examples/c/recipes.c \
 *         target/staticlib/libslipknoll.a
 *     ./recipes
 */
#include <stdio.h>
#include <string.h>

#include "slipknoll.h"

#define SLOT 7
#define POLL_LIMIT 10

/* The chip: its record and its array, whose length tells the part. */
static uint8_t record[SLIPKNOLL_RECORD_LEN];
static uint8_t array[SLIPKNOLL_ARRAY_LEN];
static size_t array_len;

/* ---- The slot calls. */

/* The longest log of the two calls, and nothing for script and junk. */
static uint8_t call_log[SLIPKNOLL_PUT_LOG_LEN(POLL_LIMIT)];
static const uint8_t none[1];

/* Today, and a season that is over: a first and a last day. */
#define TODAY 2026, 11, 16
#define SEASON 2026, 5, 1, 2026, 10, 31

static uint8_t put(const uint8_t *recipe, size_t len)
{
    uint64_t counts[3];
    uint8_t answer = slipknoll_put(record, array, array_len, SLOT, POLL_LIMIT, recipe, len,
                                   none, 0, none, 0, call_log, sizeof call_log, counts);
    printf("call put: answer %u, frames %u, polls %u\n", (unsigned)answer,
           (unsigned)counts[0], (unsigned)counts[1]);
    return answer;
}

/* The same for one season. */
static uint8_t put_term(const uint8_t *recipe, size_t len)
{
    uint64_t counts[3];
    uint8_t answer = slipknoll_put_term(record, array, array_len, SLOT, POLL_LIMIT, SEASON, recipe,
                                        len, none, 0, none, 0, call_log, sizeof call_log, counts);
    printf("call put_term: answer %u, frames %u, polls %u\n", (unsigned)answer,
           (unsigned)counts[0], (unsigned)counts[1]);
    return answer;
}

/* Reads the recipe into `buffer`, which has room for the part's longest. */
static uint8_t get(uint8_t *buffer, size_t *len)
{
    uint64_t counts[3];
    uint8_t answer = slipknoll_get(record, array, array_len, SLOT, POLL_LIMIT, TODAY, buffer,
                                   SLIPKNOLL_RECIPE_MAX(array_len), none, 0, none, 0, call_log,
                                   sizeof call_log, counts);
    printf("call get: answer %u, frames %u, polls %u\n", (unsigned)answer,
           (unsigned)counts[0], (unsigned)counts[1]);
    *len = (size_t)counts[2];
    return answer;
}

/* ---- The slot driver. */

/*
 * One chip-select period: the frame goes out while the reply comes in. False if
 * the frame may not have arrived, or a page read may be damaged. For a real
 * chip this function is another, and nothing else. This chip is ready at the
 * second poll after each command.
 */
static bool exchange(const uint8_t *frame, size_t len, uint8_t *reply)
{
    if (slipknoll_send(record, array, array_len, frame, len, reply, len) != SLIPKNOLL_ACCEPTED)
        return false;
    if (frame[0] == 0xD7)
        slipknoll_end_busy(record, array, array_len);
    return true;
}

/*
 * Goes on with a call that was started, to its end, and returns its answer;
 * SLIPKNOLL_RUNNING if it was given up. `payload` is that of the start; what a
 * get has read is in `staged`.
 */
static uint8_t drive(const char *name, uint8_t *state, const uint8_t *payload, size_t payload_len,
                     uint8_t *staged)
{
    uint8_t frame[SLIPKNOLL_DRIVER_FRAME_LEN], reply[SLIPKNOLL_DRIVER_FRAME_LEN];
    unsigned frames = 0, bytes = 0;
    size_t len = slipknoll_driver_frame(state, payload, payload_len, staged, frame);

    while (len != 0) {
        size_t sent = len;
        if (!exchange(frame, sent, reply))
            break;
        frames += 1;
        bytes += (unsigned)sent;
        len = slipknoll_driver_next(state, payload, payload_len, reply, sent, staged, frame);
    }
    printf("driver %s: answer %u, frames %u, bytes on the wire %u\n", name,
           (unsigned)slipknoll_driver_answer(state), frames, bytes);
    return slipknoll_driver_answer(state);
}

static uint8_t drive_put(const uint8_t *recipe, size_t len)
{
    static uint8_t staged[SLIPKNOLL_SLOT_ROOM];
    uint8_t state[SLIPKNOLL_DRIVER_LEN];

    slipknoll_driver_start_put(state, array_len, SLOT, POLL_LIMIT, recipe, len);
    return drive("put", state, recipe, len, staged);
}

static uint8_t drive_get(uint8_t *buffer, size_t *len)
{
    static uint8_t staged[SLIPKNOLL_SLOT_ROOM];
    uint8_t state[SLIPKNOLL_DRIVER_LEN];
    uint8_t answer;

    slipknoll_driver_start_get(state, array_len, SLOT, POLL_LIMIT, TODAY,
                               SLIPKNOLL_RECIPE_MAX(array_len));
    answer = drive("get", state, none, 0, staged);
    *len = slipknoll_driver_count(state, staged);
    memcpy(buffer, staged + SLIPKNOLL_BODY(staged), *len);
    return answer;
}

/* ---- Both, one after the other. */

static int run(void)
{
    static const uint8_t factory[SLIPKNOLL_FACTORY_LEN];
    static const uint8_t short_recipe[] = {'s', 'a', 'l', 't'};
    static uint8_t long_recipe[SLIPKNOLL_SLOT_ROOM], buffer[SLIPKNOLL_SLOT_ROOM];
    const size_t longest = SLIPKNOLL_RECIPE_MAX(array_len);
    size_t len;

    memset(long_recipe, 0x5A, longest);
    if (slipknoll_fresh(record, factory, array, array_len) != SLIPKNOLL_ACCEPTED)
        return 1;
    if (get(buffer, &len) != SLIPKNOLL_BLANK)
        return 1;

    if (put(short_recipe, sizeof short_recipe) != SLIPKNOLL_ACCEPTED)
        return 1;
    if (get(buffer, &len) != SLIPKNOLL_ACCEPTED)
        return 1;
    printf("recipe: %.*s\n", (int)len, (const char *)buffer);

    /* The driver finds what the call has put; and the other way round. */
    if (drive_get(buffer, &len) != SLIPKNOLL_ACCEPTED)
        return 1;
    printf("recipe: %.*s\n", (int)len, (const char *)buffer);
    if (drive_put(short_recipe, sizeof short_recipe) != SLIPKNOLL_ACCEPTED)
        return 1;
    if (drive_put(long_recipe, longest) != SLIPKNOLL_ACCEPTED)
        return 1;
    if (get(buffer, &len) != SLIPKNOLL_ACCEPTED)
        return 1;
    printf("recipe: %u bytes, %s\n", (unsigned)len,
           len == longest && memcmp(buffer, long_recipe, len) == 0 ? "as put" : "another");

    /* Outside its season a recipe is not handed over, and that does not show. */
    if (put_term(short_recipe, sizeof short_recipe) != SLIPKNOLL_ACCEPTED)
        return 1;
    if (get(buffer, &len) != SLIPKNOLL_TERM || drive_get(buffer, &len) != SLIPKNOLL_TERM)
        return 1;
    return 0;
}

int main(void)
{
    static const size_t parts[] = {SLIPKNOLL_ARRAY_LEN, SLIPKNOLL_ARRAY_256_LEN};
    size_t i;

    for (i = 0; i < sizeof parts / sizeof *parts; i++) {
        array_len = parts[i];
        printf("pages of %u bytes\n", (unsigned)SLIPKNOLL_PAGE_LEN(array_len));
        if (run() != 0)
            return 1;
    }
    return 0;
}
