/* Calls every function of lupinshift.h as a host might that is careless: with NULL and length 0, with buffers that are a place too
   short, and with a listing taken in blocks of many lengths. What is refused must alter nothing, but for the count of an entry that a step
   refuses. The figures of a last line and those of a position must stand at their places. Reads a log from standard input and says what
   differs. */
#include <stdio.h>
#include <stdlib.h>
#include <string.h>

#include "lupinshift.h"

#define BEFORE 0xAA

/* A name as a slice: its letters, without the zero behind them. */
#define NAMED(letters) (const uint8_t *)(letters), sizeof(letters) - 1

_Static_assert(LUPIN_AT_VEHICLE(LUPIN_VEHICLES) == LUPIN_AT_IN_FORCE, "the places of the vehicles");
_Static_assert(LUPIN_AT_DESK_A + LUPIN_DESK == LUPIN_AT_DESK_B && LUPIN_AT_DESK_B + LUPIN_DESK == LUPIN_POSITION, "the desks");
_Static_assert(LUPIN_SHELF_PLACE == LUPIN_LONGEST_NAME + LUPIN_POSITION, "a place of the shelf");
_Static_assert(LUPIN_SHELF == LUPIN_SHELF_PLACES * LUPIN_SHELF_PLACE, "the shelf");

static int failures;

static void expect(int holds, const char *what)
{
    if (!holds) {
        fprintf(stderr, "check: %s\n", what);
        failures++;
    }
}

/* Whether the bytes from a place on are as they were. */
static int untouched(const void *out, size_t from, size_t to)
{
    while (from < to)
        if (((const uint8_t *)out)[from++] != BEFORE)
            return 0;
    return 1;
}

/* The same of numbers, of which each byte was set. */
static int kept(const uint64_t *numbers, size_t from, size_t to)
{
    return untouched(numbers + from, 0, (to - from) * sizeof *numbers);
}

static void no_places(void)
{
    static const char none[] = "end 0 0 0 0 0 0 0 0 0 0\n";
    uint64_t state[LUPIN_STATE_WORDS], figures[LUPIN_FIGURES];
    uint8_t out[LUPIN_LISTING_ROOM(0)];
    const uint8_t log[] = {1, 1};

    expect(lupin_list(NULL, 0, out, sizeof out) == strlen(none), "lupin_list, no log: the length");
    expect(memcmp(out, none, strlen(none)) == 0, "lupin_list, no log: the listing");
    expect(lupin_end(NULL, 0, out, sizeof out) == strlen(none), "lupin_end, no log");
    expect(lupin_figures(NULL, 0, figures, LUPIN_FIGURES) == LUPIN_FIGURES && figures[LUPIN_ENTRIES] == 0, "lupin_figures, no log");
    expect(lupin_answer(NULL, 0) == 0, "lupin_answer, no log");
    expect(lupin_taken(NULL, 0) == 0, "lupin_taken, no log");
    expect(lupin_begin(NULL, 0, state, LUPIN_STATE_WORDS) == LUPIN_STATE_WORDS, "lupin_begin, no log");
    expect(lupin_fill(state, LUPIN_STATE_WORDS, NULL, 0, NULL, 0) == 0, "lupin_fill, no log and no buffer");
    expect(lupin_fill(state, LUPIN_STATE_WORDS, NULL, 0, out, sizeof out) == strlen(none), "lupin_fill, no log");
    expect(lupin_fill(state, LUPIN_STATE_WORDS, NULL, 0, out, sizeof out) == 0, "lupin_fill, at the end");

    expect(lupin_list(log, sizeof log, NULL, 0) == 0, "lupin_list, no buffer");
    expect(lupin_end(log, sizeof log, NULL, 0) == 0, "lupin_end, no buffer");
    expect(lupin_figures(log, sizeof log, NULL, 0) == 0, "lupin_figures, no places");
    expect(lupin_begin(log, sizeof log, NULL, 0) == 0, "lupin_begin, no state");
    expect(lupin_fill(NULL, 0, log, sizeof log, out, sizeof out) == 0, "lupin_fill, no state");

    expect(lupin_list(NULL, 0, NULL, 0) == 0, "lupin_list, nothing");
    expect(lupin_end(NULL, 0, NULL, 0) == 0, "lupin_end, nothing");
    expect(lupin_figures(NULL, 0, NULL, 0) == 0, "lupin_figures, nothing");
    expect(lupin_begin(NULL, 0, NULL, 0) == 0, "lupin_begin, nothing");
    expect(lupin_fill(NULL, 0, NULL, 0, NULL, 0) == 0, "lupin_fill, nothing");
}

/* A log whose last line has three counts that differ and a vehicle present; x then holds two line clears, and y owes three. */
#define SHOWING(x, y)                                              \
    {                                                              \
        0x1F, 3, x, 0, 0, 1, 1,    /* THROUGH: 7, for x */         \
        0x1F, 3, y, 0, 0, 1, 1,    /* THROUGH: 7, for y */         \
        0x1F, 3, y, 0, 0, 1, 1,    /* and again */                 \
        0x83, 7, x, x, 0, 1,       /* MEET: 7, of no station */    \
        0x01, 8,                   /* RESUME: 7, of no station */  \
        0x1F, 3, x, 0, 0, 1, 2,    /* class 2: 4, of no station */ \
        0x01, 1,                   /* BEGIN keeps the counts */    \
        0x3F, 2, x, 0, 0, 1, 1, 3, /* OPEN, asks for 3 */          \
        0x87, 6, y, 0, 9, x, 0, 1, /* RECEIVE */                   \
        0x47, 4, y, 0, 9, 3,       /* RETURN, grants 3 */          \
        0x87, 6, x, 0, 9, y, 0, 1, /* RECEIVE */                   \
        0x0F, 5, x, 0, 9, 1,       /* TRAIN */                     \
    }

static void figures_are(const uint8_t *log, size_t len, const char *line, const uint64_t *wanted)
{
    uint64_t figures[LUPIN_FIGURES];
    uint8_t out[LUPIN_LONGEST_LINE];

    expect(lupin_figures(log, len, figures, LUPIN_FIGURES) == LUPIN_FIGURES, "lupin_figures, every figure: how many");
    expect(memcmp(figures, wanted, sizeof figures) == 0, "lupin_figures, every figure");
    expect(lupin_end(log, len, out, sizeof out) == strlen(line), "lupin_end, every figure: the length");
    expect(memcmp(out, line, strlen(line)) == 0, "lupin_end, every figure");
}

/* Each figure at its place: of the two logs together no two places are the same. */
static void every_figure(void)
{
    static const uint8_t a_holds[] = SHOWING(1, 2), b_holds[] = SHOWING(2, 1);
    static const uint64_t for_a[LUPIN_FIGURES] = {
        [LUPIN_ENTRIES] = 12,        [LUPIN_ACCEPTED] = 6, [LUPIN_REFUSED_FOR_A] = 1, [LUPIN_REFUSED_FOR_B] = 2,
        [LUPIN_REFUSED_OF_NONE] = 3, [LUPIN_PRESENT] = 1,  [LUPIN_A_HOLDS] = 2,       [LUPIN_B_OWES] = 3,
    };
    static const uint64_t for_b[LUPIN_FIGURES] = {
        [LUPIN_ENTRIES] = 12,        [LUPIN_ACCEPTED] = 6, [LUPIN_REFUSED_FOR_A] = 2, [LUPIN_REFUSED_FOR_B] = 1,
        [LUPIN_REFUSED_OF_NONE] = 3, [LUPIN_PRESENT] = 1,  [LUPIN_B_HOLDS] = 2,       [LUPIN_A_OWES] = 3,
    };

    figures_are(a_holds, sizeof a_holds, "end 12 6 1 2 3 1 2 0 0 3\n", for_a);
    figures_are(b_holds, sizeof b_holds, "end 12 6 2 1 3 1 0 3 2 0\n", for_b);
}

/* Buffers with just the room, and with a place less. */
static void short_buffers(const uint8_t *log, size_t len, uint8_t *out)
{
    size_t room = LUPIN_LISTING_ROOM(len), count;
    uint64_t state[LUPIN_STATE_WORDS + 1], figures[LUPIN_FIGURES + 1], refused;

    memset(out, BEFORE, room);
    expect(lupin_list(log, len, out, room - 1) == 0 && untouched(out, 0, room), "lupin_list, a byte too few");
    count = lupin_list(log, len, out, room);
    expect(count > 0 && count + LUPIN_LONGEST_LINE <= room && untouched(out, count, room), "lupin_list, just the room");

    memset(out, BEFORE, room);
    expect(lupin_end(log, len, out, LUPIN_LONGEST_LINE - 1) == 0 && untouched(out, 0, room), "lupin_end, a byte too few");
    count = lupin_end(log, len, out, LUPIN_LONGEST_LINE);
    expect(count > 0 && untouched(out, count, room), "lupin_end, just the room");

    memset(figures, BEFORE, sizeof figures);
    expect(lupin_figures(log, len, figures, LUPIN_FIGURES - 1) == 0 && kept(figures, 0, LUPIN_FIGURES + 1), "lupin_figures, a place too few");
    if (len > LUPIN_LONGEST_LOG) {
        expect(lupin_figures(log, len, figures, LUPIN_FIGURES) == 0 && kept(figures, 0, LUPIN_FIGURES + 1), "lupin_figures, a log that is too long");
    } else {
        expect(lupin_figures(log, len, figures, LUPIN_FIGURES) == LUPIN_FIGURES && kept(figures, LUPIN_FIGURES, LUPIN_FIGURES + 1), "lupin_figures, just the places");
        refused = figures[LUPIN_REFUSED_FOR_A] + figures[LUPIN_REFUSED_FOR_B] + figures[LUPIN_REFUSED_OF_NONE];
        expect(figures[LUPIN_ENTRIES] == figures[LUPIN_ACCEPTED] + refused, "lupin_figures, entries");
    }

    memset(out, BEFORE, room);
    memset(state, BEFORE, sizeof state);
    expect(lupin_begin(log, len, state, LUPIN_STATE_WORDS - 1) == 0 && kept(state, 0, LUPIN_STATE_WORDS + 1), "lupin_begin, a number too few");
    expect(lupin_fill(state, LUPIN_STATE_WORDS - 1, log, len, out, room) == 0 && kept(state, 0, LUPIN_STATE_WORDS + 1) && untouched(out, 0, room), "lupin_fill, a number too few");
    expect(lupin_begin(log, len, state, LUPIN_STATE_WORDS) == LUPIN_STATE_WORDS && kept(state, LUPIN_STATE_WORDS, LUPIN_STATE_WORDS + 1), "lupin_begin, just the numbers");
    expect(lupin_fill(state, LUPIN_STATE_WORDS, log, len, out, LUPIN_LONGEST_LINE - 1) == 0 && untouched(out, 0, room), "lupin_fill, a byte too few");
    count = lupin_fill(state, LUPIN_STATE_WORDS, log, len, out, LUPIN_LONGEST_LINE);
    expect(count > 0 && untouched(out, count, room) && kept(state, LUPIN_STATE_WORDS, LUPIN_STATE_WORDS + 1), "lupin_fill, just the room");
}

/* The listing in blocks of one length, beside the whole of it. */
static void in_blocks(const uint8_t *log, size_t len, const uint8_t *listing, size_t length, uint8_t *block, size_t size)
{
    uint64_t state[LUPIN_STATE_WORDS];
    size_t at = 0, count;

    lupin_begin(log, len, state, LUPIN_STATE_WORDS);
    memset(block, BEFORE, size);
    while ((count = lupin_fill(state, LUPIN_STATE_WORDS, log, len, block, size)) > 0) {
        if (at + count > length || memcmp(listing + at, block, count) != 0 || !untouched(block, count, size)) {
            expect(0, "lupin_fill, a block");
            return;
        }
        at += count;
        memset(block, BEFORE, size);
    }
    expect(at == length, "lupin_fill, all blocks");
}

static const uint8_t begin[] = {0x01, LUPIN_BEGIN};

/* A position that is none or a place too short, too few numbers, and what a refused and an accepted entry alter. */
static void steps(void)
{
    uint8_t position[LUPIN_POSITION + 1] = {0}, after[sizeof position];
    uint32_t answer[LUPIN_ANSWER + 1];

    position[LUPIN_POSITION] = BEFORE;
    memcpy(after, position, sizeof after);
    memset(answer, BEFORE, sizeof answer);
    expect(lupin_step(NULL, 0, NULL, 0, NULL, 0) == LUPIN_NO_POSITION, "lupin_step, nothing");
    expect(lupin_step(NULL, 0, begin, sizeof begin, answer, LUPIN_ANSWER) == LUPIN_NO_POSITION, "lupin_step, no position");
    expect(lupin_step(position, LUPIN_POSITION - 1, begin, sizeof begin, answer, LUPIN_ANSWER) == LUPIN_NO_POSITION, "lupin_step, a byte too few");
    expect(lupin_step(position, LUPIN_POSITION + 1, begin, sizeof begin, answer, LUPIN_ANSWER) == LUPIN_NO_POSITION, "lupin_step, a byte too many");
    expect(lupin_step(position, LUPIN_POSITION, begin, sizeof begin, NULL, 0) == LUPIN_BUFFER_TOO_SHORT, "lupin_step, no numbers");
    expect(lupin_step(position, LUPIN_POSITION, begin, sizeof begin, answer, LUPIN_ANSWER - 1) == LUPIN_BUFFER_TOO_SHORT, "lupin_step, a number too few");
    expect(memcmp(position, after, sizeof after) == 0 && untouched(answer, 0, sizeof answer), "lupin_step, 26 and 23: nothing altered");

    after[LUPIN_AT_REFUSED_OF_NONE + 3] = 2;
    expect(lupin_step(position, LUPIN_POSITION, NULL, 0, answer, LUPIN_ANSWER) == LUPIN_ENDS_INSIDE, "lupin_step, no entry");
    expect(lupin_step(position, LUPIN_POSITION, begin, 1, answer, LUPIN_ANSWER + 1) == LUPIN_ENDS_INSIDE, "lupin_step, an entry that is cut");
    expect(memcmp(position, after, sizeof after) == 0 && untouched(answer, 0, sizeof answer), "lupin_step, 1: counted, and nothing else altered");

    after[LUPIN_AT_IN_FORCE] = 1;
    expect(lupin_step(position, LUPIN_POSITION, begin, sizeof begin, answer, LUPIN_ANSWER + 1) == LUPIN_DONE, "lupin_step, BEGIN");
    expect(memcmp(position, after, sizeof after) == 0, "lupin_step, BEGIN: the position");
    expect(answer[LUPIN_ANSWER_NUMBER] == 0 && answer[LUPIN_ANSWER_FORMS] == 0 && answer[LUPIN_ANSWER_SPEED] == LUPIN_NO_SPEED, "lupin_step, BEGIN: the answer");
    expect(untouched(answer + LUPIN_ANSWER, 0, sizeof *answer), "lupin_step, BEGIN: the number behind the answer");
}

/* The first eight entries of examples/given-up.hex, and what answers each. */
static const uint8_t given_up[] = {
    0x01, 1,                    /* BEGIN */
    0x3F, 2, 1, 0, 10, 1, 1, 4, /* OPEN, asks for 4 */
    0x87, 6, 2, 0, 70, 1, 0, 1, /* RECEIVE */
    0x67, 4, 2, 0, 75, 2, 4,    /* RETURN, asks for 2, grants 4 */
    0x87, 6, 1, 0, 95, 2, 0, 1, /* RECEIVE */
    0x0F, 5, 1, 0, 96, 1,       /* TRAIN */
    0x4F, 9, 1, 0, 126, 1, 2,   /* LAST TRAIN, grants 2 */
    0x0F, 5, 1, 0, 156, 1,      /* TRAIN: 15, for A */
};
static const uint32_t answers[] = {0, 0, 0, 0, 0, 0, 0, LUPIN_NO_LINE_CLEAR};

/* What stands in the position behind them that is not zero, as in docs/FORMAT.md. */
static const uint8_t vehicles[] = {LUPIN_LAST_TRAIN, LUPIN_A, 0, 3, LUPIN_B, 0, 0, 0, 2, 2, LUPIN_TRAIN, LUPIN_A, 0, 2, LUPIN_B};
static const uint8_t desk_a[LUPIN_DESK] = {0, 126, 0, 3, 2, 1, 0, 126, 0, 0, 0, 0, 2, 0};
static const uint8_t desk_b[LUPIN_DESK] = {0, 75, 0, 1, 1, 1, 0, 75, 0, 0, 0, 0, 4, 0};

/* Each part of a position, and each number of an answer, at its place. The answer is that of the last entry accepted. */
static void every_part(void)
{
    uint8_t position[LUPIN_POSITION] = {0}, wanted[LUPIN_POSITION] = {0};
    uint32_t answer[LUPIN_ANSWER];
    size_t at = 0, entry;

    for (entry = 0; entry < sizeof answers / sizeof *answers; entry++) {
        expect(lupin_step(position, sizeof position, given_up + at, sizeof given_up - at, answer, LUPIN_ANSWER) == answers[entry], "lupin_step, every part: an answer");
        at += lupin_entry_length(given_up[at]);
    }
    expect(at == sizeof given_up, "lupin_entry_length, every part");
    expect(answer[LUPIN_ANSWER_NUMBER] == 3 && answer[LUPIN_ANSWER_FORMS] == (LUPIN_TF_602 | LUPIN_TG_602 | LUPIN_T369_3B | LUPIN_T409), "lupin_step, every part: form number and forms");
    expect(LUPIN_SPEED_CASE(answer[LUPIN_ANSWER_SPEED]) == LUPIN_TWO_FIGURES, "lupin_step, every part: two figures");
    expect(LUPIN_SPEED_STRAIGHT(answer[LUPIN_ANSWER_SPEED]) == 25 && LUPIN_SPEED_ELSEWHERE(answer[LUPIN_ANSWER_SPEED]) == 10, "lupin_step, every part: the speed");
    memcpy(wanted + LUPIN_AT_VEHICLES, vehicles, sizeof vehicles);
    wanted[LUPIN_AT_IN_FORCE] = 1;
    wanted[LUPIN_AT_REFUSED_FOR_A + 3] = 1;
    memcpy(wanted + LUPIN_AT_DESK_A, desk_a, sizeof desk_a);
    memcpy(wanted + LUPIN_AT_DESK_B, desk_b, sizeof desk_b);
    expect(memcmp(position, wanted, sizeof wanted) == 0, "lupin_step, every part of a position");
}

/* A store that is refused for each reason, and one that is not. */
static void stores(void)
{
    static uint8_t shelf[LUPIN_SHELF + 1], after[sizeof shelf];
    static const uint8_t fresh[LUPIN_POSITION + 1];
    uint8_t letter[1];

    shelf[LUPIN_SHELF] = BEFORE;
    memcpy(after, shelf, sizeof after);
    expect(lupin_store(NULL, 0, NULL, 0, NULL, 0) == LUPIN_ILL_MADE, "lupin_store, nothing");
    expect(lupin_store(NULL, 0, NAMED("CLASS"), fresh, LUPIN_POSITION) == LUPIN_ILL_MADE, "lupin_store, no shelf");
    expect(lupin_store(shelf, LUPIN_SHELF - 1, NAMED("CLASS"), fresh, LUPIN_POSITION) == LUPIN_ILL_MADE, "lupin_store, a byte too few");
    expect(lupin_store(shelf, LUPIN_SHELF + 1, NAMED("CLASS"), fresh, LUPIN_POSITION) == LUPIN_ILL_MADE, "lupin_store, a byte too many");
    expect(lupin_store(shelf, LUPIN_SHELF, NULL, 0, fresh, LUPIN_POSITION) == LUPIN_UNKNOWN_NAME, "lupin_store, no name");
    expect(lupin_store(shelf, LUPIN_SHELF, NAMED("CLASS\0"), fresh, LUPIN_POSITION) == LUPIN_UNKNOWN_NAME, "lupin_store, a zero behind the name");
    expect(lupin_store(shelf, LUPIN_SHELF, NAMED("CLASS"), NULL, 0) == LUPIN_NO_POSITION, "lupin_store, no position");
    expect(lupin_store(shelf, LUPIN_SHELF, NAMED("CLASS"), fresh, LUPIN_POSITION - 1) == LUPIN_NO_POSITION, "lupin_store, a position's byte too few");
    expect(lupin_store(shelf, LUPIN_SHELF, NAMED("CLASS"), fresh, LUPIN_POSITION + 1) == LUPIN_NO_POSITION, "lupin_store, a position's byte too many");
    expect(memcmp(shelf, after, sizeof after) == 0, "lupin_store, refused: nothing altered");

    memcpy(after, "CLASS", 5);
    expect(lupin_store(shelf, LUPIN_SHELF, NAMED("CLASS"), fresh, LUPIN_POSITION) == LUPIN_DONE, "lupin_store, a name");
    expect(memcmp(shelf, after, sizeof after) == 0, "lupin_store, a name: the shelf");
    for (letter[0] = 'A'; letter[0] < 'P'; letter[0]++)
        expect(lupin_store(shelf, LUPIN_SHELF, letter, 1, fresh, LUPIN_POSITION) == LUPIN_DONE, "lupin_store, up to sixteen names");
    memcpy(after, shelf, sizeof after);
    expect(lupin_store(shelf, LUPIN_SHELF, letter, 1, NULL, 0) == LUPIN_SHELF_FULL, "lupin_store, a seventeenth name");
    expect(lupin_store(shelf, LUPIN_SHELF, NAMED("CLASS"), fresh, LUPIN_POSITION) == LUPIN_DONE, "lupin_store, a used name on a full shelf");
    expect(memcmp(shelf, after, sizeof after) == 0, "lupin_store, a full shelf: as it was");
}

/* The same of a fetch. */
static void fetches(void)
{
    static uint8_t shelf[LUPIN_SHELF], after[LUPIN_SHELF];
    uint8_t position[LUPIN_POSITION] = {0}, buffer[LUPIN_POSITION + 1];

    memset(buffer, BEFORE, sizeof buffer);
    position[LUPIN_AT_REFUSED_FOR_B] = 1;
    expect(lupin_store(shelf, sizeof shelf, NAMED("CLASS"), position, sizeof position) == LUPIN_DONE, "lupin_store, a count");
    memcpy(after, shelf, sizeof after);
    expect(lupin_fetch(NULL, 0, NULL, 0, NULL, 0) == LUPIN_ILL_MADE, "lupin_fetch, nothing");
    expect(lupin_fetch(NULL, 0, NAMED("CLASS"), buffer, sizeof buffer) == LUPIN_ILL_MADE, "lupin_fetch, no shelf");
    expect(lupin_fetch(shelf, sizeof shelf - 1, NAMED("CLASS"), buffer, sizeof buffer) == LUPIN_ILL_MADE, "lupin_fetch, a byte too few");
    expect(lupin_fetch(shelf, sizeof shelf, NULL, 0, buffer, sizeof buffer) == LUPIN_UNKNOWN_NAME, "lupin_fetch, no name");
    expect(lupin_fetch(shelf, sizeof shelf, NAMED("CLAS"), buffer, sizeof buffer) == LUPIN_UNKNOWN_NAME, "lupin_fetch, a name not on the shelf");
    expect(lupin_fetch(shelf, sizeof shelf, NAMED("CLASS"), NULL, 0) == LUPIN_BUFFER_TOO_SHORT, "lupin_fetch, no buffer");
    expect(lupin_fetch(shelf, sizeof shelf, NAMED("CLASS"), buffer, LUPIN_POSITION - 1) == LUPIN_BUFFER_TOO_SHORT, "lupin_fetch, a buffer's byte too few");
    expect(untouched(buffer, 0, sizeof buffer), "lupin_fetch, refused: nothing altered");
    expect(lupin_fetch(shelf, sizeof shelf, NAMED("CLASS"), buffer, sizeof buffer) == LUPIN_DONE, "lupin_fetch, a name");
    expect(memcmp(buffer, position, sizeof position) == 0 && untouched(buffer, LUPIN_POSITION, sizeof buffer), "lupin_fetch, a name: the buffer");
    expect(memcmp(shelf, after, sizeof after) == 0, "lupin_fetch: the shelf");
}

/* Entries written from fields: what is refused, and that it alters nothing. */
static void written(void)
{
    uint16_t fields[LUPIN_FIELDS + 1] = {LUPIN_MAP_BEGIN, LUPIN_BEGIN};
    uint8_t entry[LUPIN_LONGEST_ENTRY];

    fields[LUPIN_FIELDS] = 7;
    memset(entry, BEFORE, sizeof entry);
    expect(lupin_write_entry(NULL, 0, NULL, 0) == LUPIN_BUFFER_TOO_SHORT, "lupin_write_entry, nothing");
    expect(lupin_write_entry(NULL, 0, entry, sizeof entry) == LUPIN_BUFFER_TOO_SHORT, "lupin_write_entry, no fields");
    expect(lupin_write_entry(fields, LUPIN_FIELDS - 1, entry, sizeof entry) == LUPIN_BUFFER_TOO_SHORT, "lupin_write_entry, a field too few");
    expect(lupin_write_entry(fields, LUPIN_FIELDS, NULL, 0) == LUPIN_BUFFER_TOO_SHORT, "lupin_write_entry, no bytes");
    expect(lupin_write_entry(fields, LUPIN_FIELDS, entry, sizeof begin - 1) == LUPIN_BUFFER_TOO_SHORT, "lupin_write_entry, a byte too few");
    fields[LUPIN_FIELD_MAP] += 256;
    expect(lupin_write_entry(fields, LUPIN_FIELDS, entry, sizeof entry) == LUPIN_WRONG_MAP, "lupin_write_entry, a map above 255");
    fields[LUPIN_FIELD_KIND] += 256;
    expect(lupin_write_entry(fields, LUPIN_FIELDS, NULL, 0) == LUPIN_UNKNOWN_KIND, "lupin_write_entry, a kind above 255");
    fields[LUPIN_FIELD_MAP] = LUPIN_MAP_BEGIN;
    fields[LUPIN_FIELD_KIND] = LUPIN_BEGIN;
    fields[LUPIN_FIELD_STATION] = 256;
    expect(lupin_write_entry(fields, LUPIN_FIELDS, NULL, 0) == LUPIN_OUT_OF_RANGE, "lupin_write_entry, a station above 255");
    expect(untouched(entry, 0, sizeof entry), "lupin_write_entry, refused: nothing altered");
    fields[LUPIN_FIELD_STATION] = 0;
    expect(lupin_write_entry(fields, LUPIN_FIELDS + 1, entry, sizeof entry) == LUPIN_DONE, "lupin_write_entry, BEGIN");
    expect(memcmp(entry, begin, sizeof begin) == 0 && untouched(entry, sizeof begin, sizeof entry), "lupin_write_entry, BEGIN: the bytes");
}

/* Entries read into fields likewise, and the length by every map. */
static void read_back(void)
{
    static const size_t sizes[] = {1, 1, 2, 1, 1, 1, 1, 3};
    static const uint16_t wanted[LUPIN_FIELDS] = {LUPIN_MAP_BEGIN, LUPIN_BEGIN};
    uint16_t fields[LUPIN_FIELDS + 1];
    unsigned map, bit;

    memset(fields, BEFORE, sizeof fields);
    expect(lupin_read_entry(NULL, 0, NULL, 0) == LUPIN_BUFFER_TOO_SHORT, "lupin_read_entry, nothing");
    expect(lupin_read_entry(begin, sizeof begin, NULL, 0) == LUPIN_BUFFER_TOO_SHORT, "lupin_read_entry, no fields");
    expect(lupin_read_entry(begin, sizeof begin, fields, LUPIN_FIELDS - 1) == LUPIN_BUFFER_TOO_SHORT, "lupin_read_entry, a field too few");
    expect(lupin_read_entry(NULL, 0, fields, LUPIN_FIELDS) == LUPIN_ENDS_INSIDE, "lupin_read_entry, no bytes");
    expect(lupin_read_entry(begin, sizeof begin - 1, fields, LUPIN_FIELDS) == LUPIN_ENDS_INSIDE, "lupin_read_entry, a byte too few");
    expect(untouched(fields, 0, sizeof fields), "lupin_read_entry, refused: nothing altered");
    expect(lupin_read_entry(begin, sizeof begin, fields, LUPIN_FIELDS + 1) == LUPIN_DONE, "lupin_read_entry, BEGIN");
    expect(memcmp(fields, wanted, sizeof wanted) == 0 && untouched(fields + LUPIN_FIELDS, 0, sizeof *fields), "lupin_read_entry, BEGIN: the fields");
    for (map = 0; map < 256; map++) {
        size_t length = 1;

        for (bit = 0; bit < 8; bit++)
            length += map >> bit & 1 ? sizes[bit] : 0;
        expect(lupin_entry_length((uint8_t)map) == length, "lupin_entry_length");
    }
}

/* The functions that are given no log. */
static void on_positions(void)
{
    steps();
    every_part();
    stores();
    fetches();
    written();
    read_back();
}

int main(int argc, char **argv)
{
    static uint8_t log[LUPIN_LONGEST_LOG + 1];
    uint8_t *listing, *out;
    size_t len, room, length, size, last;
    (void)argv;

    if (argc != 1) {
        fputs("usage: check < LOG\n", stderr);
        return 2;
    }
    len = fread(log, 1, sizeof log, stdin);
    if (ferror(stdin)) {
        perror("check: standard input");
        return 1;
    }
    room = LUPIN_LISTING_ROOM(len);
    listing = malloc(room);
    out = malloc(room);
    if (listing == NULL || out == NULL) {
        perror("check");
        return 1;
    }
    no_places();
    every_figure();
    on_positions();
    short_buffers(log, len, out);
    length = lupin_list(log, len, listing, room);
    for (size = LUPIN_LONGEST_LINE; size < 2 * LUPIN_LONGEST_LINE; size++)
        in_blocks(log, len, listing, length, out, size);
    for (size = 2 * LUPIN_LONGEST_LINE; size <= room; size *= 2)
        in_blocks(log, len, listing, length, out, size);
    last = lupin_end(log, len, out, LUPIN_LONGEST_LINE);
    expect(last <= length && memcmp(listing + length - last, out, last) == 0, "lupin_end, the listing's last line");
    free(listing);
    free(out);
    return failures == 0 ? 0 : 1;
}
