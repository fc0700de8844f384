/* Holds every constant and every macro of lupinshift.h, and every word of words.h, to what the archive does. A length is taken, and one less
   is refused. Entries that are written out by hand, in hex as docs/FORMAT.md has them, are stepped, and at each name must stand the figure
   that they set; of two names no two figures are always the same, so that names changed about are seen. A refusal is provoked, and its
   number must be the name's and its words those that document 01 has for the deed.
   Reads the listing of a double line's log, examples/double.listing, from standard input: T/C 602 is its alone. Says what differs. */
#include <stdio.h>
#include <stdlib.h>
#include <string.h>

#include "lupinshift.h"
#include "words.h"

/* Room behind a buffer, for a name that is too large to reach into. */
#define SPARE 64
#define BEHIND 0xAA

static int failures;

static void same(uint64_t found, uint64_t wanted, const char *name, const char *where)
{
    if (found != wanted) {
        fprintf(stderr, "constants: %s, %s: %llu, and %llu is wanted\n", name, where, (unsigned long long)found, (unsigned long long)wanted);
        failures++;
    }
}

static void same_words(const char *found, const char *wanted, const char *where)
{
    if (found == NULL || strcmp(found, wanted) != 0) {
        fprintf(stderr, "constants: the words of %s: \"%s\", and \"%s\" is wanted\n", where, found == NULL ? "" : found, wanted);
        failures++;
    }
}

/* A refusal that came back: its number is the name's, and its words are those. */
static void refused(uint32_t found, uint32_t name, const char *words, const char *where)
{
    same(found, name, "the refusal's name", where);
    same_words(lupin_words(found), words, where);
}

/* ---- Entries in hex, and sections that are stepped with them. */

struct bytes {
    size_t len;
    uint8_t at[256];
};

/* The bytes that a text has in hex; blanks are passed over. */
static struct bytes bytes_of(const char *hex)
{
    struct bytes bytes = {0};
    unsigned byte;
    int used;

    while (sscanf(hex, "%2x%n", &byte, &used) == 1 && bytes.len < sizeof bytes.at) {
        bytes.at[bytes.len++] = (uint8_t)byte;
        hex += used;
    }
    same(strlen(hex), strspn(hex, " "), "hex", hex);
    return bytes;
}

/* A section, and the answer to the last entry that it accepted. */
struct section {
    uint8_t position[LUPIN_POSITION + SPARE];
    uint32_t answer[LUPIN_ANSWER + SPARE];
};

static struct section fresh_section(void)
{
    struct section section;

    memset(&section, BEHIND, sizeof section);
    memset(section.position, 0, LUPIN_POSITION);
    return section;
}

static uint32_t step(struct section *section, const uint8_t *entry, size_t len)
{
    return lupin_step(section->position, LUPIN_POSITION, entry, len, section->answer, LUPIN_ANSWER);
}

/* Steps the section with the entries in hex. All but the last must be accepted; what answers the last is given back. */
static uint32_t play(struct section *section, const char *hex)
{
    struct bytes log = bytes_of(hex);
    size_t at = 0;
    uint32_t refusal = LUPIN_DONE;

    do {
        same(refusal, LUPIN_DONE, "an entry before the last", hex);
        refusal = step(section, log.at + at, log.len - at);
        at += lupin_entry_length(log.at[at]);
    } while (at < log.len);
    return refusal;
}

static uint32_t number_at(const uint8_t *bytes, size_t at, unsigned width)
{
    uint32_t number = 0;

    while (width-- > 0)
        number = number << 8 | bytes[at++];
    return number;
}

/* A THROUGH leaves this station, by its byte, in this minute. */
static uint32_t through(struct section *section, uint8_t station, unsigned minute)
{
    const uint8_t entry[] = {0x1F, 3, station, (uint8_t)(minute >> 8), (uint8_t)minute, 1, 1};

    return step(section, entry, sizeof entry);
}

/* Form numbers up to this one are used: an engine leaves on each, in minute 0, and is taken back. */
static void use_forms(struct section *section, uint8_t station, unsigned last)
{
    unsigned form;

    for (form = 1; form <= last; form++) {
        const uint8_t back[] = {0x87, 6, station, 0, 0, station, (uint8_t)(form >> 8), (uint8_t)form};

        same(through(section, station, 0), LUPIN_DONE, "a form number", "an engine leaves");
        same(step(section, back, sizeof back), LUPIN_DONE, "a form number", "it is taken back");
    }
}

/* What the scenes share. The opener of A goes to B and comes back with the answer; A then sends a train. */
#define BEGIN "01 01 "
#define RESUME "01 08 "
#define THROUGH_AT(minute) "1F 03 01 " minute " 01 01 "
#define A_OPENS BEGIN "3F 02 01 00 0A 01 01 02 "          /* OPEN at A, minute 10, clear day, light engine, asks for 2 */
#define B_HAS_GUEST A_OPENS "87 06 02 00 46 01 00 01 "    /* RECEIVE at B, minute 70, form A1 */
#define B_ANSWERS B_HAS_GUEST "67 04 02 00 4B 02 02 "     /* RETURN at B, minute 75, asks for 2, grants 2 */
#define A_HOLDS B_ANSWERS "87 06 01 00 5F 02 00 01 "      /* RECEIVE at A, minute 95, form B1 */
#define A_SENDS A_HOLDS "0F 05 01 00 60 01 "              /* TRAIN at A, minute 96, clear day */
#define A_GRANTS A_HOLDS "4F 05 01 00 60 01 01 "          /* the same, and it grants 1 */
#define FOLLOWER(view) A_SENDS "0F 05 01 00 7E " view " " /* TRAIN at A, minute 126 */

/* ---- The listing of a log: lengths, and the places of the figures. */

/* Zeros are a log: each is bytes that are no entry. */
static const uint8_t zeros[1 << 18];

static void listing_lengths(void)
{
    static uint8_t out[1 << 23];
    static const size_t lengths[] = {0, 1, 1000, LUPIN_LONGEST_LOG - 1, LUPIN_LONGEST_LOG, LUPIN_LONGEST_LOG + 1, sizeof zeros};
    uint64_t numbers[LUPIN_STATE_WORDS + LUPIN_FIGURES];
    size_t i;

    for (i = 0; i < LUPIN_PLACES(lengths); i++) {
        same(lupin_list(zeros, lengths[i], out, LUPIN_LISTING_ROOM(lengths[i])) > 0, 1, "LUPIN_LISTING_ROOM", "just the room");
        same(lupin_list(zeros, lengths[i], out, LUPIN_LISTING_ROOM(lengths[i]) - 1), 0, "LUPIN_LISTING_ROOM", "a byte less");
    }
    same(lupin_end(zeros, 1, out, LUPIN_LONGEST_LINE) > 0, 1, "LUPIN_LONGEST_LINE", "just the room");
    same(lupin_end(zeros, 1, out, LUPIN_LONGEST_LINE - 1), 0, "LUPIN_LONGEST_LINE", "a byte less");
    same(lupin_begin(zeros, 1, numbers, LUPIN_STATE_WORDS), LUPIN_STATE_WORDS, "LUPIN_STATE_WORDS", "just the numbers");
    same(lupin_begin(zeros, 1, numbers, LUPIN_STATE_WORDS - 1), 0, "LUPIN_STATE_WORDS", "a number less");
    same(lupin_figures(zeros, 1, numbers, LUPIN_FIGURES), LUPIN_FIGURES, "LUPIN_FIGURES", "just the places");
    same(lupin_figures(zeros, 1, numbers, LUPIN_FIGURES - 1), 0, "LUPIN_FIGURES", "a place less");
    same(lupin_figures(zeros, LUPIN_LONGEST_LOG, numbers, LUPIN_FIGURES), LUPIN_FIGURES, "LUPIN_LONGEST_LOG", "a log of that length");
    same(lupin_figures(zeros, LUPIN_LONGEST_LOG + 1, numbers, LUPIN_FIGURES), 0, "LUPIN_LONGEST_LOG", "a byte more");
}

/* Before BEGIN 2 entries of x, 4 of y and 5 of no station are refused. Then x asks for 8, y answers with 8 and asks for 7, and x sends a
   train that grants 3: 6 entries are accepted, one vehicle is present, x holds 7 and owes 3, y holds none and owes 8. */
#define EARLY(station) "1F 03 " station " 00 00 01 01 "
#define TEN_FIGURES(x, y)                                                                                                      \
    EARLY(x) EARLY(x) EARLY(y) EARLY(y) EARLY(y) EARLY(y) "01 08 01 08 01 08 01 08 01 08 " BEGIN                               \
    "3F 02 " x " 00 00 01 01 08 87 06 " y " 00 09 " x " 00 01 67 04 " y " 00 09 07 08 " /* OPEN, RECEIVE, RETURN */            \
    "87 06 " x " 00 09 " y " 00 01 4F 05 " x " 00 09 01 03"                             /* RECEIVE, TRAIN */

static void figure_places(void)
{
    static const struct {
        const char *name;
        size_t at;
        uint64_t x_is_a, x_is_b;
    } rows[] = {
        {"LUPIN_ENTRIES", LUPIN_ENTRIES, 17, 17},
        {"LUPIN_ACCEPTED", LUPIN_ACCEPTED, 6, 6},
        {"LUPIN_REFUSED_FOR_A", LUPIN_REFUSED_FOR_A, 2, 4},
        {"LUPIN_REFUSED_FOR_B", LUPIN_REFUSED_FOR_B, 4, 2},
        {"LUPIN_REFUSED_OF_NONE", LUPIN_REFUSED_OF_NONE, 5, 5},
        {"LUPIN_PRESENT", LUPIN_PRESENT, 1, 1},
        {"LUPIN_A_HOLDS", LUPIN_A_HOLDS, 7, 0},
        {"LUPIN_A_OWES", LUPIN_A_OWES, 3, 8},
        {"LUPIN_B_HOLDS", LUPIN_B_HOLDS, 0, 7},
        {"LUPIN_B_OWES", LUPIN_B_OWES, 8, 3},
    };
    struct bytes one = bytes_of(TEN_FIGURES("01", "02")), two = bytes_of(TEN_FIGURES("02", "01"));
    uint64_t first[LUPIN_FIGURES + SPARE], second[LUPIN_FIGURES + SPARE];
    size_t i;

    memset(first, BEHIND, sizeof first);
    memset(second, BEHIND, sizeof second);
    lupin_figures(one.at, one.len, first, LUPIN_FIGURES);
    lupin_figures(two.at, two.len, second, LUPIN_FIGURES);
    for (i = 0; i < LUPIN_PLACES(rows); i++) {
        same(first[rows[i].at], rows[i].x_is_a, rows[i].name, "a train from A");
        same(second[rows[i].at], rows[i].x_is_b, rows[i].name, "a train from B");
    }
    same(LUPIN_PLACES(rows), LUPIN_FIGURES, "LUPIN_FIGURES", "the names");
}

/* ---- Entries: fields, maps, kinds, stations, views and classes, as the archive writes and reads them. */

#define FIELDS(map, kind, station, time, view, class, asked, granted, sender, number)                                         \
    {                                                                                                                         \
        [LUPIN_FIELD_MAP] = map, [LUPIN_FIELD_KIND] = kind, [LUPIN_FIELD_STATION] = station, [LUPIN_FIELD_TIME] = time,       \
        [LUPIN_FIELD_VIEW] = view, [LUPIN_FIELD_CLASS] = class, [LUPIN_FIELD_ASKED] = asked, [LUPIN_FIELD_GRANTED] = granted, \
        [LUPIN_FIELD_SENDER] = sender, [LUPIN_FIELD_NUMBER] = number                                                          \
    }
#define ASKS LUPIN_HAS_ASKED
#define GRANTS LUPIN_HAS_GRANTED

/* The entries of docs/FORMAT.md, by name and in hex, with the name of the kind. Minute 772 is 03 04. */
static const struct {
    const char *hex, *kind;
    uint16_t fields[LUPIN_FIELDS];
} entries[] = {
    {"01 01", "BEGIN", FIELDS(LUPIN_MAP_BEGIN, LUPIN_BEGIN, 0, 0, 0, 0, 0, 0, 0, 0)},
    {"3F 02 02 03 04 01 01 07", "OPEN", FIELDS(LUPIN_MAP_OPEN, LUPIN_OPEN, LUPIN_B, 772, LUPIN_CLEAR_DAY, LUPIN_LIGHT_ENGINE, 7, 0, 0, 0)},
    {"3F 02 02 03 04 01 02 07", "OPEN", FIELDS(LUPIN_MAP_OPEN, LUPIN_OPEN, LUPIN_B, 772, LUPIN_CLEAR_DAY, LUPIN_TRAIN_ENGINE, 7, 0, 0, 0)},
    {"3F 02 01 03 04 02 03 07", "OPEN", FIELDS(LUPIN_MAP_OPEN, LUPIN_OPEN, LUPIN_A, 772, LUPIN_NIGHT_OR_OBSTRUCTED, LUPIN_MOTOR_TROLLEY, 7, 0, 0, 0)},
    {"3F 02 01 03 04 03 04 07", "OPEN", FIELDS(LUPIN_MAP_OPEN, LUPIN_OPEN, LUPIN_A, 772, LUPIN_IMPAIRED_WEATHER, LUPIN_OTHER_TROLLEY, 7, 0, 0, 0)},
    {"3F 02 01 03 04 03 05 07", "OPEN", FIELDS(LUPIN_MAP_OPEN, LUPIN_OPEN, LUPIN_A, 772, LUPIN_IMPAIRED_WEATHER, LUPIN_DIESEL_CAR, 7, 0, 0, 0)},
    {"1F 03 02 03 04 03 01", "THROUGH", FIELDS(LUPIN_MAP_THROUGH, LUPIN_THROUGH, LUPIN_B, 772, LUPIN_IMPAIRED_WEATHER, LUPIN_LIGHT_ENGINE, 0, 0, 0, 0)},
    {"07 04 02 03 04", "RETURN", FIELDS(LUPIN_MAP_RETURN, LUPIN_RETURN, LUPIN_B, 772, 0, 0, 0, 0, 0, 0)},
    {"27 04 02 03 04 05", "RETURN", FIELDS(LUPIN_MAP_RETURN | ASKS, LUPIN_RETURN, LUPIN_B, 772, 0, 0, 5, 0, 0, 0)},
    {"47 04 02 03 04 06", "RETURN", FIELDS(LUPIN_MAP_RETURN | GRANTS, LUPIN_RETURN, LUPIN_B, 772, 0, 0, 0, 6, 0, 0)},
    {"67 04 02 03 04 05 06", "RETURN", FIELDS(LUPIN_MAP_RETURN | ASKS | GRANTS, LUPIN_RETURN, LUPIN_B, 772, 0, 0, 5, 6, 0, 0)},
    {"0F 05 01 03 04 02", "TRAIN", FIELDS(LUPIN_MAP_TRAIN, LUPIN_TRAIN, LUPIN_A, 772, LUPIN_NIGHT_OR_OBSTRUCTED, 0, 0, 0, 0, 0)},
    {"6F 05 01 03 04 02 05 06", "TRAIN", FIELDS(LUPIN_MAP_TRAIN | ASKS | GRANTS, LUPIN_TRAIN, LUPIN_A, 772, LUPIN_NIGHT_OR_OBSTRUCTED, 0, 5, 6, 0, 0)},
    {"87 06 01 03 04 02 27 0F", "RECEIVE", FIELDS(LUPIN_MAP_RECEIVE, LUPIN_RECEIVE, LUPIN_A, 772, 0, 0, 0, 0, LUPIN_B, 9999)},
    {"83 07 02 01 27 0F", "MEET", FIELDS(LUPIN_MAP_MEET, LUPIN_MEET, LUPIN_B, 0, 0, 0, 0, 0, LUPIN_A, 9999)},
    {"01 08", "RESUME", FIELDS(LUPIN_MAP_RESUME, LUPIN_RESUME, 0, 0, 0, 0, 0, 0, 0, 0)},
    {"0F 09 01 03 04 02", "LAST TRAIN", FIELDS(LUPIN_MAP_LAST_TRAIN, LUPIN_LAST_TRAIN, LUPIN_A, 772, LUPIN_NIGHT_OR_OBSTRUCTED, 0, 0, 0, 0, 0)},
    {"6F 09 01 03 04 02 05 06", "LAST TRAIN", FIELDS(LUPIN_MAP_LAST_TRAIN | ASKS | GRANTS, LUPIN_LAST_TRAIN, LUPIN_A, 772, LUPIN_NIGHT_OR_OBSTRUCTED, 0, 5, 6, 0, 0)},
};

/* The field of each bit of a map; of a form it is the sender. */
static const struct {
    uint16_t bit;
    size_t field;
} bits[] = {
    {LUPIN_HAS_KIND, LUPIN_FIELD_KIND},
    {LUPIN_HAS_STATION, LUPIN_FIELD_STATION},
    {LUPIN_HAS_TIME, LUPIN_FIELD_TIME},
    {LUPIN_HAS_VIEW, LUPIN_FIELD_VIEW},
    {LUPIN_HAS_CLASS, LUPIN_FIELD_CLASS},
    {LUPIN_HAS_ASKED, LUPIN_FIELD_ASKED},
    {LUPIN_HAS_GRANTED, LUPIN_FIELD_GRANTED},
    {LUPIN_HAS_FORM, LUPIN_FIELD_SENDER},
};

/* The sum of the bits whose fields are there: none of the entries above has a 0 in a field that it has. */
static uint16_t map_by_bits(const uint16_t *fields)
{
    uint16_t map = 0;
    size_t i;

    for (i = 0; i < LUPIN_PLACES(bits); i++)
        if (fields[bits[i].field] != 0)
            map = (uint16_t)(map + bits[i].bit);
    return map;
}

/* An entry by name is written as its hex, and its hex is read as the entry by name. */
static void written_and_read(size_t row)
{
    struct bytes bytes = bytes_of(entries[row].hex);
    uint8_t entry[LUPIN_LONGEST_ENTRY] = {0};
    uint16_t fields[LUPIN_FIELDS] = {0};

    same(lupin_write_entry(entries[row].fields, LUPIN_FIELDS, entry, sizeof entry), LUPIN_DONE, "an entry by name", entries[row].hex);
    same(memcmp(entry, bytes.at, bytes.len), 0, "an entry by name: its bytes", entries[row].hex);
    same(lupin_entry_length(entry[0]), bytes.len, "an entry by name: its length", entries[row].hex);
    same(lupin_read_entry(bytes.at, bytes.len, fields, LUPIN_FIELDS), LUPIN_DONE, "an entry in hex", entries[row].hex);
    same(memcmp(fields, entries[row].fields, sizeof fields), 0, "an entry in hex: its fields", entries[row].hex);
    same(map_by_bits(fields), bytes.at[0], "the bits of the map", entries[row].hex);
    same_words(lupin_kinds[bytes.at[1]], entries[row].kind, entries[row].hex);
}

/* What writing an entry of this kind and map, with 1 in every field that it has, into so many bytes is answered. */
static uint32_t written_into(unsigned kind, unsigned map, size_t room)
{
    uint16_t fields[LUPIN_FIELDS] = {0};
    uint8_t entry[LUPIN_LONGEST_ENTRY];
    size_t i;

    for (i = 0; i < LUPIN_PLACES(bits); i++)
        fields[bits[i].field] = (map & bits[i].bit) != 0;
    fields[LUPIN_FIELD_NUMBER] = fields[LUPIN_FIELD_SENDER];
    fields[LUPIN_FIELD_MAP] = (uint16_t)map;
    fields[LUPIN_FIELD_KIND] = (uint16_t)kind;
    return lupin_write_entry(fields, LUPIN_FIELDS, entry, room);
}

/* LUPIN_LONGEST_ENTRY is room for any entry of any kind and map, and a byte less is not. */
static void longest_entry(void)
{
    unsigned kind, map, too_long = 0, too_long_for_less = 0;

    for (kind = 0; kind < 256; kind++)
        for (map = 0; map < 256; map++) {
            too_long += written_into(kind, map, LUPIN_LONGEST_ENTRY) == LUPIN_BUFFER_TOO_SHORT;
            too_long_for_less += written_into(kind, map, LUPIN_LONGEST_ENTRY - 1) == LUPIN_BUFFER_TOO_SHORT;
        }
    same(too_long, 0, "LUPIN_LONGEST_ENTRY", "just the room");
    same(too_long_for_less > 0, 1, "LUPIN_LONGEST_ENTRY", "a byte less");
}

/* A kind has a name just where the archive knows it: of any other it says so, whatever the map. */
static void kinds_named(void)
{
    unsigned kind;

    for (kind = 0; kind < 256; kind++) {
        int known = written_into(kind, LUPIN_HAS_KIND, 0) != LUPIN_UNKNOWN_KIND;

        same(kind < LUPIN_PLACES(lupin_kinds) && lupin_kinds[kind] != NULL, known, "lupin_kinds", "a name for each kind");
    }
}

static void entries_by_name(void)
{
    struct bytes begin = bytes_of(BEGIN);
    uint16_t fields[LUPIN_FIELDS];
    uint8_t entry[LUPIN_LONGEST_ENTRY];
    size_t i;

    for (i = 0; i < LUPIN_PLACES(entries); i++)
        written_and_read(i);
    same(lupin_read_entry(begin.at, begin.len, fields, LUPIN_FIELDS - 1), LUPIN_BUFFER_TOO_SHORT, "LUPIN_FIELDS", "a field less is read");
    same(lupin_write_entry(entries[0].fields, LUPIN_FIELDS - 1, entry, sizeof entry), LUPIN_BUFFER_TOO_SHORT, "LUPIN_FIELDS", "a field less is written");
    longest_entry();
    kinds_named();
}

/* A class by its name is the class of the guest that stands at B when A's opener has arrived. The desk treats 2 to 5 alike: it is the
   entry, by hand, that has the class in its seventh byte. */
static void classes(void)
{
    static const struct {
        uint8_t class;
        const char *open;
    } rows[] = {
        {LUPIN_LIGHT_ENGINE, BEGIN "3F 02 01 00 0A 01 01 02 "},
        {LUPIN_TRAIN_ENGINE, BEGIN "3F 02 01 00 0A 01 02 02 "},
        {LUPIN_MOTOR_TROLLEY, BEGIN "3F 02 01 00 0A 01 03 02 "},
        {LUPIN_OTHER_TROLLEY, BEGIN "3F 02 01 00 0A 01 04 02 "},
        {LUPIN_DIESEL_CAR, BEGIN "3F 02 01 00 0A 01 05 02 "},
    };
    size_t i;

    for (i = 0; i < LUPIN_PLACES(rows); i++) {
        struct section section = fresh_section();

        play(&section, rows[i].open);
        play(&section, "87 06 02 00 46 01 00 01");
        same(section.position[LUPIN_AT_DESK_B + LUPIN_DESK_GUEST], rows[i].class, "a class by name", rows[i].open);
    }
}

/* ---- A position: a section is stepped, and each figure must stand at its name. */

struct place {
    const char *name;
    size_t at;
    unsigned width;
};

#define PLACE(name, width) {#name, name, width}
#define PARTS 4
#define VEHICLE_FIGURES 9
#define DESK_FIGURES 11

static const struct place parts[PARTS] = {
    PLACE(LUPIN_AT_IN_FORCE, 1),
    PLACE(LUPIN_AT_REFUSED_FOR_A, 4),
    PLACE(LUPIN_AT_REFUSED_FOR_B, 4),
    PLACE(LUPIN_AT_REFUSED_OF_NONE, 4),
};

static const struct place vehicle_places[VEHICLE_FIGURES] = {
    PLACE(LUPIN_VEHICLE_KIND, 1),
    PLACE(LUPIN_VEHICLE_SENDER, 1),
    PLACE(LUPIN_VEHICLE_FORM, 2),
    PLACE(LUPIN_VEHICLE_HEADING, 1),
    PLACE(LUPIN_VEHICLE_MET, 1),
    PLACE(LUPIN_VEHICLE_CLASS, 1),
    PLACE(LUPIN_VEHICLE_ASKED, 1),
    PLACE(LUPIN_VEHICLE_GRANTED, 1),
    PLACE(LUPIN_VEHICLE_GIVEN_UP, 1),
};

static const struct place desk_places[DESK_FIGURES] = {
    PLACE(LUPIN_DESK_CLOCK, 2),
    PLACE(LUPIN_DESK_LAST, 2),
    PLACE(LUPIN_DESK_SENT, 1),
    PLACE(LUPIN_DESK_RUNNING, 1),
    PLACE(LUPIN_DESK_SINCE, 2),
    PLACE(LUPIN_DESK_OUT, 1),
    PLACE(LUPIN_DESK_GUEST, 1),
    PLACE(LUPIN_DESK_ASKED, 1),
    PLACE(LUPIN_DESK_HOLDS, 1),
    PLACE(LUPIN_DESK_OWES, 1),
    PLACE(LUPIN_DESK_WAITING, 1),
};

/* Behind the start below, with form numbers from A601 and B301 on: a reply sent ahead, then a last train. */
#define OPENED "3F 02 01 01 0A 01 05 08 "           /* OPEN at A, minute 266, clear day, diesel car, asks for 8 */
#define GUEST OPENED "87 06 02 02 46 01 02 59 "     /* RECEIVE at B, minute 582, form A601 */
#define ANSWERED GUEST "67 04 02 02 4B 07 06 "      /* RETURN at B, minute 587, asks for 7, grants 6 */
#define HELD ANSWERED "87 06 01 01 60 02 01 2D "    /* RECEIVE at A, minute 352, form B301 */
#define SENT_AHEAD HELD "6F 05 01 01 61 01 03 04 "  /* TRAIN at A, minute 353, asks for 3, grants 4 */
#define WAITS SENT_AHEAD "87 06 02 02 60 01 02 5A " /* RECEIVE at B, minute 608, form A602 */
#define SENT HELD "0F 05 01 01 61 01 "              /* TRAIN at A, minute 353 */
#define GIVEN_UP SENT "6F 09 01 01 7F 01 08 07 "    /* LAST TRAIN at A, minute 383, asks for 8, grants 7 */
#define MET                                                                           \
    "3F 02 01 01 0A 01 03 06 " /* OPEN at A, minute 266, motor trolley, asks for 6 */ \
    "3F 02 02 01 0B 01 04 05 " /* OPEN at B, minute 267, other trolley, asks for 5 */ \
    "83 07 02 01 02 59 "       /* MEET: both go on to B */

/* The figures after each, in the order of the places above: of A's desk, of B's, and of the vehicles from A on. */
static const struct standing {
    const char *hex;
    uint32_t a[DESK_FIGURES], b[DESK_FIGURES], vehicles[3][VEHICLE_FIGURES];
} standings[] = {
    {"", {0, 600}, {0, 300}, {{0}}},
    {OPENED, {266, 601, 1, 1, 266, 1, 0, 0, 0, 0, 0}, {0, 300}, {{2, 1, 601, 2, 0, 5, 8, 0, 0}}},
    {GUEST, {266, 601, 1, 1, 266, 1, 0, 0, 0, 0, 0}, {582, 300, 0, 0, 0, 0, 5, 8, 0, 0, 0}, {{0}}},
    {ANSWERED, {266, 601, 1, 1, 266, 1, 0, 0, 0, 0, 0}, {587, 301, 1, 1, 587, 0, 0, 0, 0, 6, 0}, {{4, 2, 301, 1, 0, 5, 7, 6, 0}}},
    {HELD, {352, 601, 0, 0, 0, 0, 0, 7, 6, 0, 0}, {587, 301, 1, 1, 587, 0, 0, 0, 0, 6, 0}, {{0}}},
    {SENT_AHEAD, {353, 602, 1, 1, 353, 0, 0, 0, 5, 4, 0}, {587, 301, 1, 1, 587, 0, 0, 0, 0, 6, 0}, {{5, 1, 602, 2, 0, 0, 3, 4, 0}}},
    {WAITS, {353, 602, 1, 1, 353, 0, 0, 0, 5, 4, 0}, {608, 301, 0, 0, 0, 0, 0, 3, 0, 5, 4}, {{0}}},
    {GIVEN_UP,
     {383, 603, 2, 1, 383, 0, 0, 0, 0, 7, 0},
     {587, 301, 1, 1, 587, 0, 0, 0, 0, 6, 0},
     {{9, 1, 603, 2, 0, 0, 8, 7, 4}, {5, 1, 602, 2, 0, 0, 0, 0, 0}}},
    {MET, {266, 601, 1, 1, 266, 1}, {267, 301, 1, 1, 267, 1}, {{2, 1, 601, 2, 1, 3, 6, 0, 0}, {2, 2, 301, 2, 1, 4, 5, 0, 0}}},
};

/* The figures from an offset on, each at its name. */
static void figures_at(const uint8_t *position, size_t from, const struct place *places, const uint32_t *figures, size_t count, const char *where)
{
    size_t i;

    for (i = 0; i < count; i++)
        same(number_at(position, from + places[i].at, places[i].width), figures[i], places[i].name, where);
}

/* Refused before BEGIN: 259 entries of A, 515 of B, 771 of no station. Then A has used 600 form numbers, and B 300. */
static struct section start(void)
{
    struct section section = fresh_section();
    unsigned i;

    for (i = 0; i < 259; i++)
        same(through(&section, 1, 0), LUPIN_NOT_IN_FORCE, "the start", "entries of A");
    for (i = 0; i < 515; i++)
        same(through(&section, 2, 0), LUPIN_NOT_IN_FORCE, "the start", "entries of B");
    for (i = 0; i < 771; i++)
        same(play(&section, RESUME), LUPIN_NOT_IN_FORCE, "the start", "entries of no station");
    same(section.position[LUPIN_AT_IN_FORCE], 0, "LUPIN_AT_IN_FORCE", "before BEGIN");
    play(&section, BEGIN);
    use_forms(&section, 1, 600);
    use_forms(&section, 2, 300);
    return section;
}

static void position_figures(void)
{
    static const uint32_t begun[PARTS] = {1, 259, 515, 771};
    struct section from = start();
    size_t i, number;

    for (i = 0; i < LUPIN_PLACES(standings); i++) {
        const struct standing *row = &standings[i];
        struct section section = from;

        if (*row->hex != 0)
            same(play(&section, row->hex), LUPIN_DONE, "a scene", row->hex);
        figures_at(section.position, 0, parts, begun, PARTS, row->hex);
        figures_at(section.position, LUPIN_AT_DESK_A, desk_places, row->a, DESK_FIGURES, row->hex);
        figures_at(section.position, LUPIN_AT_DESK_B, desk_places, row->b, DESK_FIGURES, row->hex);
        figures_at(section.position, LUPIN_AT_DESK_A + LUPIN_DESK, desk_places, row->b, DESK_FIGURES, "the desk behind A's");
        for (number = 0; number < LUPIN_PLACES(row->vehicles); number++)
            figures_at(section.position, LUPIN_AT_VEHICLE(number), vehicle_places, row->vehicles[number], VEHICLE_FIGURES, row->hex);
    }
}

/* Twelve from A and twelve from B fill the places: the first has A's newest, the last B's newest, and behind it the position goes on. */
static void vehicle_count(void)
{
    static const uint32_t newest_of_a[VEHICLE_FIGURES] = {3, 1, 12, 2, 0, 1}, newest_of_b[VEHICLE_FIGURES] = {3, 2, 12, 1, 0, 1};
    struct section section = fresh_section();
    unsigned i;

    play(&section, BEGIN);
    for (i = 0; i < 12; i++) {
        same(through(&section, 1, 30 * i), LUPIN_DONE, "LUPIN_VEHICLES", "twelve from A");
        same(through(&section, 2, 30 * i), LUPIN_DONE, "LUPIN_VEHICLES", "twelve from B");
    }
    figures_at(section.position, LUPIN_AT_VEHICLES, vehicle_places, newest_of_a, VEHICLE_FIGURES, "the first place");
    figures_at(section.position, LUPIN_AT_VEHICLES + LUPIN_VEHICLE * (LUPIN_VEHICLES - 1), vehicle_places, newest_of_b, VEHICLE_FIGURES, "the last place");
    same(LUPIN_AT_VEHICLE(LUPIN_VEHICLES), LUPIN_AT_IN_FORCE, "LUPIN_VEHICLES", "what stands behind the last place");
    same(LUPIN_AT_DESK_B + LUPIN_DESK, LUPIN_POSITION, "LUPIN_DESK", "what stands behind B's desk");
}

static void position_length(void)
{
    static uint8_t shelf[LUPIN_SHELF];
    struct section section = fresh_section();
    struct bytes begin = bytes_of(BEGIN);
    uint8_t fetched[LUPIN_POSITION];

    same(lupin_step(section.position, LUPIN_POSITION - 1, begin.at, begin.len, section.answer, LUPIN_ANSWER), LUPIN_NO_POSITION, "LUPIN_POSITION", "a byte less");
    section.position[LUPIN_POSITION] = 0;
    same(lupin_step(section.position, LUPIN_POSITION + 1, begin.at, begin.len, section.answer, LUPIN_ANSWER), LUPIN_NO_POSITION, "LUPIN_POSITION", "a byte more");
    same(lupin_step(section.position, LUPIN_POSITION, begin.at, begin.len, section.answer, LUPIN_ANSWER - 1), LUPIN_BUFFER_TOO_SHORT, "LUPIN_ANSWER", "a number less");
    same(lupin_step(section.position, LUPIN_POSITION, begin.at, begin.len, section.answer, LUPIN_ANSWER), LUPIN_DONE, "LUPIN_ANSWER", "just the numbers");
    same(lupin_store(shelf, LUPIN_SHELF, (const uint8_t *)"B", 1, section.position, LUPIN_POSITION), LUPIN_DONE, "LUPIN_POSITION", "stored");
    same(lupin_fetch(shelf, LUPIN_SHELF, (const uint8_t *)"B", 1, fetched, LUPIN_POSITION - 1), LUPIN_BUFFER_TOO_SHORT, "LUPIN_POSITION", "a byte less for a fetch");
    same(lupin_fetch(shelf, LUPIN_SHELF, (const uint8_t *)"B", 1, fetched, LUPIN_POSITION), LUPIN_DONE, "LUPIN_POSITION", "fetched");
}

/* ---- The answer: form number, forms and speed. */

/* The answer to the last entry, stepped from fresh. */
static void answer_to(const char *hex, uint32_t *answer)
{
    struct section section = fresh_section();

    same(play(&section, hex), LUPIN_DONE, "a departure", hex);
    memcpy(answer, section.answer, sizeof section.answer);
}

static uint32_t forms_of(const char *hex)
{
    uint32_t answer[LUPIN_ANSWER + SPARE];

    answer_to(hex, answer);
    return answer[LUPIN_ANSWER_FORMS];
}

/* The first train of A leaves on A's second form. */
static void answer_places(void)
{
    uint32_t answer[LUPIN_ANSWER + SPARE];

    answer_to(A_SENDS, answer);
    same(answer[LUPIN_ANSWER_NUMBER], 2, "LUPIN_ANSWER_NUMBER", "A's first train");
    same(answer[LUPIN_ANSWER_FORMS], LUPIN_TG_602 + LUPIN_T369_3B + LUPIN_TA_409, "LUPIN_ANSWER_FORMS", "A's first train");
    same(answer[LUPIN_ANSWER_SPEED], LUPIN_BOOKED, "LUPIN_ANSWER_SPEED", "A's first train");
}

/* Departures whose forms are compared: RETURN is B's and booked, the first train A's and booked, the follower A's and cautioned. */
#define THROUGH_FROM_A BEGIN THROUGH_AT("00 00")
#define RETURN_FROM_B B_HAS_GUEST "07 04 02 00 4B"
#define RETURN_ASKS B_HAS_GUEST "27 04 02 00 4B 02"
#define RETURN_GRANTS B_HAS_GUEST "47 04 02 00 4B 02"

static void form_name(uint32_t form, const char *name)
{
    size_t place = 0;

    while (place < LUPIN_PLACES(lupin_forms) && form != UINT32_C(1) << place)
        place++;
    same_words(place < LUPIN_PLACES(lupin_forms) ? lupin_forms[place] : NULL, name, "a form");
}

/* Each form is what two departures have in common and a third has not. */
static void forms(void)
{
    static const struct {
        uint32_t form;
        const char *name, *with, *and_with, *without;
    } rows[] = {
        {LUPIN_TB_602, "T/B 602", THROUGH_FROM_A, A_OPENS, RETURN_FROM_B},
        {LUPIN_TE_602, "T/E 602", RETURN_ASKS, A_OPENS, RETURN_FROM_B},
        {LUPIN_TF_602, "T/F 602", RETURN_GRANTS, A_OPENS, RETURN_FROM_B},
        {LUPIN_TG_602, "T/G 602", A_SENDS, FOLLOWER("01"), RETURN_FROM_B},
        {LUPIN_TH_602, "T/H 602", RETURN_FROM_B, RETURN_ASKS, A_SENDS},
        {LUPIN_T369_3B, "T/369(3b)", RETURN_FROM_B, FOLLOWER("01"), A_OPENS},
        {LUPIN_T409, "T/409", FOLLOWER("01"), FOLLOWER("03"), A_SENDS},
        {LUPIN_TA_409, "T/A 409", A_SENDS, RETURN_FROM_B, FOLLOWER("01")},
    };
    size_t i;

    for (i = 0; i < LUPIN_PLACES(rows); i++) {
        uint32_t found = forms_of(rows[i].with) & forms_of(rows[i].and_with) & ~forms_of(rows[i].without);

        same(found, rows[i].form, "a form by name", rows[i].name);
        form_name(found, rows[i].name);
        same(found & LUPIN_TC_602, 0, "LUPIN_TC_602", rows[i].name);
    }
}

/* T/C 602 is the form of every train in the listing of a double line. */
static void double_line(void)
{
    char line[256];
    unsigned trains = 0, sum;

    while (fgets(line, sizeof line, stdin) != NULL)
        if (sscanf(line, "%*u 5 %*1[AB] ok %*u %u ", &sum) == 1) {
            same(sum, LUPIN_TC_602, "LUPIN_TC_602", line);
            form_name(sum, "T/C 602");
            trains++;
        }
    same(trains > 0, 1, "LUPIN_TC_602", "the trains of a double line");
}

/* The speed on each order, by its case and figures, and in words. */
static void speeds(void)
{
    static const struct {
        const char *hex;
        uint32_t of_case, kmh, straight, elsewhere;
        const char *words;
    } rows[] = {
        {BEGIN, LUPIN_NO_SPEED, 0, 0, 0, "no speed"},
        {BEGIN "3F 02 01 00 0A 01 01 02", LUPIN_KMH, 15, 0, 15, "15 km/h"},
        {BEGIN "3F 02 01 00 0A 02 01 02", LUPIN_KMH, 10, 0, 10, "10 km/h"},
        {BEGIN "3F 02 01 00 0A 03 01 02", LUPIN_WALKING_PACE, 0, 0, 0, "walking pace"},
        {RETURN_FROM_B, LUPIN_BOOKED, 0, 0, 0, "booked speed"},
        {FOLLOWER("01"), LUPIN_TWO_FIGURES, 25 * 256 + 10, 25, 10, "25 km/h on the straight, 10 elsewhere"},
        {FOLLOWER("02"), LUPIN_TWO_FIGURES, 10 * 256 + 10, 10, 10, "10 km/h on the straight, 10 elsewhere"},
    };
    uint32_t answer[LUPIN_ANSWER + SPARE], speed;
    char words[LUPIN_SPEED_ROOM];
    size_t i;

    for (i = 0; i < LUPIN_PLACES(rows); i++) {
        answer_to(rows[i].hex, answer);
        speed = answer[LUPIN_ANSWER_SPEED];
        same(LUPIN_SPEED_CASE(speed), rows[i].of_case, "LUPIN_SPEED_CASE", rows[i].words);
        same(speed - rows[i].of_case, rows[i].kmh, "a speed less its case", rows[i].words);
        same(LUPIN_SPEED_KMH(speed), rows[i].kmh, "LUPIN_SPEED_KMH", rows[i].words);
        same(LUPIN_SPEED_STRAIGHT(speed), rows[i].straight, "LUPIN_SPEED_STRAIGHT", rows[i].words);
        same(LUPIN_SPEED_ELSEWHERE(speed), rows[i].elsewhere, "LUPIN_SPEED_ELSEWHERE", rows[i].words);
        same_words(lupin_speed_words(speed, words, sizeof words), rows[i].words, rows[i].words);
    }
    same_words(lupin_speed_words(LUPIN_TWO_FIGURES + 256 * 255 + 255, words, sizeof words), "255 km/h on the straight, 255 elsewhere", "the longest");
    same(strlen(words) + 1, LUPIN_SPEED_ROOM, "LUPIN_SPEED_ROOM", "the longest words");
}

/* An OPEN that is written with a view by name is answered with that view's speed. */
static void views(void)
{
    static const struct {
        uint16_t view;
        const char *speed;
    } rows[] = {{LUPIN_CLEAR_DAY, "15 km/h"}, {LUPIN_NIGHT_OR_OBSTRUCTED, "10 km/h"}, {LUPIN_IMPAIRED_WEATHER, "walking pace"}};
    size_t i;

    for (i = 0; i < LUPIN_PLACES(rows); i++) {
        const uint16_t open[LUPIN_FIELDS] = FIELDS(LUPIN_MAP_OPEN, LUPIN_OPEN, LUPIN_A, 10, rows[i].view, LUPIN_LIGHT_ENGINE, 2, 0, 0, 0);
        struct section section = fresh_section();
        uint8_t entry[LUPIN_LONGEST_ENTRY];
        char words[LUPIN_SPEED_ROOM];

        play(&section, BEGIN);
        lupin_write_entry(open, LUPIN_FIELDS, entry, sizeof entry);
        same(step(&section, entry, sizeof entry), LUPIN_DONE, "a view by name", rows[i].speed);
        same_words(lupin_speed_words(section.answer[LUPIN_ANSWER_SPEED], words, sizeof words), rows[i].speed, "a view's speed");
    }
}

/* An entry by a station's name alters that station's desk. */
static void stations(void)
{
    static const uint16_t names[] = {LUPIN_A, LUPIN_B};
    static const size_t clocks[] = {LUPIN_AT_DESK_A + LUPIN_DESK_CLOCK, LUPIN_AT_DESK_B + LUPIN_DESK_CLOCK};
    size_t i;

    for (i = 0; i < LUPIN_PLACES(names); i++) {
        const uint16_t leaves[LUPIN_FIELDS] = FIELDS(LUPIN_MAP_THROUGH, LUPIN_THROUGH, names[i], 772, LUPIN_CLEAR_DAY, LUPIN_LIGHT_ENGINE, 0, 0, 0, 0);
        struct section section = fresh_section();
        uint8_t entry[LUPIN_LONGEST_ENTRY];

        play(&section, BEGIN);
        lupin_write_entry(leaves, LUPIN_FIELDS, entry, sizeof entry);
        step(&section, entry, sizeof entry);
        same(number_at(section.position, clocks[i], 2), 772, "a station by name", "its own clock");
        same(number_at(section.position, clocks[1 - i], 2), 0, "a station by name", "the other's clock");
    }
}

/* ---- The shelf. */

/* Names A, B and so on, each for a position with one more refusal in it, up to the last place; then there is none. */
static void shelf_places(void)
{
    static uint8_t shelf[LUPIN_SHELF + SPARE], kept[LUPIN_SHELF_PLACES][LUPIN_POSITION];
    struct section section = fresh_section();
    uint8_t name = 'A';
    size_t i;

    for (i = 0; i < LUPIN_SHELF_PLACES; i++, name++) {
        play(&section, RESUME);
        memcpy(kept[i], section.position, LUPIN_POSITION);
        same(lupin_store(shelf, LUPIN_SHELF, &name, 1, kept[i], LUPIN_POSITION), LUPIN_DONE, "LUPIN_SHELF_PLACES", "a name more");
    }
    refused(lupin_store(shelf, LUPIN_SHELF, &name, 1, kept[0], LUPIN_POSITION), LUPIN_SHELF_FULL, "the shelf is full", "a name more than places");
    for (i = 0; i < LUPIN_SHELF_PLACES; i++) {
        same(shelf[i * LUPIN_SHELF_PLACE], 'A' + i, "LUPIN_SHELF_PLACE", "a name");
        same(memcmp(shelf + i * LUPIN_SHELF_PLACE + LUPIN_LONGEST_NAME, kept[i], LUPIN_POSITION), 0, "LUPIN_LONGEST_NAME", "a position behind its name");
    }
    same(LUPIN_SHELF_PLACES * LUPIN_SHELF_PLACE, LUPIN_SHELF, "LUPIN_SHELF", "its places");
}

static void shelf_lengths(void)
{
    static uint8_t shelf[LUPIN_SHELF + SPARE];
    static const uint8_t position[LUPIN_POSITION];
    uint8_t name[LUPIN_LONGEST_NAME + 1];

    memset(name, 'N', sizeof name);
    refused(lupin_store(shelf, LUPIN_SHELF - 1, name, 1, position, LUPIN_POSITION), LUPIN_ILL_MADE, "the shelf is none", "a shelf a byte too short");
    refused(lupin_fetch(shelf, LUPIN_SHELF + 1, name, 1, NULL, 0), LUPIN_ILL_MADE, "the shelf is none", "a shelf a byte too long");
    refused(lupin_store(shelf, LUPIN_SHELF, name, LUPIN_LONGEST_NAME + 1, position, LUPIN_POSITION), LUPIN_UNKNOWN_NAME, "there is no such name", "a letter too many");
    same(lupin_store(shelf, LUPIN_SHELF, name, LUPIN_LONGEST_NAME, position, LUPIN_POSITION), LUPIN_DONE, "LUPIN_LONGEST_NAME", "the longest name");
}

/* ---- Refusals: each is provoked, and answered by its name and its words. */

/* The deeds that a step refuses, the last entry of each, as document 01 has them under "Reasons". */
static const struct {
    uint32_t name;
    const char *words, *hex;
} deeds[] = {
    {LUPIN_ENDS_INSIDE, "the bytes end inside an entry", ""},
    /* An OPEN without what it asks for. */
    {LUPIN_ENDS_INSIDE, "the bytes end inside an entry", BEGIN "3F 02 01 00 0A 01 01"},
    /* Kind 10. */
    {LUPIN_UNKNOWN_KIND, "there is no such kind", BEGIN "01 0A"},
    /* RESUME at A. */
    {LUPIN_WRONG_MAP, "the map is not of the kind", BEGIN "03 08 01"},
    /* OPEN that asks for 9. */
    {LUPIN_OUT_OF_RANGE, "a field lies outside its range", BEGIN "3F 02 01 00 0A 01 01 09"},
    {LUPIN_ALREADY_IN_FORCE, "the working is in force already", BEGIN BEGIN},
    {LUPIN_NOT_IN_FORCE, "the working is not in force", RESUME},
    {LUPIN_VEHICLE_PRESENT, "a vehicle is in the section", A_OPENS RESUME},
    {LUPIN_BEFORE_CLOCK, "the time is before the last accepted entry here", BEGIN THROUGH_AT("00 64") THROUGH_AT("00 63")},
    {LUPIN_OPENER_AWAY, "the opener from here is away", A_OPENS THROUGH_AT("00 64")},
    {LUPIN_HOLDS_LINE_CLEAR, "line clears are held here", A_HOLDS THROUGH_AT("00 64")},
    /* THROUGH at B, minute 105. */
    {LUPIN_OWES_LINE_CLEAR, "line clears are owed here", B_ANSWERS "1F 03 02 00 69 01 01"},
    {LUPIN_GUEST_HERE, "the other station's opener stands here", B_HAS_GUEST "1F 03 02 00 69 01 01"},
    /* RETURN at B. */
    {LUPIN_NO_GUEST, "no opener of the other station stands here", BEGIN "07 04 02 00 4B"},
    /* TRAIN at A. */
    {LUPIN_NO_LINE_CLEAR, "no line clear is held here", BEGIN "0F 05 01 00 60 01"},
    /* RETURN that grants 3, where 2 were asked for; TRAIN that grants 1, where 1 is owed. */
    {LUPIN_GRANT_NOT_ALLOWED, "more is granted than was asked, or while line clears are owed here", B_HAS_GUEST "47 04 02 00 4B 03"},
    {LUPIN_GRANT_NOT_ALLOWED, "more is granted than was asked, or while line clears are owed here", A_GRANTS "4F 05 01 00 7E 01 01"},
    {LUPIN_INTERVAL_RUNNING, "the last departure was under 30 minutes ago", BEGIN THROUGH_AT("00 00") THROUGH_AT("00 1D")},
    /* RECEIVE at B of A2, where A1 is the nearest. */
    {LUPIN_NOT_NEAREST, "the vehicle named is not the nearest", A_OPENS "87 06 02 00 46 01 00 02"},
    /* RECEIVE at A of A's own train. */
    {LUPIN_MAY_NOT_ENTER, "the vehicle may not enter here", A_SENDS "87 06 01 00 60 01 00 02"},
    /* MEET of A1, which is alone. */
    {LUPIN_MAY_NOT_MEET, "the vehicle named has none that it may meet", A_OPENS "83 07 02 01 00 01"},
};

static void refused_steps(void)
{
    size_t i;

    for (i = 0; i < LUPIN_PLACES(deeds); i++) {
        struct section alone = fresh_section();
        struct bytes log = bytes_of(deeds[i].hex);

        refused(play(&alone, deeds[i].hex), deeds[i].name, deeds[i].words, deeds[i].hex);
        if (log.len > 0)
            same(lupin_answer(log.at, log.len), deeds[i].name, "lupin_answer", deeds[i].hex);
    }
}

/* The thirteenth departure with no receipt, and the one behind form number 9,999. */
static void refused_for_good(void)
{
    struct section twelve = fresh_section(), used = fresh_section();
    unsigned i;

    play(&twelve, BEGIN);
    for (i = 0; i < 12; i++)
        same(through(&twelve, 1, 30 * i), LUPIN_DONE, "LUPIN_TWELVE_SENT", "twelve");
    refused(through(&twelve, 1, 360), LUPIN_TWELVE_SENT, "twelve departures are counted here", "a thirteenth");
    play(&used, BEGIN);
    use_forms(&used, 1, 9999);
    refused(through(&used, 1, 0), LUPIN_FORMS_USED, "the last form number is used", "a departure behind form number 9,999");
}

/* A listing whose numbers stand for no well-made section, with 25 vehicles in the first of them, refuses its entries with 5. */
static void refused_listing(void)
{
    struct bytes log = bytes_of(BEGIN);
    uint64_t state[LUPIN_STATE_WORDS];
    char out[LUPIN_LONGEST_LINE + 1] = "";
    unsigned refusal = 0;

    lupin_begin(log.at, log.len, state, LUPIN_STATE_WORDS);
    state[0] = 25;
    lupin_fill(state, LUPIN_STATE_WORDS, log.at, log.len, (uint8_t *)out, LUPIN_LONGEST_LINE);
    sscanf(out, "1 1 - no %u", &refusal);
    same(refusal, LUPIN_ILL_MADE, "LUPIN_ILL_MADE", "a listing of an ill-made section");
}

/* What the other functions refuse. */
static void refused_calls(void)
{
    static uint8_t shelf[LUPIN_SHELF];
    uint8_t position[LUPIN_POSITION] = {0}, entry[LUPIN_LONGEST_ENTRY];
    const uint8_t lower[] = {'a'}, upper[] = {'A'};

    refused(lupin_fetch(shelf, LUPIN_SHELF, upper, 1, position, LUPIN_POSITION), LUPIN_UNKNOWN_NAME, "there is no such name", "a name not on the shelf");
    refused(lupin_store(shelf, LUPIN_SHELF, lower, 1, position, LUPIN_POSITION), LUPIN_UNKNOWN_NAME, "there is no such name", "a small letter");
    refused(lupin_write_entry(entries[0].fields, LUPIN_FIELDS, entry, 1), LUPIN_BUFFER_TOO_SHORT, "too few places are lent", "a byte for BEGIN");
    position[LUPIN_AT_IN_FORCE] = 2;
    refused(lupin_store(shelf, LUPIN_SHELF, upper, 1, position, LUPIN_POSITION), LUPIN_NO_POSITION, "the bytes are no position", "in force neither 0 nor 1");
    same_words(lupin_words(LUPIN_DONE), "there is no such refusal", "no refusal");
    same_words(lupin_words(27), "there is no such refusal", "27");
}

/* A macro's argument may be any expression, and what it gives may stand in one. */
static void in_expressions(void)
{
    const uint32_t speed = LUPIN_TWO_FIGURES + 256 * 25, large = 100000000;
    const size_t one = 1;

    same(LUPIN_LISTING_ROOM(one | 2) - LUPIN_LISTING_ROOM(one), 2 * (LUPIN_LISTING_ROOM(1) - LUPIN_LISTING_ROOM(0)), "LUPIN_LISTING_ROOM", "in an expression");
    same(2 * LUPIN_AT_VEHICLE(one | 2), 6 * LUPIN_AT_VEHICLE(1), "LUPIN_AT_VEHICLE", "in an expression");
    same(large / LUPIN_SPEED_CASE(speed | 10), large / LUPIN_TWO_FIGURES, "LUPIN_SPEED_CASE", "in an expression");
    same(large / LUPIN_SPEED_KMH(speed | 10), large / (256 * 25 + 10), "LUPIN_SPEED_KMH", "in an expression");
    same(large / LUPIN_SPEED_STRAIGHT(speed | 10), large / 25, "LUPIN_SPEED_STRAIGHT", "in an expression");
    same(large / LUPIN_SPEED_ELSEWHERE(speed | 10), large / 10, "LUPIN_SPEED_ELSEWHERE", "in an expression");
}

int main(void)
{
    listing_lengths();
    figure_places();
    entries_by_name();
    classes();
    position_figures();
    vehicle_count();
    position_length();
    answer_places();
    forms();
    double_line();
    speeds();
    views();
    stations();
    shelf_places();
    shelf_lengths();
    refused_steps();
    refused_for_good();
    refused_listing();
    refused_calls();
    in_expressions();
    return failures == 0 ? 0 : 1;
}
