/* Plays a class, as an instructor's program would: it keeps the section in its own bytes, steps it entry by entry, stores it under a name
   and returns to it. Prints for each entry what to hand over, or why it is refused. */
#include <stdio.h>
#include <stdlib.h>
#include <string.h>

#include "lupinshift.h"

#define COUNT(lesson) (sizeof(lesson) / sizeof *(lesson))

/* Static memory is zero, so the section is fresh and the shelf empty. */
static uint8_t section[LUPIN_POSITION];
static uint8_t shelf[LUPIN_SHELF];

/* In the order of enum lupin_field: map, kind, station, time, view, class, asked, granted, sender, number. */
static const uint16_t opening[][LUPIN_FIELDS] = {
    {LUPIN_MAP_BEGIN, LUPIN_BEGIN},
    {LUPIN_MAP_OPEN, LUPIN_OPEN, LUPIN_A, 10, LUPIN_CLEAR_DAY, LUPIN_LIGHT_ENGINE, 3},
    {LUPIN_MAP_RECEIVE, LUPIN_RECEIVE, LUPIN_B, 70, 0, 0, 0, 0, LUPIN_A, 1},
    {LUPIN_MAP_RETURN | LUPIN_HAS_ASKED | LUPIN_HAS_GRANTED, LUPIN_RETURN, LUPIN_B, 75, 0, 0, 2, 3},
    {LUPIN_MAP_RECEIVE, LUPIN_RECEIVE, LUPIN_A, 95, 0, 0, 0, 0, LUPIN_B, 1},
    {LUPIN_MAP_TRAIN, LUPIN_TRAIN, LUPIN_A, 96, LUPIN_CLEAR_DAY},
};

/* A second train follows, first too soon. */
static const uint16_t follower[][LUPIN_FIELDS] = {
    {LUPIN_MAP_TRAIN, LUPIN_TRAIN, LUPIN_A, 125, LUPIN_CLEAR_DAY},
    {LUPIN_MAP_TRAIN, LUPIN_TRAIN, LUPIN_A, 126, LUPIN_CLEAR_DAY},
};

/* The second train is the last and takes the reply along; then there is no line clear for a third. */
static const uint16_t last[][LUPIN_FIELDS] = {
    {LUPIN_MAP_LAST_TRAIN | LUPIN_HAS_GRANTED, LUPIN_LAST_TRAIN, LUPIN_A, 126, LUPIN_CLEAR_DAY, 0, 0, 2},
    {LUPIN_MAP_TRAIN, LUPIN_TRAIN, LUPIN_A, 156, LUPIN_CLEAR_DAY},
};

static const char *const refusals[] = {
    [LUPIN_ENDS_INSIDE] = "the bytes end inside an entry",
    [LUPIN_UNKNOWN_KIND] = "there is no such kind",
    [LUPIN_WRONG_MAP] = "the map is not of the kind",
    [LUPIN_OUT_OF_RANGE] = "a field lies outside its range",
    [LUPIN_ILL_MADE] = "the shelf is none",
    [LUPIN_ALREADY_IN_FORCE] = "the working is in force already",
    [LUPIN_NOT_IN_FORCE] = "the working is not in force",
    [LUPIN_VEHICLE_PRESENT] = "a vehicle is in the section",
    [LUPIN_BEFORE_CLOCK] = "the time is before the last accepted entry here",
    [LUPIN_OPENER_AWAY] = "the opener from here is away",
    [LUPIN_HOLDS_LINE_CLEAR] = "line clears are held here",
    [LUPIN_OWES_LINE_CLEAR] = "line clears are owed here",
    [LUPIN_GUEST_HERE] = "the other station's opener stands here",
    [LUPIN_NO_GUEST] = "no opener of the other station stands here",
    [LUPIN_NO_LINE_CLEAR] = "no line clear is held here",
    [LUPIN_GRANT_NOT_ALLOWED] = "more is granted than was asked, or while line clears are owed here",
    [LUPIN_TWELVE_SENT] = "twelve departures are counted here",
    [LUPIN_FORMS_USED] = "the last form number is used",
    [LUPIN_INTERVAL_RUNNING] = "the last departure was under 30 minutes ago",
    [LUPIN_NOT_NEAREST] = "the vehicle named is not the nearest",
    [LUPIN_MAY_NOT_ENTER] = "the vehicle may not enter here",
    [LUPIN_MAY_NOT_MEET] = "the vehicle named has none that it may meet",
    [LUPIN_BUFFER_TOO_SHORT] = "too few places are lent",
    [LUPIN_UNKNOWN_NAME] = "there is no such name",
    [LUPIN_SHELF_FULL] = "the shelf is full",
    [LUPIN_NO_POSITION] = "the bytes are no position",
};

/* Ends the class where a call is refused that should not be. */
static void must(uint32_t refusal, const char *what)
{
    if (refusal != LUPIN_DONE) {
        fprintf(stderr, "class: %s is refused, %u: %s\n", what, (unsigned)refusal, refusals[refusal]);
        exit(1);
    }
}

static char letter(uint16_t station)
{
    return station == LUPIN_A ? 'A' : 'B';
}

static void print_entry(const uint16_t *fields)
{
    static const char *const kinds[] = {
        [LUPIN_BEGIN] = "BEGIN",   [LUPIN_OPEN] = "OPEN",     [LUPIN_THROUGH] = "THROUGH",
        [LUPIN_RETURN] = "RETURN", [LUPIN_TRAIN] = "TRAIN",   [LUPIN_RECEIVE] = "RECEIVE",
        [LUPIN_MEET] = "MEET",     [LUPIN_RESUME] = "RESUME", [LUPIN_LAST_TRAIN] = "LAST TRAIN",
    };
    uint16_t map = fields[LUPIN_FIELD_MAP];

    fputs(kinds[fields[LUPIN_FIELD_KIND]], stdout);
    if (map & LUPIN_HAS_STATION)
        printf(" at %c", letter(fields[LUPIN_FIELD_STATION]));
    if (map & LUPIN_HAS_TIME)
        printf(", minute %u", (unsigned)fields[LUPIN_FIELD_TIME]);
    if (map & LUPIN_HAS_ASKED)
        printf(", asks for %u", (unsigned)fields[LUPIN_FIELD_ASKED]);
    if (map & LUPIN_HAS_GRANTED)
        printf(", grants %u", (unsigned)fields[LUPIN_FIELD_GRANTED]);
    if (map & LUPIN_HAS_FORM)
        printf(", form %c%u", letter(fields[LUPIN_FIELD_SENDER]), (unsigned)fields[LUPIN_FIELD_NUMBER]);
}

static void print_speed(uint32_t speed)
{
    switch (LUPIN_SPEED_CASE(speed)) {
    case LUPIN_WALKING_PACE:
        fputs("walking pace", stdout);
        break;
    case LUPIN_KMH:
        printf("%u km/h", (unsigned)LUPIN_SPEED_KMH(speed));
        break;
    case LUPIN_BOOKED:
        fputs("booked speed", stdout);
        break;
    case LUPIN_TWO_FIGURES:
        printf("%u km/h on the straight, %u elsewhere", (unsigned)LUPIN_SPEED_STRAIGHT(speed), (unsigned)LUPIN_SPEED_ELSEWHERE(speed));
        break;
    default:
        fputs("no speed", stdout);
    }
}

/* What the master hands over. An entry that is no departure has no forms. */
static void print_order(uint16_t station, const uint32_t *answer)
{
    static const char *const forms[] = {"T/B 602", "T/E 602", "T/F 602", "T/G 602", "T/H 602", "T/369(3b)", "T/409", "T/A 409", "T/C 602"};
    size_t form;

    if (answer[LUPIN_ANSWER_FORMS] == 0) {
        puts(": accepted");
        return;
    }
    printf(": form %c%u with", letter(station), (unsigned)answer[LUPIN_ANSWER_NUMBER]);
    for (form = 0; form < COUNT(forms); form++)
        if (answer[LUPIN_ANSWER_FORMS] >> form & 1)
            printf(" %s,", forms[form]);
    putchar(' ');
    print_speed(answer[LUPIN_ANSWER_SPEED]);
    putchar('\n');
}

/* Builds the entry from its fields and steps the section with it. */
static void enter(const uint16_t *fields)
{
    uint8_t entry[LUPIN_LONGEST_ENTRY];
    uint32_t answer[LUPIN_ANSWER], refusal;

    must(lupin_write_entry(fields, LUPIN_FIELDS, entry, sizeof entry), "writing an entry");
    refusal = lupin_step(section, sizeof section, entry, lupin_entry_length(entry[0]), answer, LUPIN_ANSWER);
    print_entry(fields);
    if (refusal == LUPIN_DONE) {
        print_order(fields[LUPIN_FIELD_STATION], answer);
    } else if (refusal < LUPIN_BUFFER_TOO_SHORT) {
        printf(": refused, %u: %s\n", (unsigned)refusal, refusals[refusal]);
    } else {
        must(refusal, "a step");
    }
}

static unsigned refused_for_a(void)
{
    const uint8_t *count = section + LUPIN_AT_REFUSED_FOR_A;

    return (unsigned)count[0] << 24 | (unsigned)count[1] << 16 | (unsigned)count[2] << 8 | count[3];
}

/* Reads off the bytes where the class stands. */
static void print_standing(void)
{
    const uint8_t *a = section + LUPIN_AT_DESK_A, *b = section + LUPIN_AT_DESK_B;
    unsigned present = 0;

    while (present < LUPIN_VEHICLES && section[LUPIN_AT_VEHICLE(present) + LUPIN_VEHICLE_KIND] != 0)
        present++;
    printf("    in the section %u; A holds %u, owes %u; B holds %u, owes %u; refused for A %u\n", present, (unsigned)a[LUPIN_DESK_HOLDS],
           (unsigned)a[LUPIN_DESK_OWES], (unsigned)b[LUPIN_DESK_HOLDS], (unsigned)b[LUPIN_DESK_OWES], refused_for_a());
}

static void play(const uint16_t lesson[][LUPIN_FIELDS], size_t count)
{
    size_t next;

    for (next = 0; next < count; next++)
        enter(lesson[next]);
    print_standing();
}

static void store(const char *name)
{
    must(lupin_store(shelf, sizeof shelf, (const uint8_t *)name, strlen(name), section, sizeof section), "a store");
    printf("stored as %s\n", name);
}

static void fetch(const char *name)
{
    must(lupin_fetch(shelf, sizeof shelf, (const uint8_t *)name, strlen(name), section, sizeof section), "a fetch");
    printf("back at %s\n", name);
    print_standing();
}

int main(void)
{
    uint8_t stood[LUPIN_POSITION];

    play(opening, COUNT(opening));
    store("FIRSTAWAY");
    memcpy(stood, section, sizeof stood);
    play(follower, COUNT(follower));
    fetch("FIRSTAWAY");
    if (memcmp(stood, section, sizeof stood) != 0) {
        fputs("class: the class does not stand where it stood\n", stderr);
        return 1;
    }
    play(last, COUNT(last));
    if (fflush(stdout) != 0) {
        perror("class: standard output");
        return 1;
    }
    return 0;
}
