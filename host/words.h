/* Words for a host in C that shows what the core says: a refusal, a kind and a form by their numbers, and the speed on an order. */
#ifndef LUPINSHIFT_WORDS_H
#define LUPINSHIFT_WORDS_H

#include <stdio.h>

#include "lupinshift.h"

/* How many places a table has. */
#define LUPIN_PLACES(table) (sizeof(table) / sizeof *(table))

/* A refusal in words. "Here" is the station of the entry. */
static inline const char *lupin_words(uint32_t refusal)
{
    static const char *const words[] = {
        [LUPIN_ENDS_INSIDE] = "the bytes end inside an entry",
        [LUPIN_UNKNOWN_KIND] = "there is no such kind",
        [LUPIN_WRONG_MAP] = "the map is not of the kind",
        [LUPIN_OUT_OF_RANGE] = "a field lies outside its range",
        [LUPIN_ILL_MADE] = "the shelf is none",
        [LUPIN_ALREADY_IN_FORCE] = "the working is in force already",
        [LUPIN_NOT_IN_FORCE] = "the working is not in force",
        [LUPIN_VEHICLE_PRESENT] = "a vehicle is in the section",
        [LUPIN_BEFORE_CLOCK] = "the time is before the last accepted entry here",
        [LUPIN_OPENER_AWAY] = "the opener from here is away",
        [LUPIN_HOLDS_LINE_CLEAR] = "line clears are held here",
        [LUPIN_OWES_LINE_CLEAR] = "line clears are owed here",
        [LUPIN_GUEST_HERE] = "the other station's opener stands here",
        [LUPIN_NO_GUEST] = "no opener of the other station stands here",
        [LUPIN_NO_LINE_CLEAR] = "no line clear is held here",
        [LUPIN_GRANT_NOT_ALLOWED] = "more is granted than was asked, or while line clears are owed here",
        [LUPIN_TWELVE_SENT] = "twelve departures are counted here",
        [LUPIN_FORMS_USED] = "the last form number is used",
        [LUPIN_INTERVAL_RUNNING] = "the last departure was under 30 minutes ago",
        [LUPIN_NOT_NEAREST] = "the vehicle named is not the nearest",
        [LUPIN_MAY_NOT_ENTER] = "the vehicle may not enter here",
        [LUPIN_MAY_NOT_MEET] = "the vehicle named has none that it may meet",
        [LUPIN_BUFFER_TOO_SHORT] = "too few places are lent",
        [LUPIN_UNKNOWN_NAME] = "there is no such name",
        [LUPIN_SHELF_FULL] = "the shelf is full",
        [LUPIN_NO_POSITION] = "the bytes are no position",
    };

    return refusal < LUPIN_PLACES(words) && words[refusal] != NULL ? words[refusal] : "there is no such refusal";
}

/* The name of each kind, at the place of its number; there is none at 0. */
static const char *const lupin_kinds[] = {
    [LUPIN_BEGIN] = "BEGIN",
    [LUPIN_OPEN] = "OPEN",
    [LUPIN_THROUGH] = "THROUGH",
    [LUPIN_RETURN] = "RETURN",
    [LUPIN_TRAIN] = "TRAIN",
    [LUPIN_RECEIVE] = "RECEIVE",
    [LUPIN_MEET] = "MEET",
    [LUPIN_RESUME] = "RESUME",
    [LUPIN_LAST_TRAIN] = "LAST TRAIN",
};

/* The names of the forms; the bit with the same place stands for each in a sum of forms. */
static const char *const lupin_forms[] = {"T/B 602", "T/E 602", "T/F 602", "T/G 602", "T/H 602", "T/369(3b)", "T/409", "T/A 409", "T/C 602"};

/* The room that the words for any speed take, with the zero behind them, in bytes. */
#define LUPIN_SPEED_ROOM 40

/* The speed of an answer in words: puts them into text, as far as its room goes, and gives text back. */
static inline const char *lupin_speed_words(uint32_t speed, char *text, size_t room)
{
    switch (LUPIN_SPEED_CASE(speed)) {
    case LUPIN_WALKING_PACE:
        snprintf(text, room, "walking pace");
        break;
    case LUPIN_KMH:
        snprintf(text, room, "%u km/h", (unsigned)LUPIN_SPEED_KMH(speed));
        break;
    case LUPIN_BOOKED:
        snprintf(text, room, "booked speed");
        break;
    case LUPIN_TWO_FIGURES:
        snprintf(text, room, "%u km/h on the straight, %u elsewhere", (unsigned)LUPIN_SPEED_STRAIGHT(speed), (unsigned)LUPIN_SPEED_ELSEWHERE(speed));
        break;
    default:
        snprintf(text, room, "no speed");
    }
    return text;
}

#endif
