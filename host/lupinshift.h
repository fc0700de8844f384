/* The register desk core for a host in C: link target/staticlib/liblupinshift.a, which host/archive builds.
   All of it is of a single line.

   A slice is a pointer to its first place and how many places it has. Where it has none the pointer is not looked at and may be NULL.
   Slices that a function alters overlap no other slice of the call. No call keeps a pointer, allocates, or has a state of its own.

   There are two sorts of functions. Those on a log answer how many places they have put, and 0 where they are refused; lupin_answer and
   lupin_taken are lent no buffer and never refused. Those on a position, a shelf or an entry answer 0 where all is well, and where it is
   not the number of the refusal (enum lupin_refusal); lupin_entry_length has none.

   One rule holds for every buffer: where a call is refused no place of any buffer is altered; where it is not, what is put stands at the
   front, and the places behind it keep their values. The one exception: an entry that lupin_step refuses is counted in the position. */
#ifndef LUPINSHIFT_H
#define LUPINSHIFT_H

#include <stddef.h>
#include <stdint.h>

#ifdef __cplusplus
extern "C" {
#endif

/* The version of the core, as CHANGELOG.md has it. */
#define LUPIN_VERSION "1.8.5"

/* The longest log that is listed, in bytes; of a longer one the listing is `long`. */
#define LUPIN_LONGEST_LOG 65536

/* The room that any one line of a listing takes, in bytes. */
#define LUPIN_LONGEST_LINE 214

/* The room, in bytes, that lupin_list asks for a log of n bytes: no listing is longer. */
#define LUPIN_LISTING_ROOM(n) ((size_t)(n) > LUPIN_LONGEST_LOG ? (size_t)428 : 25 * (size_t)(n) + 428)

/* How many numbers say where a listing in blocks stands. */
#define LUPIN_STATE_WORDS 95

/* How many figures the last line of a listing has. */
#define LUPIN_FIGURES 10

/* The place of each of them. A refused entry is counted once: for the station that made it, or, where the bytes are no entry
   (refusals 1 to 4) or the entry is a BEGIN, a RESUME or a MEET, as of no station. */
enum lupin_figure {
    LUPIN_ENTRIES,
    LUPIN_ACCEPTED,
    LUPIN_REFUSED_FOR_A,
    LUPIN_REFUSED_FOR_B,
    LUPIN_REFUSED_OF_NONE,
    LUPIN_PRESENT,
    LUPIN_A_HOLDS,
    LUPIN_A_OWES,
    LUPIN_B_HOLDS,
    LUPIN_B_OWES
};

/* Puts the listing of the log at the front of out and answers its length, which is never 0.
   Refused where out_len is below LUPIN_LISTING_ROOM(log_len). */
size_t lupin_list(const uint8_t *log, size_t log_len, uint8_t *out, size_t out_len);

/* The listing in blocks, for a host with a small buffer: lupin_begin once, then lupin_fill until it answers 0. The same log is given
   to every call. The texts put, one after another, are the listing, whatever the lengths of the buffers.

   lupin_begin puts the start of the listing into the first LUPIN_STATE_WORDS numbers of state and answers LUPIN_STATE_WORDS.
   Refused where state has fewer. The numbers say where the listing stands and are not for reading, though the log and the blocks taken
   determine each of them. They may be copied, and a copy goes on from there. */
size_t lupin_begin(const uint8_t *log, size_t log_len, uint64_t *state, size_t state_len);

/* Puts the next lines of the listing, as many as there is room for, at the front of out, answers how many bytes they are, and leaves
   in state where the listing goes on. A line is put as long as LUPIN_LONGEST_LINE bytes are left, so an out_len below that puts
   none: the answer is then 0 and the listing stands where it stood. With a longer out the answer is 0 only where the listing has ended.
   Refused where state has fewer than LUPIN_STATE_WORDS numbers. Any numbers are a state; those that lupin_begin or lupin_fill
   did not leave may stand for a section that is not well made, and its entries are then listed with refusal 5. */
size_t lupin_fill(uint64_t *state, size_t state_len, const uint8_t *log, size_t log_len, uint8_t *out, size_t out_len);

/* Puts the last line alone of the log's listing at the front of out and answers its length, which is never 0.
   Refused where out_len is below LUPIN_LONGEST_LINE. */
size_t lupin_end(const uint8_t *log, size_t log_len, uint8_t *out, size_t out_len);

/* Puts the ten figures of the log's last line at the front of figures and answers LUPIN_FIGURES: entries, accepted, refused for A,
   refused for B, refused of no station, vehicles present, A holds, A owes, B holds, B owes (enum lupin_figure). Line clears that wait
   or are given up are in none of them. Refused where figures has fewer places, and where the log is longer than LUPIN_LONGEST_LOG: its last line,
   `long`, has no figures. */
size_t lupin_figures(const uint8_t *log, size_t log_len, uint64_t *figures, size_t figures_len);

/* The number of the refusal that answers the last entry of the log, and 0 where that is accepted or the log has no entry.
   A log of any length is run. */
uint32_t lupin_answer(const uint8_t *log, size_t log_len);

/* How many entries of the log are taken: whole, of a known kind, with the right map and the fields in range. After refusals 2, 3 and 4
   reading goes on behind the entry, after 1 it stops. A log of any length is read, and nothing is stepped. */
size_t lupin_taken(const uint8_t *log, size_t log_len);

/* ---- A section kept between entries: positions, a shelf of them, and the step in them. docs/FORMAT.md has the layouts. */

/* A refusal's number. A call gives the first in its own order that holds. "Here" is the station of the entry. */
enum lupin_refusal {
    LUPIN_DONE = 0,               /* no refusal */
    LUPIN_ENDS_INSIDE = 1,        /* the bytes end inside an entry, or there are none */
    LUPIN_UNKNOWN_KIND = 2,       /* there is no kind, or none of 1 to 9 */
    LUPIN_WRONG_MAP = 3,          /* the map is not of the kind */
    LUPIN_OUT_OF_RANGE = 4,       /* a field lies outside its range */
    LUPIN_ILL_MADE = 5,           /* the shelf is none; in a listing, the section is not well made */
    LUPIN_ALREADY_IN_FORCE = 6,   /* BEGIN while the working is in force */
    LUPIN_NOT_IN_FORCE = 7,       /* any other entry while it is not */
    LUPIN_VEHICLE_PRESENT = 8,    /* RESUME while a vehicle is in the section */
    LUPIN_BEFORE_CLOCK = 9,       /* the time is before this station's last accepted entry */
    LUPIN_OPENER_AWAY = 10,       /* OPEN, THROUGH: this station's own opener is away */
    LUPIN_HOLDS_LINE_CLEAR = 11,  /* OPEN, THROUGH: line clears are held here */
    LUPIN_OWES_LINE_CLEAR = 12,   /* OPEN, THROUGH: line clears given here are still owed */
    LUPIN_GUEST_HERE = 13,        /* OPEN, THROUGH: the other station's opener stands here */
    LUPIN_NO_GUEST = 14,          /* RETURN: no opener of the other station stands here */
    LUPIN_NO_LINE_CLEAR = 15,     /* TRAIN, LAST TRAIN: no line clear is held here */
    LUPIN_GRANT_NOT_ALLOWED = 16, /* more is granted than was asked; or a TRAIN or LAST TRAIN grants while line clears are owed here */
    LUPIN_TWELVE_SENT = 17,       /* twelve departures are counted here */
    LUPIN_FORMS_USED = 18,        /* form number 9,999 is used */
    LUPIN_INTERVAL_RUNNING = 19,  /* the last departure was under 30 minutes ago */
    LUPIN_NOT_NEAREST = 20,       /* RECEIVE: no vehicle is in the section, or the nearest is not the one named */
    LUPIN_MAY_NOT_ENTER = 21,     /* RECEIVE: the vehicle may not enter here */
    LUPIN_MAY_NOT_MEET = 22,      /* MEET: the vehicle named is not there, or there is none that it may meet */
    LUPIN_BUFFER_TOO_SHORT = 23,  /* fewer places are lent than are put or read */
    LUPIN_UNKNOWN_NAME = 24,      /* the name is not 1 to 12 capital letters, or on a fetch not on the shelf */
    LUPIN_SHELF_FULL = 25,        /* the name would be the seventeenth */
    LUPIN_NO_POSITION = 26        /* the bytes are not the position of a well-made section */
};

/* A position is the section in LUPIN_POSITION bytes; numbers of two and four bytes are high byte first. The fresh section is all zeros.
   A well-made section has one position, and no other section has any. */
#define LUPIN_POSITION 281

/* Where each part of a position lies. */
enum lupin_at {
    LUPIN_AT_VEHICLES = 0,          /* the places of the vehicles, in order from A to B */
    LUPIN_AT_IN_FORCE = 240,        /* 1 in force, else 0 */
    LUPIN_AT_REFUSED_FOR_A = 241,   /* entries refused for A, four bytes */
    LUPIN_AT_REFUSED_FOR_B = 245,   /* the same of B */
    LUPIN_AT_REFUSED_OF_NONE = 249, /* the same of no station */
    LUPIN_AT_DESK_A = 253,
    LUPIN_AT_DESK_B = 267
};

/* How many places for vehicles there are, the bytes of one, and where the one with a number lies, counted from A and from 0. The
   vehicles present are the places before the first whose kind is 0; from there on all places are zero. */
#define LUPIN_VEHICLES 24
#define LUPIN_VEHICLE 10
#define LUPIN_AT_VEHICLE(number) (LUPIN_AT_VEHICLES + LUPIN_VEHICLE * (number))

/* Where each figure lies in the place of a vehicle. One that its kind has not is 0. */
enum lupin_vehicle {
    LUPIN_VEHICLE_KIND = 0,   /* LUPIN_OPEN, LUPIN_THROUGH, LUPIN_RETURN, LUPIN_TRAIN or LUPIN_LAST_TRAIN; 0 in an unused place */
    LUPIN_VEHICLE_SENDER = 1, /* the station that it left */
    LUPIN_VEHICLE_FORM = 2,   /* its form number, two bytes */
    LUPIN_VEHICLE_HEADING = 4,
    LUPIN_VEHICLE_MET = 5, /* 1 or 0 */
    LUPIN_VEHICLE_CLASS = 6,
    LUPIN_VEHICLE_ASKED = 7,
    LUPIN_VEHICLE_GRANTED = 8,
    LUPIN_VEHICLE_GIVEN_UP = 9 /* line clears given up with a LAST TRAIN */
};

/* The bytes of a desk, and where each figure lies in it. */
#define LUPIN_DESK 14
enum lupin_desk {
    LUPIN_DESK_CLOCK = 0,   /* the minute of its last accepted entry, two bytes */
    LUPIN_DESK_LAST = 2,    /* its last form number, two bytes */
    LUPIN_DESK_SENT = 4,    /* departures counted */
    LUPIN_DESK_RUNNING = 5, /* 1 where the interval runs, else 0 */
    LUPIN_DESK_SINCE = 6,   /* and the minute since which it runs, two bytes, else 0 */
    LUPIN_DESK_OUT = 8,     /* 1 where its own opener is away, else 0 */
    LUPIN_DESK_GUEST = 9,   /* the class of the other station's opener that stands here, 0 for none */
    LUPIN_DESK_ASKED = 10,
    LUPIN_DESK_HOLDS = 11,
    LUPIN_DESK_OWES = 12,
    LUPIN_DESK_WAITING = 13 /* line clears that wait until it owes none */
};

/* The shelf: its bytes, its places, the bytes of one, and the longest name. A place is a name of 1 to LUPIN_LONGEST_NAME capital letters,
   A to Z in ASCII, zeros up to that many bytes, and a position. The used places come first, in the order in which their names were first
   stored, no name stands there twice, and all behind them is zero. The empty shelf is all zeros. */
#define LUPIN_SHELF 4688
#define LUPIN_SHELF_PLACES 16
#define LUPIN_SHELF_PLACE 293
#define LUPIN_LONGEST_NAME 12

/* The fields of an entry as numbers: how many there are, and the place of each. One that the map has no bit for is 0. */
#define LUPIN_FIELDS 10
enum lupin_field {
    LUPIN_FIELD_MAP,     /* enum lupin_map */
    LUPIN_FIELD_KIND,    /* enum lupin_kind */
    LUPIN_FIELD_STATION, /* enum lupin_station */
    LUPIN_FIELD_TIME,    /* 0 to 65,535 minutes on that station's clock */
    LUPIN_FIELD_VIEW,    /* enum lupin_view */
    LUPIN_FIELD_CLASS,   /* enum lupin_class */
    LUPIN_FIELD_ASKED,   /* 1 to 8 */
    LUPIN_FIELD_GRANTED, /* 1 to 8 */
    LUPIN_FIELD_SENDER,  /* of the form named: enum lupin_station */
    LUPIN_FIELD_NUMBER   /* of the form named: 1 to 9,999 */
};

/* The room that any entry takes that may be written, in bytes. */
#define LUPIN_LONGEST_ENTRY 8

/* The bits of a map, and the bits that must stand for each kind. For a RETURN, a TRAIN and a LAST TRAIN, LUPIN_HAS_ASKED and
   LUPIN_HAS_GRANTED may stand besides; no other bit may. */
enum lupin_map {
    LUPIN_HAS_KIND = 0x01,
    LUPIN_HAS_STATION = 0x02,
    LUPIN_HAS_TIME = 0x04,
    LUPIN_HAS_VIEW = 0x08,
    LUPIN_HAS_CLASS = 0x10,
    LUPIN_HAS_ASKED = 0x20,
    LUPIN_HAS_GRANTED = 0x40,
    LUPIN_HAS_FORM = 0x80, /* sender and number */
    LUPIN_MAP_BEGIN = 0x01,
    LUPIN_MAP_OPEN = 0x3F,
    LUPIN_MAP_THROUGH = 0x1F,
    LUPIN_MAP_RETURN = 0x07,
    LUPIN_MAP_TRAIN = 0x0F,
    LUPIN_MAP_RECEIVE = 0x87,
    LUPIN_MAP_MEET = 0x83,
    LUPIN_MAP_RESUME = 0x01,
    LUPIN_MAP_LAST_TRAIN = 0x0F
};

enum lupin_kind {
    LUPIN_BEGIN = 1,
    LUPIN_OPEN = 2,
    LUPIN_THROUGH = 3,
    LUPIN_RETURN = 4,
    LUPIN_TRAIN = 5,
    LUPIN_RECEIVE = 6,
    LUPIN_MEET = 7,
    LUPIN_RESUME = 8,
    LUPIN_LAST_TRAIN = 9
};

enum lupin_station {
    LUPIN_A = 1,
    LUPIN_B = 2
};

enum lupin_view {
    LUPIN_CLEAR_DAY = 1,
    LUPIN_NIGHT_OR_OBSTRUCTED = 2,
    LUPIN_IMPAIRED_WEATHER = 3
};

enum lupin_class {
    LUPIN_LIGHT_ENGINE = 1, /* the only one of a THROUGH */
    LUPIN_TRAIN_ENGINE = 2,
    LUPIN_MOTOR_TROLLEY = 3, /* or a tower wagon */
    LUPIN_OTHER_TROLLEY = 4,
    LUPIN_DIESEL_CAR = 5 /* or a rail motor car, or an EMU */
};

/* An accepted entry's answer: how many numbers it has, and the place of each. For BEGIN, RECEIVE, MEET and RESUME all three are 0. */
#define LUPIN_ANSWER 3
enum lupin_part {
    LUPIN_ANSWER_NUMBER, /* the form number that the vehicle leaves under */
    LUPIN_ANSWER_FORMS,  /* the forms to hand over, a sum of enum lupin_form */
    LUPIN_ANSWER_SPEED   /* the speed on the order, as below */
};

enum lupin_form {
    LUPIN_TB_602 = 1,   /* T/B 602, the authority for opening communication */
    LUPIN_TE_602 = 2,   /* T/E 602, the line clear enquiry message */
    LUPIN_TF_602 = 4,   /* T/F 602, the conditional line clear message */
    LUPIN_TG_602 = 8,   /* T/G 602, the conditional line clear ticket, UP (from A) */
    LUPIN_TH_602 = 16,  /* T/H 602, the same, DN (from B) */
    LUPIN_T369_3B = 32, /* T/369(3b), the authority to pass the last stop signal at on */
    LUPIN_T409 = 64,    /* T/409, the caution order */
    LUPIN_TA_409 = 128, /* T/A 409, the nil caution order */
    LUPIN_TC_602 = 256  /* T/C 602, the authority on a double line; no entry of a single line has it */
};

/* A speed as a number, by its case: LUPIN_NO_SPEED; LUPIN_WALKING_PACE; LUPIN_KMH + n for n km/h; LUPIN_BOOKED;
   LUPIN_TWO_FIGURES + 256 s + e for two figures in km/h, s where the track is straight and the view clear, e elsewhere. A train that
   follows another has these: 25 and 10 in view 1, 268554, and 10 and 10 in views 2 and 3, 264714. */
#define LUPIN_NO_SPEED UINT32_C(0)
#define LUPIN_WALKING_PACE UINT32_C(65536)
#define LUPIN_KMH UINT32_C(131072)
#define LUPIN_BOOKED UINT32_C(196608)
#define LUPIN_TWO_FIGURES UINT32_C(262144)

/* A speed's number taken apart: which of the five it is; n of LUPIN_KMH; s and e of LUPIN_TWO_FIGURES. */
#define LUPIN_SPEED_CASE(speed) ((uint32_t)(speed) / 65536 * 65536)
#define LUPIN_SPEED_KMH(speed) ((uint32_t)(speed) % 65536)
#define LUPIN_SPEED_STRAIGHT(speed) ((uint32_t)(speed) / 256 % 256)
#define LUPIN_SPEED_ELSEWHERE(speed) ((uint32_t)(speed) % 256)

/* Stores the position under the name: in the place of what was stored under it before, else in the first unused place, and answers 0.
   Refused, in this order: 5 where the shelf is none, another length than LUPIN_SHELF included; 24 where the name is not of 1 to
   LUPIN_LONGEST_NAME capital letters; 25 where it is not on the shelf and all places are used; 26 where the position is none, another
   length than LUPIN_POSITION included. name_len counts letters, and no zero behind them. */
uint32_t lupin_store(uint8_t *shelf, size_t shelf_len, const uint8_t *name, size_t name_len, const uint8_t *position, size_t position_len);

/* Puts the position that was last stored under the name at the front of buffer and answers 0.
   Refused, in this order: 5 where the shelf is none; 24 where the name is not of 1 to LUPIN_LONGEST_NAME capital letters; 24 where it is
   not on the shelf; 23 where buffer_len is below LUPIN_POSITION. */
uint32_t lupin_fetch(const uint8_t *shelf, size_t shelf_len, const uint8_t *name, size_t name_len, uint8_t *buffer, size_t buffer_len);

/* Steps the section of the position with the first entry of the bytes; what stands behind that entry is not looked at. Where it is
   accepted the answer is 0, form number, forms and speed stand in the first LUPIN_ANSWER numbers of answer (enum lupin_part), and the
   position is that of the section after it.
   Refused, in this order: 26 where the position is none, another length than LUPIN_POSITION included; 23 where answer_len is below
   LUPIN_ANSWER. These two alter nothing. Then 1 to 4, no bytes being 1, and 6 to 22: such a refusal leaves every number of answer as it
   was, adds 1 to one of the position's three counts, which stops at its largest value, and alters nothing else in it. It is counted
   as in a listing (enum lupin_figure). */
uint32_t lupin_step(uint8_t *position, size_t position_len, const uint8_t *entry, size_t entry_len, uint32_t *answer, size_t answer_len);

/* Writes the entry that the first LUPIN_FIELDS numbers of fields say (enum lupin_field) at the front of the bytes and answers 0; numbers
   behind them are not looked at. The entry has lupin_entry_length(map) bytes, and LUPIN_LONGEST_ENTRY are enough for any.
   Refused, in this order: 23 where fields_len is below LUPIN_FIELDS; 2 where the map has no kind or the kind is none of 1 to 9; 3 where
   the map is not of the kind; 4 where a field lies outside its range, or is not 0 though the map has no bit for it; 23 where entry_len is
   too small. A number above 255 in a field of one byte, which is any but time and number, counts as 255, which none allows: such a kind
   is none, such a map is of no kind, and any other such field lies outside its range. */
uint32_t lupin_write_entry(const uint16_t *fields, size_t fields_len, uint8_t *entry, size_t entry_len);

/* Reads the first entry of the bytes into the first LUPIN_FIELDS numbers of fields and answers 0; what stands behind that entry is not
   looked at. Refused, in this order: 23 where fields_len is below LUPIN_FIELDS, before any byte is read; 1 where the bytes end inside the
   entry, or there are none; 2 to 4 as in lupin_write_entry. */
uint32_t lupin_read_entry(const uint8_t *entry, size_t entry_len, uint16_t *fields, size_t fields_len);

/* How many bytes an entry has that begins with this map: 1 and the bytes of each field whose bit stands, for any map. */
size_t lupin_entry_length(uint8_t map);

#ifdef __cplusplus
}
#endif

#endif
