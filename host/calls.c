/* Makes the calls that it reads from standard input, in the format of the second program's `calls SEED COUNT input`, and writes what came
   of each as `calls SEED COUNT expected` has it. Every slice lies in memory of just its own length, so that a reach beyond it shows. */
#include <stdio.h>
#include <stdlib.h>

#include "lupinshift.h"

enum call {
    STORE = 1,
    FETCH = 2,
    STEP = 3,
    WRITE_ENTRY = 4,
    READ_ENTRY = 5,
    ENTRY_LENGTH = 6
};

/* A slice lent for a call: so many places of 1, 2 or 4 bytes. */
struct slice {
    void *places;
    size_t len, size;
};

static void fail(const char *what)
{
    fprintf(stderr, "calls: %s\n", what);
    exit(1);
}

/* The next number of so many bytes, high byte first. */
static uint32_t taken(size_t bytes)
{
    uint32_t number = 0;

    while (bytes-- > 0) {
        int byte = getchar();

        if (byte == EOF)
            fail("the input ends inside a call");
        number = number << 8 | (uint32_t)byte;
    }
    return number;
}

static void give(uint32_t number, size_t bytes)
{
    while (bytes-- > 0)
        putchar((int)(number >> 8 * bytes & 0xFF));
}

static void put_place(struct slice slice, size_t at, uint32_t number)
{
    if (slice.size == 1)
        ((uint8_t *)slice.places)[at] = (uint8_t)number;
    else if (slice.size == 2)
        ((uint16_t *)slice.places)[at] = (uint16_t)number;
    else
        ((uint32_t *)slice.places)[at] = number;
}

static uint32_t place(struct slice slice, size_t at)
{
    if (slice.size == 1)
        return ((const uint8_t *)slice.places)[at];
    if (slice.size == 2)
        return ((const uint16_t *)slice.places)[at];
    return ((const uint32_t *)slice.places)[at];
}

/* The next slice of the input, its length first. Where that is 0, NULL is lent. */
static struct slice taken_slice(size_t size)
{
    struct slice slice = {NULL, taken(4), size};
    size_t at;

    if (slice.len > 0 && (slice.places = malloc(slice.len * size)) == NULL)
        fail("no memory");
    for (at = 0; at < slice.len; at++)
        put_place(slice, at, taken(size));
    return slice;
}

static void give_back(struct slice slice)
{
    size_t at;

    for (at = 0; at < slice.len; at++)
        give(place(slice, at), slice.size);
    free(slice.places);
}

static void call_with_three(int call)
{
    struct slice first = taken_slice(1), second = taken_slice(1), third = taken_slice(call == STEP ? 4 : 1);
    uint32_t answer;

    if (call == STORE)
        answer = lupin_store(first.places, first.len, second.places, second.len, third.places, third.len);
    else if (call == FETCH)
        answer = lupin_fetch(first.places, first.len, second.places, second.len, third.places, third.len);
    else
        answer = lupin_step(first.places, first.len, second.places, second.len, third.places, third.len);
    give(answer, 4);
    give_back(first);
    give_back(second);
    give_back(third);
}

static void call_with_two(int call)
{
    struct slice first = taken_slice(call == WRITE_ENTRY ? 2 : 1), second = taken_slice(call == WRITE_ENTRY ? 1 : 2);
    uint32_t answer;

    if (call == WRITE_ENTRY)
        answer = lupin_write_entry(first.places, first.len, second.places, second.len);
    else
        answer = lupin_read_entry(first.places, first.len, second.places, second.len);
    give(answer, 4);
    give_back(first);
    give_back(second);
}

int main(int argc, char **argv)
{
    int call;

    (void)argv;
    if (argc != 1) {
        fputs("usage: calls < CALLS\n", stderr);
        return 2;
    }
    while ((call = getchar()) != EOF) {
        if (STORE <= call && call <= STEP)
            call_with_three(call);
        else if (call == WRITE_ENTRY || call == READ_ENTRY)
            call_with_two(call);
        else if (call == ENTRY_LENGTH)
            give((uint32_t)lupin_entry_length((uint8_t)taken(1)), 4);
        else
            fail("no such call");
    }
    if (ferror(stdin) || fflush(stdout) != 0) {
        perror("calls");
        return 1;
    }
    return 0;
}
