/*
 * Memory that is lent to calls. Each buffer has pages of its own between two guard pages, on which any touch faults. The buffer lies right
 * before the guard behind it or, as chance has it, right behind the guard before it; what is left of its pages are canary bytes.
 */

#include "host.h"

#include <signal.h>
#include <stdio.h>
#include <string.h>
#include <sys/mman.h>
#include <unistd.h>

static struct {
    uint8_t *first; /* between the guards */
    uint8_t *at;    /* where the buffer begins */
    size_t length;  /* how many bytes of it are lent */
} areas[SLOTS];

static size_t page, room; /* bytes in a page, and between two guards */
static uint32_t dice;     /* chance of its own: what is lent does not hang on how */

/* The canary of each place: unlike its neighbours, so that no run of equal bytes passes for it. */
static uint8_t *canary;

static void put_canary(enum slot slot, uint8_t *from, size_t length)
{
    memcpy(from, canary + (from - areas[slot].first), length);
}

/* Where an address lies, as seen from a lent buffer. */
static void fail_at(enum slot slot, const uint8_t *address, const char *what)
{
    const char *name = slot_names[slot];
    size_t length = areas[slot].length;

    if (address < areas[slot].at)
        fail("%s a byte %zu before the %s, of which %zu bytes are lent", what, (size_t)(areas[slot].at - address), name, length);
    fail("%s byte %zu of the %s, of which %zu bytes are lent", what, (size_t)(address - areas[slot].at), name, length);
}

/* A touch of a guard page, or of memory that nobody lent. */
static void on_fault(int signal, siginfo_t *fault, void *context)
{
    const uint8_t *address = fault->si_addr;

    (void)signal;
    (void)context;
    for (int slot = 0; slot < SLOTS; slot++)
        if (address >= areas[slot].first - page && address < areas[slot].first + room + page)
            fail_at(slot, address, "it touches");
    fail("it touches the address %p, where nothing is lent", fault->si_addr);
}

void lent_begin(void)
{
    struct sigaction action = { .sa_sigaction = on_fault, .sa_flags = SA_SIGINFO };
    size_t largest;

    page = (size_t)sysconf(_SC_PAGESIZE);
    room = (LARGEST + page) / page * page;
    largest = room + 2 * page;
    canary = mmap(NULL, room, PROT_READ | PROT_WRITE, MAP_PRIVATE | MAP_ANONYMOUS, -1, 0);
    if (canary == MAP_FAILED)
        fail("there is no memory to lend");
    for (size_t i = 0; i < room; i++)
        canary[i] = (uint8_t)(i * 151 + i / 256 + 90);
    for (int slot = 0; slot < SLOTS; slot++) {
        uint8_t *guard = mmap(NULL, largest, PROT_NONE, MAP_PRIVATE | MAP_ANONYMOUS, -1, 0);

        if (guard == MAP_FAILED || mprotect(guard + page, room, PROT_READ | PROT_WRITE) != 0)
            fail("there is no memory to lend");
        areas[slot].first = areas[slot].at = guard + page;
        put_canary(slot, areas[slot].first, room);
    }
    sigaction(SIGSEGV, &action, NULL);
    sigaction(SIGBUS, &action, NULL);
}

uint8_t *lent_place(enum slot slot, const uint8_t *bytes, size_t length)
{
    bool at_the_end, as_null;

    dice = dice * 1664525 + 1013904223;
    at_the_end = dice >> 31 & 1;
    as_null = dice >> 30 & 1;
    put_canary(slot, areas[slot].at, areas[slot].length);
    areas[slot].at = areas[slot].first + (at_the_end ? room - length : 0);
    areas[slot].length = length;
    if (length > 0)
        memcpy(areas[slot].at, bytes, length);
    return length == 0 && as_null ? NULL : areas[slot].at;
}

/* Whether the canary stands from one place up to another. */
static void check_canary(enum slot slot, const uint8_t *from, const uint8_t *to)
{
    const uint8_t *expected = canary + (from - areas[slot].first);

    if (memcmp(from, expected, (size_t)(to - from)) == 0)
        return;
    for (; *from == *expected; expected++)
        from++;
    fail_at(slot, from, "it writes to");
}

void lent_check(int slots)
{
    for (int slot = 0; slot < slots; slot++) {
        check_canary(slot, areas[slot].first, areas[slot].at);
        check_canary(slot, areas[slot].at + areas[slot].length, areas[slot].first + room);
    }
}
