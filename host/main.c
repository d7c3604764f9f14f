/* The program: plays scripts of the bench through the C calls, makes random calls, or has a viewer talk to the key. */

#include "host.h"

#include <errno.h>
#include <inttypes.h>
#include <stdarg.h>
#include <stdio.h>
#include <stdlib.h>
#include <string.h>
#include <unistd.h>

static const char *subject;
static uint64_t subject_number;

void fail_about(const char *about, uint64_t number)
{
    subject = about;
    subject_number = number;
}

static void print_bytes(const char *name, const struct buffer *buffer, size_t most)
{
    fprintf(stderr, "  %s of %zu bytes: ", name, buffer->length);
    for (size_t i = 0; i < buffer->length && i < most; i++)
        fprintf(stderr, "%02x", buffer->bytes[i]);
    fputs(buffer->length > most ? " ..\n" : "\n", stderr);
}

/* What the call was given, so that it can be made again. */
static void print_call(enum kind kind, const struct host *h)
{
    for (int slot = 0; slot < SLOTS; slot++)
        if (is_lent(kind, slot))
            print_bytes(slot_names[slot], &h->buffers[slot], BQ_PACKET_SIZE);
    if (kind < KEY_KINDS)
        fprintf(stderr, "  milliseconds or ticket: %" PRIu32 "\n", h->number);
    else
        fprintf(stderr, "  channel: %" PRIu32 ", command: %u, given: %x, the reply's word: %016" PRIx64 ", packet or place: %zu\n",
                h->number, h->command, h->given, h->word, h->place);
}

void fail(const char *form, ...)
{
    const struct host *h;
    enum kind call = call_being_made(&h);
    va_list values;

    fflush(stdout);
    fputs("host: ", stderr);
    if (subject != NULL)
        fprintf(stderr, "%s %" PRIu64 ": ", subject, subject_number);
    if (call != KINDS)
        fprintf(stderr, "call %" PRIu64 ", %s: ", calls_made(), call_names[call]);
    va_start(values, form);
    vfprintf(stderr, form, values);
    va_end(values);
    fputc('\n', stderr);
    if (call != KINDS)
        print_call(call, h);
    _exit(1); /* it may be called where a signal was caught */
}

static uint64_t number_of(const char *word)
{
    char *end;
    unsigned long long number;

    errno = 0;
    number = strtoull(word, &end, 10);
    if (*word < '0' || *word > '9' || *end != '\0' || errno != 0)
        fail("%s is no number", word);
    return number;
}

int main(int argc, char **argv)
{
    lent_begin();
    if (argc == 4 && strcmp(argv[1], "play") == 0)
        play(argv[2], argv[3]);
    else if (argc == 4 && strcmp(argv[1], "random") == 0)
        random_calls(number_of(argv[2]), number_of(argv[3]));
    else if (argc == 4 && strcmp(argv[1], "viewer") == 0)
        viewer_rounds(number_of(argv[2]), number_of(argv[3]));
    else
        fail("it is `host play IN OUT`, a script of the bench and its answers, `host random CALLS SEED`, or `host viewer ROUNDS SEED`");
    return 0;
}
