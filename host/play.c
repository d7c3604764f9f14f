/*
 * Plays a script of the bench (docs/BENCH.md) through the C calls and compares the answers, line by line. Items and APDUs have no C call,
 * and a line that is none of the bench's has no meaning here: these are passed over, each with its answer.
 */

#include "host.h"

#include <errno.h>
#include <inttypes.h>
#include <stdio.h>
#include <stdlib.h>
#include <string.h>

/* Longer than any answer: `message` and the hex of the largest buffer. */
enum { LINE = 2 * LARGEST + 16 };

/* The bench's reply buffer; its message buffer has LARGEST bytes. */
enum { REPLY_BUFFER = 128 };

static struct host h;
static FILE *answers;
static const char *answers_name;
static char *due; /* the next right answer, NULL at the end */
static size_t due_room;

/* ---- the right answers */

static void chop(char *line, ssize_t length)
{
    if (length > 0 && line[length - 1] == '\n')
        line[length - 1] = '\0';
}

static void next_due(void)
{
    ssize_t length = getline(&due, &due_room, answers);

    if (length < 0) {
        free(due);
        due = NULL;
    } else {
        chop(due, length);
    }
}

/* Long lines are shown from their beginning. */
static void expect(const char *answer)
{
    size_t same = 0;

    if (due == NULL)
        fail("the answer is `%.150s`, and %s has no more", answer, answers_name);
    while (due[same] == answer[same] && due[same] != '\0')
        same++;
    if (due[same] != answer[same])
        fail("the answer is `%.150s` and should be `%.150s`, by %s: character %zu is another", answer, due, answers_name, same + 1);
    next_due();
}

/* ---- words of a line */

/* The number that a word is, at most so much. */
static bool read_number(const char *word, uint64_t most, uint32_t *number)
{
    char *end;
    unsigned long long value;

    if (word == NULL || *word < '0' || *word > '9')
        return false;
    errno = 0;
    value = strtoull(word, &end, 10);
    *number = (uint32_t)value;
    return *end == '\0' && errno == 0 && value <= most;
}

static int digit(char c)
{
    const char *digits = "0123456789abcdef", *at = c == '\0' ? NULL : strchr(digits, c >= 'A' && c <= 'F' ? c - 'A' + 'a' : c);

    return at == NULL ? -1 : (int)(at - digits);
}

/* The bytes of a word, which may be missing. */
static bool read_hex(const char *word, struct buffer *bytes)
{
    bytes->length = 0;
    for (; word != NULL && *word != '\0'; word += 2) {
        int high = digit(word[0]), low = high < 0 ? -1 : digit(word[1]);

        if (low < 0 || bytes->length == LARGEST)
            return false;
        bytes->bytes[bytes->length++] = (uint8_t)(high * 16 + low);
    }
    return true;
}

static char *write_hex(char *out, const uint8_t *bytes, size_t length)
{
    for (size_t i = 0; i < length; i++)
        out += sprintf(out, "%02x", bytes[i]);
    *out = '\0';
    return out;
}

/* ---- lines */

static bool call(enum kind kind)
{
    char answer[LINE] = "ok", *end = answer + strlen(answer);
    uint64_t word = make_call(kind, &h);

    if (bq_refusal(word) != BQ_OK)
        sprintf(answer, "refused %u", bq_refusal(word));
    if (bq_ticketed(word))
        end += sprintf(end, " ticket %" PRIu32, bq_ticket(word));
    if (bq_replied(word)) {
        end += sprintf(end, " reply ");
        write_hex(end, h.buffers[REPLY].bytes, BQ_PACKET_SIZE);
    }
    expect(answer);
    return true;
}

static bool check(void)
{
    char answer[64] = "good";
    uint64_t word = make_call(CHECK, &h);

    if (bq_status(word) != 0)
        sprintf(answer, "status %02x at %" PRIu32, bq_status(word), bq_place(word));
    else if (bq_hashed(word))
        sprintf(answer, "good hash %" PRIu32, bq_place(word));
    expect(answer);
    return true;
}

/* `state CHANNELS TICKET PHASE ..`: the key is put into this state by its block. */
static bool set_state(char *words)
{
    static const char *const names[] = { "idle", "gathering", "waiting", "answering" };
    struct state s = { 0 };
    uint32_t command = 0, *const numbers[] = { &s.holder, &command, &s.size, &s.done, &s.left };
    static const int used[] = { 0, 5, 3, 4 };
    const char *phase;

    if (!read_number(strtok(words, " "), UINT32_MAX, &s.given) || !read_number(strtok(NULL, " "), UINT32_MAX, &s.ticket)
        || (phase = strtok(NULL, " ")) == NULL)
        return false;
    while (s.phase <= ANSWERING && strcmp(phase, names[s.phase]) != 0)
        s.phase++;
    if (s.phase > ANSWERING)
        return false;
    for (int i = 0; i < used[s.phase]; i++)
        if (!read_number(strtok(NULL, " "), numbers[i] == &command ? UINT8_MAX : UINT32_MAX, numbers[i]))
            return false;
    s.command = (uint8_t)command;
    block_write(&s, h.buffers[BLOCK].bytes);
    return strtok(NULL, " ") == NULL;
}

static void expect_state(void)
{
    char answer[128];
    struct state s;
    int n;

    if (!block_read(h.buffers[BLOCK].bytes, BQ_BLOCK_SIZE, &s))
        fail("the block is no state's");
    n = sprintf(answer, "state %" PRIu32 " %" PRIu32, s.given, s.ticket);
    if (s.phase == IDLE)
        sprintf(answer + n, " idle");
    else if (s.phase == GATHERING)
        sprintf(answer + n, " gathering %" PRIu32 " %u %" PRIu32 " %" PRIu32 " %" PRIu32, s.holder, s.command, s.size, s.done, s.left);
    else if (s.phase == WAITING)
        sprintf(answer + n, " waiting %" PRIu32 " %u %" PRIu32, s.holder, s.command, s.size);
    else
        sprintf(answer + n, " answering %" PRIu32 " %u %" PRIu32 " %" PRIu32, s.holder, s.command, s.size, s.done);
    expect(answer);
}

static void expect_buffer(enum slot slot)
{
    char answer[LINE];
    int n = sprintf(answer, "%s ", slot_names[slot]);

    if (h.buffers[slot].length == 0)
        strcpy(answer + n, "-");
    else
        write_hex(answer + n, h.buffers[slot].bytes, h.buffers[slot].length);
    expect(answer);
}

static bool show(void)
{
    expect_state();
    expect_buffer(REPLY);
    expect_buffer(MESSAGE);
    return true;
}

static bool lend(enum slot slot, const char *word, uint32_t most)
{
    uint32_t length;

    if (!read_number(word, most, &length))
        return false;
    h.buffers[slot].length = length;
    return true;
}

/* Plays a line; false if it is none that this program knows. */
static bool play_line(char *line)
{
    char *rest = strchr(line, ' ');

    if (rest != NULL)
        *rest++ = '\0';
    if (strcmp(line, "packet") == 0)
        return read_hex(rest, &h.buffers[INPUT]) && call(PACKET);
    if (strcmp(line, "time") == 0)
        return read_number(rest, UINT32_MAX, &h.number) && call(TIME);
    if (strcmp(line, "deliver") == 0 && rest != NULL)
        return read_number(strtok(rest, " "), UINT32_MAX, &h.number) && read_hex(strtok(NULL, " "), &h.buffers[INPUT]) && call(DELIVER);
    if (strcmp(line, "fetch") == 0)
        return call(FETCH);
    if (strcmp(line, "check") == 0)
        return read_hex(rest, &h.buffers[INPUT]) && check();
    if (strcmp(line, "reply") == 0)
        return lend(REPLY, rest, REPLY_BUFFER);
    if (strcmp(line, "message") == 0)
        return lend(MESSAGE, rest, LARGEST);
    if (strcmp(line, "state") == 0 && rest != NULL)
        return set_state(rest);
    return strcmp(line, "show") == 0 && show();
}

/* Whether a line has no C call, or its right answer is that it is none. */
static bool is_passed_over(const char *line, uint64_t number)
{
    char no_line[32];

    sprintf(no_line, "? line %" PRIu64, number);
    return strncmp(line, "item", 4) == 0 || strncmp(line, "apdu", 4) == 0 || (due != NULL && strcmp(due, no_line) == 0);
}

static void play_lines(FILE *script, uint64_t *played, uint64_t *passed_over)
{
    char *line = NULL;
    size_t room = 0;
    ssize_t length;

    for (uint64_t number = 1; (length = getline(&line, &room, script)) >= 0; number++) {
        chop(line, length);
        fail_about("line", number);
        if (is_passed_over(line, number)) {
            next_due();
            ++*passed_over;
        } else if (line[0] != '\0' && line[0] != '#') {
            if (!play_line(line))
                fail("it is none that can be played; docs/BENCH.md has the lines");
            ++*played;
        }
    }
    free(line);
}

void play(const char *script_name, const char *name)
{
    FILE *script = fopen(script_name, "r");
    uint64_t played = 0, passed_over = 0;

    answers_name = name;
    answers = fopen(name, "r");
    if (script == NULL || answers == NULL)
        fail("cannot read %s: %s", script == NULL ? script_name : name, strerror(errno));
    h.buffers[BLOCK].length = BQ_BLOCK_SIZE;
    h.buffers[REPLY].length = BQ_PACKET_SIZE;
    h.buffers[MESSAGE].length = BQ_MESSAGE_SIZE;
    make_call(FRESH, &h);
    next_due();
    play_lines(script, &played, &passed_over);
    if (due != NULL)
        fail("%s has more answers: `%s`", name, due);
    fclose(script);
    fclose(answers);
    printf("%s: %" PRIu64 " lines played, all answered right; %" PRIu64 " passed over\n", script_name, played, passed_over);
}
