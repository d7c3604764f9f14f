/* The key's bench program as a child process: a line is written to it and its answer read. */

#include "interop.h"

#include <ctype.h>
#include <errno.h>
#include <poll.h>
#include <signal.h>
#include <stdarg.h>
#include <stdio.h>
#include <stdlib.h>
#include <string.h>
#include <sys/wait.h>
#include <unistd.h>

/* The bench answers at once, so one that is silent for so long is stuck. */
enum { PATIENCE_MS = 10000 };

/* Longer than any line: `message` and the hex of a buffer of 8,192 bytes. */
enum { LINE = 20000 };

static pid_t child;
static int to_bench, from_bench;
static char unread[LINE];
static size_t unread_length;

void fail(const char *form, ...)
{
    va_list values;
    fflush(stdout);
    fputs("interop: ", stderr);
    va_start(values, form);
    vfprintf(stderr, form, values);
    va_end(values);
    fputc('\n', stderr);
    exit(1);
}

void bench_start(char *const command[])
{
    int down[2], up[2];

    /* A bench that ends early is then an error of write, with a message of its own. */
    signal(SIGPIPE, SIG_IGN);
    if (pipe(down) != 0 || pipe(up) != 0 || (child = fork()) < 0)
        fail("cannot start the bench: %s", strerror(errno));
    if (child == 0) {
        dup2(down[0], STDIN_FILENO);
        dup2(up[1], STDOUT_FILENO);
        close(down[0]);
        close(down[1]);
        close(up[0]);
        close(up[1]);
        signal(SIGPIPE, SIG_DFL);
        execvp(command[0], command);
        fprintf(stderr, "interop: cannot run %s: %s\n", command[0], strerror(errno));
        _exit(127);
    }
    close(down[0]);
    close(up[1]);
    to_bench = down[1];
    from_bench = up[0];
    unread_length = 0;
}

void bench_stop(void)
{
    int status;

    close(to_bench); /* the end of input ends the bench */
    if (waitpid(child, &status, 0) != child || !WIFEXITED(status) || WEXITSTATUS(status) != 0)
        fail("the bench did not end well at the end of its input");
    close(from_bench);
}

const char *bench_more(void)
{
    static char line[LINE];
    char *end;

    while ((end = memchr(unread, '\n', unread_length)) == NULL) {
        struct pollfd answer = { .fd = from_bench, .events = POLLIN };
        ssize_t got;

        if (poll(&answer, 1, PATIENCE_MS) != 1)
            fail("the bench gives no answer");
        got = read(from_bench, unread + unread_length, LINE - unread_length);
        if (got <= 0)
            fail("the bench ended, or answered more than a line can hold");
        unread_length += (size_t)got;
    }
    *end = '\0';
    memcpy(line, unread, (size_t)(end + 1 - unread));
    unread_length -= (size_t)(end + 1 - unread);
    memmove(unread, end + 1, unread_length);
    return line;
}

static void put(const char *bytes, size_t length)
{
    while (length > 0) {
        ssize_t done = write(to_bench, bytes, length);

        if (done < 0)
            fail("the bench takes no lines: %s", strerror(errno));
        bytes += done;
        length -= (size_t)done;
    }
}

const char *bench_ask(const char *line)
{
    put(line, strlen(line));
    put("\n", 1);
    return bench_more();
}

void bench_expect(const char *line, const char *answer)
{
    const char *given = bench_ask(line);

    if (strcmp(given, answer) != 0)
        fail("the key answers `%s` to `%s`, not `%s`", given, line, answer);
}

const char *bench_packet(const uint8_t packet[PACKET])
{
    char line[sizeof "packet " + 2 * PACKET] = "packet ";

    write_hex(line + strlen(line), packet, PACKET);
    return bench_ask(line);
}

bool reply_in(const char *answer, uint8_t reply[PACKET])
{
    const char *at = strstr(answer, " reply ");

    return at != NULL && read_hex(at + strlen(" reply "), reply, PACKET) == PACKET;
}

void write_hex(char *out, const uint8_t *bytes, size_t length)
{
    *out = '\0';
    for (size_t i = 0; i < length; i++)
        sprintf(out + 2 * i, "%02x", bytes[i]);
}

size_t read_hex(const char *hex, uint8_t *bytes, size_t room)
{
    size_t i = 0;

    for (; i < room && isxdigit((unsigned char)hex[2 * i]) && isxdigit((unsigned char)hex[2 * i + 1]); i++) {
        char pair[] = { hex[2 * i], hex[2 * i + 1], '\0' };

        bytes[i] = (uint8_t)strtoul(pair, NULL, 16);
    }
    return i;
}

uint32_t channel_at(const uint8_t at[4])
{
    return (uint32_t)at[0] << 24 | (uint32_t)at[1] << 16 | (uint32_t)at[2] << 8 | at[3];
}
