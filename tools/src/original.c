#define _POSIX_C_SOURCE 200809L
#include "original.h"

#include <errno.h>
#include <fcntl.h>
#include <poll.h>
#include <signal.h>
#include <stdio.h>
#include <stdlib.h>
#include <string.h>
#include <sys/wait.h>
#include <unistd.h>

#include "progress.h"

static void fail(const char *what) {
    int why = errno;
    end_progress();
    fprintf(stderr, "%s: %s\n", what, strerror(why));
    exit(2);
}

void make_room(Bytes *to, size_t length) {
    if (to->room - to->length >= length) return;
    to->room = 2 * to->room + length;
    to->bytes = realloc(to->bytes, to->room);
    if (!to->bytes) fail("no memory for what the original reads and writes");
}

void append(Bytes *to, const void *from, size_t length) {
    make_room(to, length);
    if (length) memcpy(to->bytes + to->length, from, length);
    to->length += length;
}

/* Why a program could not be started comes back through a third pipe, which a started program has closed. */
static pid_t start(const char *program, const char *word, int *to, int *from) {
    int in[2], out[2], trouble[2], why;
    if (pipe(in) || pipe(out) || pipe(trouble) || fcntl(trouble[1], F_SETFD, FD_CLOEXEC)) fail("no pipe to the original");
    fflush(stdout);
    pid_t child = fork();
    if (child < 0) fail("no process for the original");
    if (child == 0) {
        signal(SIGPIPE, SIG_DFL);
        dup2(in[0], 0), dup2(out[1], 1);
        close(in[0]), close(in[1]), close(out[0]), close(out[1]), close(trouble[0]);
        execl(program, program, word, (char *)NULL);
        why = errno;
        _exit(write(trouble[1], &why, sizeof why) == sizeof why ? 127 : 126);
    }
    close(in[0]), close(out[1]), close(trouble[1]);
    if (read(trouble[0], &why, sizeof why) == sizeof why) {
        end_progress();
        fprintf(stderr, "the original, %s, cannot be started: %s\n", program, strerror(why));
        exit(2);
    }
    close(trouble[0]);
    *to = in[1], *from = out[0];
    return child;
}

/* The original reads all its input before it writes; a program that does not is heard as well, and one that stops reading too. */
static void exchange(int to, int from, const Bytes *input, Bytes *output) {
    uint8_t buffer[65536];
    size_t at = 0;
    if (fcntl(to, F_SETFL, O_NONBLOCK)) fail("no pipe to the original");
    for (;;) {
        if (to >= 0 && at == input->length) close(to), to = -1;
        struct pollfd ends[] = {{.fd = from, .events = POLLIN}, {.fd = to, .events = POLLOUT}};
        if (poll(ends, 2, -1) < 0) fail("waiting for the original");
        if (ends[1].revents) {
            ssize_t n = write(to, input->bytes + at, input->length - at);
            if (n >= 0) at += n;
            else if (errno != EAGAIN) at = input->length;
        }
        if (ends[0].revents) {
            ssize_t n = read(from, buffer, sizeof buffer);
            if (n < 0) fail("reading from the original");
            if (n == 0) break;
            append(output, buffer, n);
        }
    }
    if (to >= 0) close(to);
    close(from);
}

int run_program(const char *program, const char *word, const Bytes *input, Bytes *output) {
    int to, from, status;
    size_t before = output->length;
    signal(SIGPIPE, SIG_IGN);
    pid_t child = start(program, word, &to, &from);
    exchange(to, from, input, output);
    if (waitpid(child, &status, 0) != child) fail("waiting for the original");
    if (input->length && output->length == before) {
        end_progress();
        fprintf(stderr, "the original, %s, called with the word %s, answered nothing to %zu bytes: it ", program, word, input->length);
        if (WIFSIGNALED(status)) fprintf(stderr, "was ended by signal %d, %s\n", WTERMSIG(status), strsignal(WTERMSIG(status)));
        else fprintf(stderr, "ended with status %d\n", WEXITSTATUS(status));
        exit(2);
    }
    return WIFSIGNALED(status) ? 128 + WTERMSIG(status) : WEXITSTATUS(status);
}

/* Records that stand one after another, the end records widened; what is no whole record stays as it is. */
static void widen_ends(const Bytes *from, Bytes *to) {
    static const uint8_t narrow[] = {4, 0, 19, 0}, wide[] = {6, 0, 19, 0}, side[] = {0, 0};
    size_t at = 0;
    while (from->length - at >= 4) {
        size_t size = 2 + (from->bytes[at] | (size_t)from->bytes[at + 1] << 8);
        if (from->length - at < size) break;
        if (memcmp(from->bytes + at, narrow, 4)) {
            append(to, from->bytes + at, size);
        } else {
            append(to, wide, 4), append(to, from->bytes + at + 4, 2), append(to, side, 2);
        }
        at += size;
    }
    append(to, from->bytes + at, from->length - at);
}

int run_on_tape(const char *program, const char *begin, const Bytes *tape, Bytes *answers) {
    static Bytes said;
    said.length = 0;
    int status = run_program(program, begin, tape, &said);
    widen_ends(&said, answers);
    return status;
}
