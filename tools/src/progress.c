#define _POSIX_C_SOURCE 200809L
#include "progress.h"

#include <stdio.h>
#include <time.h>
#include <unistd.h>

static int shown; /* the characters of the line that stands on the terminal */

void progress(unsigned long done, unsigned long of, const char *what) {
    static time_t last;
    time_t now = time(NULL);
    if (done > of) done = of;
    if (isatty(2)) {
        shown = fprintf(stderr, "\r%lu of %lu %s", done, of, what) - 1;
        fflush(stderr);
    } else if (!last) {
        last = now;
    } else if (now - last >= 10) {
        last = now;
        fprintf(stderr, "%lu of %lu %s\n", done, of, what);
    }
}

void end_progress(void) {
    if (shown > 0) fprintf(stderr, "\r%*s\r", shown, "");
    shown = 0;
}
