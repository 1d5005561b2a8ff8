/* How far a tool is, on standard error: one line, rewritten, on a terminal; elsewhere a line every ten seconds. */
#ifndef PROGRESS_H
#define PROGRESS_H

void progress(unsigned long done, unsigned long of, const char *what);
void end_progress(void); /* before anything else is printed */

#endif
