/* must.h: what must hold in a test. If it does not, the process says so and ends at once, also if it
 * is a forked one. */
#ifndef MUST_H
#define MUST_H

#include <errno.h>
#include <stdio.h>
#include <string.h>
#include <unistd.h>

#define MUST(holds) must((holds), __LINE__, #holds)

static void must(int holds, int line, const char *what) {
  if (holds) return;
  printf("line %d: not %s (%s)\n", line, what, strerror(errno));
  fflush(stdout);
  _exit(1);
}

#endif
