/* tally.c: adds 1 to a register in a file that processes share, every tenth of a second: tally PATH
 * COUNT. Start it several times at once, and kill some: the others go on, and no call is lost. */
#define _GNU_SOURCE
#include "onefile.h"

#include <stdio.h>
#include <stdlib.h>
#include <time.h>

static void must(int answer) {
  if (answer == ONEFILE_DONE) return;
  fprintf(stderr, "%s\n", onefile_name(answer));
  exit(1);
}

int main(int argc, char **argv) {
  onefile_memory memory = ONEFILE_NONE;
  onefile_reply reply;
  uint32_t own = 0; /* the number of this process */
  if (argc != 3) return fprintf(stderr, "usage: tally PATH COUNT\n"), 2;

  must(onefile_share_file(&memory, argv[1], 16, 0, ONEFILE_GREATEST_LIMIT));
  must(onefile_enrol_any(&memory, &own));
  for (int i = 0; i < atoi(argv[2]); i++) {
    const uint64_t script[] = {onefile_add(0, 1)};
    const struct timespec tenth = {0, 100000000};
    must(onefile_call(&memory, own, script, 1, &reply));
    printf("caller %u adds 1: %u\n", own, reply.values[0]);
    fflush(stdout);
    nanosleep(&tenth, NULL);
  }
  must(onefile_leave(&memory, own));
  must(onefile_close(&memory, NULL));
  return 0;
}
