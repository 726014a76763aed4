/* visits.c: counts in a file how often it was run, and ends without closing it: visits FILE. The
 * programs in C++, Rust and Python go on from the same file. */
#include "onefile.h"

#include <stdio.h>
#include <stdlib.h>

static void expect(int answer, const char *what) {
  if (answer == ONEFILE_DONE) return;
  printf("%s: %s\n", what, onefile_name(answer));
  exit(1);
}

int main(int argc, char **argv) {
  onefile_memory memory = ONEFILE_NONE;
  onefile_reply reply;
  uint64_t visit[] = {onefile_add(0, 1)};
  if (argc != 2) return 2;
  int answer = onefile_reopen_file(&memory, argv[1], ONEFILE_GREATEST_LIMIT, NULL);
  if (answer == ONEFILE_NO_FILE) {
    answer = onefile_open_file(&memory, argv[1], 1, 0, ONEFILE_GREATEST_LIMIT);
  }
  expect(answer, "open");
  expect(onefile_enrol(&memory, 0), "enrol");
  expect(onefile_call(&memory, 0, visit, 1, &reply), "visit");
  printf("visit %u\n", reply.values[0]);
  return 0; /* as a process that is killed: the file is not closed, and nothing is lost */
}
