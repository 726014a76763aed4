/* orders.c: each order takes effect once, however often the process is killed: orders FILE COUNT.
 * It goes on with the order after the last one that took effect, handles so many, and ends without
 * closing the file, as a process that is killed. */
#include "onefile.h"

#include <stdio.h>
#include <stdlib.h>

enum { SUM = 0, LAST = 1 }; /* the registers */

static void must(int answer) {
  if (answer == ONEFILE_DONE) return;
  fprintf(stderr, "%s\n", onefile_name(answer));
  exit(1);
}

/* Opens the memory of a file, or makes one, and gives the last order that took effect. */
static uint32_t open_orders(onefile_memory *memory, const char *file) {
  onefile_saved found = ONEFILE_NONE;
  uint32_t last = 0;
  int answer = onefile_reopen_file(memory, file, ONEFILE_GREATEST_LIMIT, &found);
  if (answer == ONEFILE_NO_FILE) {
    must(onefile_open_file(memory, file, 1, 0, ONEFILE_GREATEST_LIMIT));
    return 0;
  }
  must(answer);
  must(onefile_register(&found, LAST, &last));
  must(onefile_free_saved(&found));
  return last;
}

int main(int argc, char **argv) {
  onefile_memory memory = ONEFILE_NONE;
  onefile_reply reply;
  if (argc != 3) return 2;
  uint32_t last = open_orders(&memory, argv[1]), count = (uint32_t)atoi(argv[2]);
  must(onefile_enrol(&memory, 0));
  for (uint32_t order = last + 1; order <= last + count; order++) {
    /* The number of the order is kept by the same call: with all that it does, or not at all. */
    const uint64_t script[] = {onefile_add(SUM, 10 * order), onefile_store(LAST, order)};
    must(onefile_call(&memory, 0, script, 2, &reply));
    if (reply.cause != 0) break; /* it aborted, so it is still the next one */
    printf("order %u, sum %u\n", order, reply.values[0]);
  }
  return 0;
}
