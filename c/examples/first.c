/* first.c: a call that moves 30 from one register to another, and what it leaves. It is C and C++,
 * and tests each answer. */
#include "onefile.h"

#include <stdio.h>
#include <stdlib.h>

static void must(int answer) {
  if (answer == ONEFILE_DONE) return;
  fprintf(stderr, "%s\n", onefile_name(answer));
  exit(1);
}

int main(void) {
  onefile_memory memory = ONEFILE_NONE;
  onefile_saved saved = ONEFILE_NONE;
  onefile_reply reply;
  const uint64_t fill[] = {onefile_store(0, 70)};
  const uint64_t move[] = {onefile_sub(0, 30), onefile_add(1, 30)};
  uint32_t value = 0;

  must(onefile_open(&memory, 4, 8, ONEFILE_GREATEST_LIMIT)); /* 4 callers, 8 keys and items */
  must(onefile_enrol(&memory, 0));
  must(onefile_call(&memory, 0, fill, 1, &reply));
  must(onefile_call(&memory, 0, move, 2, &reply)); /* both instructions, or neither */
  if (reply.cause != 0) printf("instruction %u aborted the call\n", reply.place);
  must(onefile_leave(&memory, 0));
  must(onefile_close(&memory, &saved));
  must(onefile_register(&saved, 1, &value));
  must(onefile_free_saved(&saved));
  printf("register 1 has %u\n", value);
  return 0;
}
