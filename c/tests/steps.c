/* steps.c: a bank in a file, looked at after each step: steps [FOLDER [COUNT]]. Four callers make
 * their calls step by step, in an order by chance. After each step, what a memory that goes on from
 * the file would find has all the money and every answered call once, as after a kill there. */
#include "books.h"

/* Makes one step of a caller, and begins its next call if none is open. Gives whether the call has
 * ended. */
static int step(uint32_t number, uint32_t call, int is_open) {
  uint64_t script[INSTRS];
  onefile_reply reply;
  write_script(number, call, script);
  int answer = is_open ? onefile_go_on(&bank, number, 1, &reply)
                       : onefile_call_within(&bank, number, script, INSTRS, 1, &reply);
  MUST(answer == ONEFILE_STOPPED || (answer == ONEFILE_DONE && is_reply_to(&reply, call)));
  return answer == ONEFILE_DONE;
}

int main(int argc, char **argv) {
  unsigned long count = argc > 2 ? strtoul(argv[2], NULL, 10) : 3000, calls = 0;
  uint32_t answered[CALLERS] = {0};
  int is_open[CALLERS] = {0};
  books known = new_books();
  snprintf(path, sizeof path, "%s/onefile-steps.%d", argc > 1 ? argv[1] : "/tmp", (int)getpid());
  int answer = onefile_open_file(&bank, path, CALLERS, BLOCKS, ONEFILE_GREATEST_LIMIT);
  MUST(answer == ONEFILE_DONE);
  enter_bank();
  for (unsigned long i = 0; i < count; i++) {
    uint32_t number = (uint32_t)random() % CALLERS;
    int has_ended = step(number, answered[number] + 1, is_open[number]);
    answered[number] += (uint32_t)has_ended;
    is_open[number] = !has_ended;
    look(&known, answered);
  }
  for (int i = 0; i < CALLERS; i++) calls += answered[i];
  MUST(onefile_free(&bank) == ONEFILE_DONE && unlink(path) == 0);
  printf("%lu steps: all the money is there, and each call once\n", count);
  if (argc > 2) printf("%lu calls were answered\n", calls);
  return 0;
}
