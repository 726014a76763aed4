/* refused.c: each allocation of a life is refused in turn. The function answers ONEFILE_NO_MEMORY,
 * has changed nothing, and does what it should when it is called again. Only the function that reads
 * an image can do without one allocation: it asks for the room of a list at once, and if that is
 * refused, it takes the room as the list grows. A call of a script allocates nothing, and neither
 * does a question to what was saved, nor one for a last reply. To be linked with -Wl,--wrap=malloc,--wrap=realloc. */
#include "onefile.h"

#include <stdio.h>
#include <stdlib.h>
#include <string.h>

void *__real_malloc(size_t size);
void *__real_realloc(void *block, size_t size);

/* How many allocations are given before one is refused. */
static long left = -1;

/* How many were asked for. */
static long asked;

/* Whether one was refused in this call. */
static int refused;

static int refuses(void) {
  asked++;
  if (left < 0 || left-- > 0) return 0;
  refused = 1;
  return 1;
}

void *__wrap_malloc(size_t size) { return refuses() ? NULL : __real_malloc(size); }

void *__wrap_realloc(void *block, size_t size) {
  return refuses() ? NULL : __real_realloc(block, size);
}

static void expect(int answer, const char *what) {
  if (answer == ONEFILE_DONE) return;
  printf("%s: %s\n", what, onefile_name(answer));
  exit(1);
}

/* Makes a call, and makes it again if it was refused memory. `needs` says that it can't do without
 * what was refused. */
#define MAKE(call, needs)                        \
  do {                                           \
    refused = 0;                                 \
    int answer = (call);                         \
    if (answer == ONEFILE_NO_MEMORY) {           \
      if (!refused) expect(-1, #call);           \
      answer = (call);                           \
    } else if (refused && (needs)) {             \
      expect(-1, "nothing refused in " #call);   \
    }                                            \
    expect(answer, #call);                       \
  } while (0)

/* Makes a call that allocates nothing. */
#define CALL(call)                                          \
  do {                                                      \
    long before = asked;                                    \
    expect((call), #call);                                  \
    if (asked != before) expect(-1, "allocated in " #call); \
  } while (0)

#define AGAIN(call) MAKE(call, 1)
#define READS(call) MAKE(call, 0)

/* Has the sequences begin anew. Without memory it has changed nothing, or the memory is closed: then
 * what it has left is kept, and it can go on from there. */
static int renumber(onefile_memory *memory, onefile_saved *saved) {
  int answer = onefile_renumber(memory, saved);
  return answer == ONEFILE_FULL ? onefile_reopen(memory, saved) : answer;
}

static void life(void) {
  static const char first[] = "add 1 5; put 3 4; push 0 9", second[] = "add 1 2";
  onefile_memory memory = ONEFILE_NONE;
  onefile_saved saved = ONEFILE_NONE;
  onefile_reply reply;
  uint32_t value[4] = {0};
  static char text[1 << 14];
  size_t length = 0;
  AGAIN(onefile_open(&memory, 2, 4, 100));
  AGAIN(onefile_enrol(&memory, 1));
  CALL(onefile_call_text(&memory, 1, first, sizeof first - 1, &reply));
  CALL(onefile_last_reply_of(&memory, 1, &reply));
  AGAIN(onefile_leave(&memory, 1));
  AGAIN(onefile_close(&memory, &saved));
  AGAIN(onefile_image(&saved, text, sizeof text, &length));
  AGAIN(onefile_free_saved(&saved));
  READS(onefile_from_image(&saved, text, length));
  AGAIN(onefile_reopen(&memory, &saved));
  AGAIN(onefile_free_saved(&saved));
  AGAIN(onefile_enrol(&memory, 0));
  CALL(onefile_call_text(&memory, 0, second, sizeof second - 1, &reply));
  AGAIN(onefile_leave(&memory, 0));
  AGAIN(renumber(&memory, &saved));
  AGAIN(onefile_free_saved(&saved));
  AGAIN(onefile_close(&memory, &saved));
  CALL(onefile_register(&saved, 1, &value[0]));
  CALL(onefile_key(&saved, 3, &value[1]));
  CALL(onefile_item(&saved, 0, 0, &value[2]));
  CALL(onefile_ticket(&saved, 1, &value[3]));
  CALL(onefile_last_reply(&saved, 1, &reply));
  AGAIN(onefile_free_saved(&saved));
  if (value[0] != 7 || value[1] != 4 || value[2] != 9 || value[3] != 1 || reply.values[0] != 5) {
    printf("a life ended otherwise\n");
    exit(1);
  }
}

int main(void) {
  int lives = 0;
  for (long given = 0;; given++) {
    left = given;
    life();
    int reached = left < 0;
    left = -1;
    if (!reached) break;
    lives++;
  }
  printf("each allocation of a life was refused once: %s\n", lives > 20 ? "done" : "too few");
  return 0;
}
