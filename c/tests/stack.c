/* stack.c: every function runs on a stack of 64 KB, with the greatest memory: stack [FOLDER]. A
 * process whose stack is too small is ended by a signal. */
#include "onefile.h"

#include <pthread.h>
#include <stdio.h>
#include <unistd.h>

enum { STACK = 64 << 10 };

static onefile_memory memory = ONEFILE_NONE;
static onefile_saved saved = ONEFILE_NONE, read_again = ONEFILE_NONE;
static onefile_reply reply;
static char path[240], image[1 << 20];
static size_t size;
static int wrong;

static void must(int answer) { wrong += answer != ONEFILE_DONE; }

/* Fills the map with 480 keys, and reads them in all ways. */
static void calls(void) {
  static const char text[] = "next 3; drop-below 3000; first; count; push 1 1; pop 1; len 1";
  uint64_t words[ONEFILE_MOST_INSTRS];
  must(onefile_enrol(&memory, 3));
  for (uint32_t key = 0; key < 480; key++) {
    words[key % ONEFILE_MOST_INSTRS] = onefile_put(32 * key, key);
    if (key % ONEFILE_MOST_INSTRS < ONEFILE_MOST_INSTRS - 1) continue;
    must(onefile_call(&memory, 3, words, ONEFILE_MOST_INSTRS, &reply));
  }
  must(onefile_call_text(&memory, 3, text, sizeof text - 1, &reply));
  onefile_call_text_within(&memory, 3, "add 0 1", 7, 3, &reply);
  must(onefile_go_on(&memory, 3, ONEFILE_NO_END, &reply));
  must(onefile_leave(&memory, 3));
}

static void *all(void *unused) {
  must(onefile_open(&memory, 16, 512, ONEFILE_GREATEST_LIMIT));
  calls();
  must(onefile_close(&memory, &saved));
  must(onefile_last_reply(&saved, 3, &reply));
  must(onefile_image(&saved, image, sizeof image, &size));
  must(onefile_from_image(&read_again, image, size));
  must(onefile_reopen(&memory, &read_again));
  must(onefile_free(&memory));
  must(onefile_free_saved(&saved));
  must(onefile_open_file(&memory, path, 16, 512, ONEFILE_GREATEST_LIMIT));
  calls();
  must(onefile_free(&memory));
  must(onefile_reopen_file(&memory, path, ONEFILE_GREATEST_LIMIT, &saved));
  must(onefile_free(&memory));
  must(onefile_free_saved(&saved));
  must(onefile_free_saved(&read_again));
  for (int i = 0; i < 2; i++) { /* recovered, and made */
    must(onefile_share_file(&memory, path, 16, 512, ONEFILE_GREATEST_LIMIT));
    calls();
    must(onefile_close(&memory, NULL));
    if (i == 0) must(unlink(path));
  }
  return unused;
}

int main(int argc, char **argv) {
  pthread_attr_t how;
  pthread_t thread;
  snprintf(path, sizeof path, "%s/onefile-stack.%d", argc > 1 ? argv[1] : "/tmp", (int)getpid());
  pthread_attr_init(&how);
  must(pthread_attr_setstacksize(&how, STACK));
  must(pthread_create(&thread, &how, all, NULL));
  must(pthread_join(thread, NULL));
  must(unlink(path));
  printf("on a stack of %d KB: %d wrong\n", STACK >> 10, wrong);
  return wrong != 0;
}
