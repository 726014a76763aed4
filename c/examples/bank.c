/* bank.c: four threads move money between four registers, one caller is stopped, the memory is
 * closed and goes on from its text. What it prints is the same however the threads run. */
#include "onefile.h"

#include <pthread.h>
#include <stdio.h>
#include <stdlib.h>

enum { CALLERS = 4, EACH = 1000, CALLS = 2000 };

static onefile_memory bank = ONEFILE_NONE;

/* Ends the program if an answer is another one. */
static void expect(int answer, int wanted, const char *what) {
  if (answer == wanted) return;
  printf("%s: %s\n", what, onefile_name(answer));
  exit(1);
}

/* Each thread has the caller of its own number: it moves 1 to the next register, again and again. */
static void *work(void *number_of) {
  uint32_t number = *(uint32_t *)number_of;
  uint64_t move[] = {onefile_sub(number, 1), onefile_add((number + 1) % CALLERS, 1)};
  onefile_reply reply;
  for (int i = 0; i < CALLS; i++) {
    expect(onefile_call(&bank, number, move, 2, &reply), ONEFILE_DONE, "move");
    if (reply.cause != 0 && reply.cause != ONEFILE_CAUSE_SHORT) expect(-1, 0, "cause");
  }
  return NULL;
}

static uint32_t sum_of(onefile_saved *saved) {
  uint32_t sum = 0, value = 0;
  for (uint32_t i = 0; i < CALLERS; i++) {
    expect(onefile_register(saved, i, &value), ONEFILE_DONE, "register");
    sum += value;
  }
  return sum;
}

static void enrol_all(void) {
  for (uint32_t i = 0; i < CALLERS; i++) expect(onefile_enrol(&bank, i), ONEFILE_DONE, "enrol");
}

static void leave_all(void) {
  for (uint32_t i = 0; i < CALLERS; i++) expect(onefile_leave(&bank, i), ONEFILE_DONE, "leave");
}

/* What was saved as its text, which a file could keep, and again from the text. */
static void through_text(onefile_saved *saved) {
  size_t length = 0;
  expect(onefile_image(saved, NULL, 0, &length), ONEFILE_NO_ROOM, "length");
  char *text = malloc(length);
  if (!text) expect(ONEFILE_NO_MEMORY, ONEFILE_DONE, "text");
  expect(onefile_image(saved, text, length, &length), ONEFILE_DONE, "image");
  expect(onefile_free_saved(saved), ONEFILE_DONE, "free");
  expect(onefile_from_image(saved, text, length), ONEFILE_DONE, "from image");
  free(text);
}

int main(void) {
  onefile_saved saved = ONEFILE_NONE;
  onefile_reply reply;
  pthread_t threads[CALLERS];
  uint32_t numbers[CALLERS], ticket = 0;

  expect(onefile_open(&bank, CALLERS, 16, ONEFILE_GREATEST_LIMIT), ONEFILE_DONE, "open");
  enrol_all();
  uint64_t fill[CALLERS];
  for (uint32_t i = 0; i < CALLERS; i++) fill[i] = onefile_store(i, EACH);
  expect(onefile_call(&bank, 0, fill, CALLERS, &reply), ONEFILE_DONE, "fill");
  for (uint32_t i = 0; i < CALLERS; i++) {
    numbers[i] = i;
    pthread_create(&threads[i], NULL, work, &numbers[i]);
  }
  for (uint32_t i = 0; i < CALLERS; i++) pthread_join(threads[i], NULL);
  printf("%d calls of %d threads\n", CALLERS * CALLS, CALLERS);

  /* Caller 3 is stopped as soon as its call is announced, and never goes on. */
  static const char late[] = "put 7 70; push 2 5; len 2";
  int answer = onefile_call_text_within(&bank, 3, late, sizeof late - 1, 12, &reply);
  printf("caller 3: %s at step %u\n", onefile_name(answer), (unsigned)reply.steps);
  expect(onefile_call_text(&bank, 0, "add 9 1", 7, &reply), ONEFILE_DONE, "add");
  leave_all();
  expect(onefile_close(&bank, &saved), ONEFILE_DONE, "close");
  printf("the sum is %u\n", sum_of(&saved));

  /* The next life comes from the text. It asks what the last call of caller 3 came to. */
  through_text(&saved);
  expect(onefile_reopen(&bank, &saved), ONEFILE_DONE, "reopen");
  expect(onefile_last_reply(&saved, 3, &reply), ONEFILE_DONE, "last reply");
  printf("caller 3: call %u was answered, and the queue has %u\n", reply.ticket, reply.values[2]);
  expect(onefile_free_saved(&saved), ONEFILE_DONE, "free");
  enrol_all();
  expect(onefile_go_on(&bank, 3, ONEFILE_NO_END, &reply), ONEFILE_NO_CALL, "go on");
  uint64_t look[] = {onefile_get(7), onefile_pop(2)};
  expect(onefile_call(&bank, 3, look, 2, &reply), ONEFILE_DONE, "look");
  printf("key 7 has %u, and the queue had %u\n", reply.values[0], reply.values[1]);
  leave_all();
  expect(onefile_close(&bank, &saved), ONEFILE_DONE, "close");
  expect(onefile_ticket(&saved, 3, &ticket), ONEFILE_DONE, "ticket");
  printf("caller 3 has made %u calls\n", ticket);
  printf("the sum is %u\n", sum_of(&saved));
  expect(onefile_free_saved(&saved), ONEFILE_DONE, "free");
  return 0;
}
