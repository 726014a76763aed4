/* misuse.c: every misuse that can be tested, and what it is answered. It prints those that are
 * answered otherwise, and how many there were. */
#include "onefile.h"

#include <pthread.h>
#include <stdio.h>
#include <string.h>

static int tried, wrong;

static void expect(int line, int answer, int wanted) {
  tried++;
  if (answer == wanted) return;
  wrong++;
  printf("line %d: %s, not %s\n", line, onefile_name(answer), onefile_name(wanted));
}

#define EXPECT(call, wanted) expect(__LINE__, (call), (wanted))

static onefile_memory memory = ONEFILE_NONE, other = ONEFILE_NONE;
static onefile_saved saved = ONEFILE_NONE, none = ONEFILE_NONE;
static onefile_reply reply;
static uint32_t value;
static uint64_t words[17];
static char image[1 << 14];
static size_t size;

static int text(uint32_t number, const char *script) {
  return onefile_call_text(&memory, number, script, strlen(script), &reply);
}

static int text_within(uint32_t number, const char *script, uint64_t steps) {
  return onefile_call_text_within(&memory, number, script, strlen(script), steps, &reply);
}

/* What the library says of itself: as its header, and with a name for each answer. */
static void names(void) {
  const char *version = ONEFILE_PROVED ? ONEFILE_VERSION : ONEFILE_VERSION " (not proved)";
  expect(__LINE__, strcmp(onefile_version(), version), 0);
  expect(__LINE__, strcmp(onefile_name(ONEFILE_NOT_YET), "ONEFILE_NOT_YET"), 0);
  expect(__LINE__, strcmp(onefile_name(ONEFILE_NOT_YET + 1), "ONEFILE_?"), 0);
  expect(__LINE__, strcmp(onefile_name(-1), "ONEFILE_?"), 0);
}

static void null_pointers(void) {
  EXPECT(onefile_open(NULL, 1, 0, 1), ONEFILE_NULL);
  EXPECT(onefile_reopen(NULL, &saved), ONEFILE_NULL);
  EXPECT(onefile_reopen(&memory, NULL), ONEFILE_NULL);
  EXPECT(onefile_enrol(NULL, 0), ONEFILE_NULL);
  EXPECT(onefile_leave(NULL, 0), ONEFILE_NULL);
  EXPECT(onefile_close(NULL, &saved), ONEFILE_NULL);
  EXPECT(onefile_close(&memory, NULL), ONEFILE_NULL);
  EXPECT(onefile_free(NULL), ONEFILE_NULL);
  EXPECT(onefile_call(NULL, 0, words, 1, &reply), ONEFILE_NULL);
  EXPECT(onefile_call(&memory, 0, NULL, 1, &reply), ONEFILE_NULL);
  EXPECT(onefile_call(&memory, 0, words, 1, NULL), ONEFILE_NULL);
  EXPECT(onefile_call_text(&memory, 0, NULL, 1, &reply), ONEFILE_NULL);
  EXPECT(onefile_go_on(&memory, 0, 1, NULL), ONEFILE_NULL);
  EXPECT(onefile_last_reply_of(NULL, 0, &reply), ONEFILE_NULL);
  EXPECT(onefile_last_reply_of(&memory, 0, NULL), ONEFILE_NULL);
  EXPECT(onefile_register(NULL, 0, &value), ONEFILE_NULL);
  EXPECT(onefile_register(&saved, 0, NULL), ONEFILE_NULL);
  EXPECT(onefile_key(&saved, 0, NULL), ONEFILE_NULL);
  EXPECT(onefile_item(&saved, 0, 0, NULL), ONEFILE_NULL);
  EXPECT(onefile_ticket(&saved, 0, NULL), ONEFILE_NULL);
  EXPECT(onefile_last_reply(&saved, 0, NULL), ONEFILE_NULL);
  EXPECT(onefile_image(NULL, image, sizeof image, &size), ONEFILE_NULL);
  EXPECT(onefile_image(&saved, NULL, 1, &size), ONEFILE_NULL);
  EXPECT(onefile_image(&saved, image, sizeof image, NULL), ONEFILE_NULL);
  EXPECT(onefile_from_image(NULL, image, 0), ONEFILE_NULL);
  EXPECT(onefile_from_image(&saved, NULL, 1), ONEFILE_NULL);
  EXPECT(onefile_free_saved(NULL), ONEFILE_NULL);
}

static void empty_objects(void) {
  EXPECT(onefile_reopen(&memory, &saved), ONEFILE_EMPTY);
  EXPECT(onefile_enrol(&memory, 0), ONEFILE_EMPTY);
  EXPECT(onefile_leave(&memory, 0), ONEFILE_EMPTY);
  EXPECT(onefile_close(&memory, &saved), ONEFILE_EMPTY);
  EXPECT(onefile_free(&memory), ONEFILE_EMPTY);
  EXPECT(text(0, "load 0"), ONEFILE_EMPTY);
  EXPECT(onefile_go_on(&memory, 0, 1, &reply), ONEFILE_EMPTY);
  EXPECT(onefile_last_reply_of(&memory, 0, &reply), ONEFILE_EMPTY);
  EXPECT(onefile_register(&saved, 0, &value), ONEFILE_EMPTY);
  EXPECT(onefile_key(&saved, 0, &value), ONEFILE_EMPTY);
  EXPECT(onefile_item(&saved, 0, 0, &value), ONEFILE_EMPTY);
  EXPECT(onefile_ticket(&saved, 0, &value), ONEFILE_EMPTY);
  EXPECT(onefile_last_reply(&saved, 0, &reply), ONEFILE_EMPTY);
  EXPECT(onefile_image(&saved, image, sizeof image, &size), ONEFILE_EMPTY);
  EXPECT(onefile_free_saved(&saved), ONEFILE_EMPTY);
}

static void numbers(void) {
  EXPECT(onefile_open(&memory, 0, 0, 1), ONEFILE_RANGE);
  EXPECT(onefile_open(&memory, 65, 0, 1), ONEFILE_RANGE);
  EXPECT(onefile_open(&memory, 1, 16777217, 1), ONEFILE_RANGE);
  EXPECT(onefile_open(&memory, 1, 0, 0), ONEFILE_RANGE);
  EXPECT(onefile_open(&memory, 1, 0, 4294967295u), ONEFILE_RANGE);
  EXPECT(onefile_open(&memory, 2, 1, 5), ONEFILE_DONE);
  EXPECT(onefile_open(&memory, 2, 1, 5), ONEFILE_FULL);
  EXPECT(onefile_enrol(&memory, 2), ONEFILE_RANGE);
  EXPECT(onefile_enrol(&memory, 64), ONEFILE_RANGE);
  EXPECT(onefile_leave(&memory, 64), ONEFILE_RANGE);
  EXPECT(onefile_enrol(&memory, 0), ONEFILE_DONE);
  EXPECT(onefile_enrol(&memory, 0), ONEFILE_TAKEN);
  EXPECT(onefile_leave(&memory, 1), ONEFILE_EMPTY);
  EXPECT(text(1, "load 0"), ONEFILE_EMPTY);
  EXPECT(text(64, "load 0"), ONEFILE_RANGE);
  EXPECT(onefile_go_on(&memory, 64, 1, &reply), ONEFILE_RANGE);
  EXPECT(onefile_last_reply_of(&memory, 2, &reply), ONEFILE_RANGE);
  EXPECT(onefile_last_reply_of(&memory, 64, &reply), ONEFILE_RANGE);
  EXPECT(onefile_last_reply_of(&memory, 1, &reply), ONEFILE_ABSENT);
}

static void scripts(void) {
  EXPECT(onefile_call(&memory, 0, words, 0, &reply), ONEFILE_NO_SCRIPT);
  EXPECT(onefile_call(&memory, 0, NULL, 0, &reply), ONEFILE_NO_SCRIPT);
  EXPECT(onefile_call(&memory, 0, words, 1, &reply), ONEFILE_NO_SCRIPT);
  for (int i = 0; i < 17; i++) words[i] = onefile_load(0);
  EXPECT(onefile_call(&memory, 0, words, 17, &reply), ONEFILE_NO_SCRIPT);
  EXPECT(onefile_call(&memory, 0, words, 16, &reply), ONEFILE_DONE);
  words[3] = onefile_len(4);
  EXPECT(onefile_call(&memory, 0, words, 4, &reply), ONEFILE_NO_SCRIPT);
  EXPECT(text(0, ""), ONEFILE_NO_SCRIPT);
  EXPECT(text(0, "load 0; add 16 1"), ONEFILE_NO_SCRIPT);
  if (reply.place != 1) EXPECT((int)reply.place, 1);
  EXPECT(onefile_call_text(&memory, 0, NULL, 0, &reply), ONEFILE_NO_SCRIPT);
  EXPECT(text(0, "add 0 2147483648"), ONEFILE_NO_SCRIPT);
}

static void open_calls(void) {
  EXPECT(onefile_go_on(&memory, 0, 1, &reply), ONEFILE_NO_CALL);
  EXPECT(text_within(0, "add 0 1", 0), ONEFILE_STOPPED);
  EXPECT(text_within(0, "add 0 1", 3), ONEFILE_CALL_OPEN);
  EXPECT(text(0, "load 0"), ONEFILE_CALL_OPEN);
  EXPECT(onefile_go_on(&memory, 0, 3, &reply), ONEFILE_STOPPED);
  EXPECT(onefile_go_on(&memory, 0, ONEFILE_NO_END, &reply), ONEFILE_DONE);
  EXPECT(onefile_go_on(&memory, 0, ONEFILE_NO_END, &reply), ONEFILE_NO_CALL);
}

/* What is told of a number's last call that is held, whoever has the number: this one, which stops
 * after each number of steps, or nobody. It is not told while the call is half done. */
static void last_replies(void) {
  uint32_t waits = 0;
  EXPECT(onefile_open(&other, 2, 0, ONEFILE_GREATEST_LIMIT), ONEFILE_DONE);
  EXPECT(onefile_enrol(&other, 1), ONEFILE_DONE);
  EXPECT(onefile_last_reply_of(&other, 1, &reply), ONEFILE_ABSENT);
  for (uint32_t steps = 0; steps < 60; steps++) {
    int is_done = onefile_call_text_within(&other, 1, "add 0 1", 7, steps, &reply) == ONEFILE_DONE;
    reply = (onefile_reply){.seq = 8, .announced = 9, .steps = 7};
    int answer = onefile_last_reply_of(&other, 1, &reply);
    EXPECT(reply.seq == 8 && reply.announced == 9 && reply.steps == 7, 1);
    if (answer == ONEFILE_NOT_YET) waits++;
    else if (answer == ONEFILE_ABSENT) EXPECT(steps == 0, 1);
    else EXPECT(answer == ONEFILE_DONE && reply.ticket + 1 == 2 * reply.values[0], 1);
    if (answer == ONEFILE_DONE) EXPECT(reply.values[0] - steps <= 1, 1);
    if (!is_done) EXPECT(onefile_go_on(&other, 1, ONEFILE_NO_END, &reply), ONEFILE_DONE);
    EXPECT(onefile_call_text(&other, 1, "load 0", 6, &reply), ONEFILE_DONE); /* is not held */
    EXPECT(onefile_last_reply_of(&other, 1, &reply), ONEFILE_DONE);
    EXPECT(reply.ticket == 2 * steps + 1 && reply.len == 1 && reply.values[0] == steps + 1, 1);
  }
  EXPECT(waits > 0 && waits < 60, 1);
  EXPECT(onefile_leave(&other, 1), ONEFILE_DONE);
  EXPECT(onefile_last_reply_of(&other, 1, &reply), ONEFILE_DONE);
  EXPECT(reply.values[0] == 60, 1);
  EXPECT(onefile_last_reply_of(&other, 0, &reply), ONEFILE_ABSENT);
  EXPECT(onefile_free(&other), ONEFILE_DONE);
}

static void the_end(void) {
  EXPECT(onefile_close(&memory, &saved), ONEFILE_IN_USE);
  EXPECT(text(0, "sub 0 2"), ONEFILE_DONE);
  if (reply.cause != ONEFILE_CAUSE_SHORT) EXPECT((int)reply.cause, ONEFILE_CAUSE_SHORT);
  int answer = ONEFILE_DONE;
  for (int i = 0; i < 6 && answer == ONEFILE_DONE; i++) answer = text(0, "add 1 1");
  EXPECT(answer, ONEFILE_SPENT);
  EXPECT(text(0, "add 1 1"), ONEFILE_SPENT);
  EXPECT(text(0, "load 1"), ONEFILE_DONE);
  EXPECT(onefile_leave(&memory, 0), ONEFILE_DONE);
  EXPECT(onefile_leave(&memory, 0), ONEFILE_EMPTY);
  EXPECT(onefile_close(&memory, &saved), ONEFILE_DONE);
  EXPECT(onefile_close(&memory, &none), ONEFILE_EMPTY);
  EXPECT(onefile_open(&other, 1, 0, 1), ONEFILE_DONE);
  EXPECT(onefile_close(&other, &saved), ONEFILE_FULL);
  EXPECT(onefile_reopen(&other, &saved), ONEFILE_FULL);
  EXPECT(onefile_enrol(&other, 0), ONEFILE_DONE);
  EXPECT(onefile_free(&other), ONEFILE_DONE);
  EXPECT(onefile_call_text(&other, 0, "load 0", 6, &reply), ONEFILE_EMPTY);
}

static void what_was_saved(void) {
  EXPECT(onefile_register(&saved, 16, &value), ONEFILE_RANGE);
  EXPECT(onefile_register(&saved, 0, &value), ONEFILE_DONE);
  if (value != 1) EXPECT((int)value, 1);
  EXPECT(onefile_key(&saved, 2147483648u, &value), ONEFILE_RANGE);
  EXPECT(onefile_key(&saved, 5, &value), ONEFILE_ABSENT);
  EXPECT(onefile_item(&saved, 4, 0, &value), ONEFILE_RANGE);
  EXPECT(onefile_item(&saved, 3, 0, &value), ONEFILE_ABSENT);
  EXPECT(onefile_ticket(&saved, 2, &value), ONEFILE_RANGE);
  EXPECT(onefile_ticket(&saved, 1, &value), ONEFILE_DONE);
  if (value != 0) EXPECT((int)value, 0);
  EXPECT(onefile_last_reply(&saved, 1, &reply), ONEFILE_ABSENT);
  EXPECT(onefile_last_reply(&saved, 2, &reply), ONEFILE_RANGE);
  EXPECT(onefile_last_reply(&saved, 0, &reply), ONEFILE_DONE);
}

/* Reads the image with this sequence in place of its own: no memory has the greatest number. */
static int from_image_at(const char *seq) {
  static char changed[sizeof image + 16];
  const char *at = strstr(image, "\ncell 0 ") + strlen("\ncell 0 "), *rest = strchr(at, ' ');
  int length = snprintf(changed, sizeof changed, "%.*s%s%.*s", (int)(at - image), image, seq,
                        (int)(image + size - rest), rest);
  return onefile_from_image(&saved, changed, (size_t)length);
}

/* What is saved goes through its text. A text that is cut off or empty is none. */
static void images(void) {
  EXPECT(onefile_image(&saved, NULL, 0, &size), ONEFILE_NO_ROOM);
  EXPECT(size > 0 && size <= sizeof image, 1);
  memset(image, '?', sizeof image);
  size_t room = size - 1;
  EXPECT(onefile_image(&saved, image, room, &size), ONEFILE_NO_ROOM);
  EXPECT(size == room + 1 && image[0] == '?', 1);
  EXPECT(onefile_image(&saved, image, sizeof image, &size), ONEFILE_DONE);
  EXPECT(size == room + 1 && image[size - 1] == '\n' && image[size] == '?', 1);
  EXPECT(onefile_from_image(&saved, image, size), ONEFILE_FULL);
  EXPECT(onefile_free_saved(&saved), ONEFILE_DONE);
  EXPECT(onefile_from_image(&saved, image, size / 2), ONEFILE_NO_IMAGE);
  EXPECT(onefile_from_image(&saved, NULL, 0), ONEFILE_NO_IMAGE);
  EXPECT(from_image_at("4294967295"), ONEFILE_NO_IMAGE);
  EXPECT(from_image_at("4294967294"), ONEFILE_DONE);
  EXPECT(onefile_free_saved(&saved), ONEFILE_DONE);
  EXPECT(onefile_from_image(&saved, image, size), ONEFILE_DONE);
  EXPECT(onefile_register(&saved, 0, &value), ONEFILE_DONE);
  EXPECT(value == 1, 1);
}

/* Eight threads use one caller at once: each call is done or BUSY, and every one that was done
 * counts once. */
static void *add_often(void *done_of) {
  uint32_t *done = done_of;
  onefile_reply own;
  for (int i = 0; i < 2000; i++) {
    int answer = onefile_call_text(&other, 0, "add 0 1", 7, &own);
    if (answer == ONEFILE_DONE) ++*done;
    else if (answer != ONEFILE_BUSY) return done;
  }
  return NULL;
}

static void one_caller(void) {
  pthread_t threads[8];
  uint32_t done[8] = {0}, all = 0;
  EXPECT(onefile_free_saved(&saved), ONEFILE_DONE);
  EXPECT(onefile_open(&other, 1, 0, ONEFILE_GREATEST_LIMIT), ONEFILE_DONE);
  EXPECT(onefile_enrol(&other, 0), ONEFILE_DONE);
  for (int i = 0; i < 8; i++) pthread_create(&threads[i], NULL, add_often, &done[i]);
  for (int i = 0; i < 8; i++) {
    void *bad = NULL;
    pthread_join(threads[i], &bad);
    EXPECT(bad != NULL, 0);
    all += done[i];
  }
  EXPECT(onefile_leave(&other, 0), ONEFILE_DONE);
  EXPECT(onefile_close(&other, &saved), ONEFILE_DONE);
  EXPECT(onefile_register(&saved, 0, &value), ONEFILE_DONE);
  EXPECT(value == all, 1);
  EXPECT(onefile_free_saved(&saved), ONEFILE_DONE);
}

int main(void) {
  names();
  null_pointers();
  empty_objects();
  numbers();
  scripts();
  open_calls();
  last_replies();
  the_end();
  what_was_saved();
  images();
  one_caller();
  printf("%d answers, %d wrong\n", tried, wrong);
  return wrong != 0;
}
