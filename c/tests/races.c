/* races.c: sixteen threads enrol callers, make calls, go on with them, ask for last replies, leave,
 * close the memory and reopen it, all at once and by chance: races [COUNT]. Each answer must be one
 * that onefile.h allows there. At the end every call that took effect is there, once, and no other.
 */
#include "onefile.h"

#include <pthread.h>
#include <sched.h>
#include <stdio.h>
#include <stdlib.h>

/* The memory has three callers. A number that is drawn may be one that it has not (NO_CALLER), or
 * one that no memory has. Register ALL counts the calls of all, register n those of caller n. */
enum { THREADS = 16, CALLERS = 3, NO_CALLER = CALLERS, DRAWN = CALLERS + 2, ALL = 15 };

/* A call that took effect, by its number in all: it was answered, or found as its caller's last. */
typedef struct sight {
  uint32_t call;
  int is_answer;
} sight;

/* A thread, with what it has seen. */
typedef struct racer {
  uint32_t state, seen, closes, busy, told;
  sight *sights;
} racer;

static onefile_memory memory = ONEFILE_NONE;
static onefile_saved saved = ONEFILE_NONE;
static unsigned long rounds = 4000;

#define MUST(holds) must((holds), __LINE__, #holds)

static void must(int holds, int line, const char *what) {
  if (holds) return;
  printf("line %d: not %s\n", line, what);
  exit(1);
}

static uint32_t draw(racer *one, uint32_t below) {
  one->state = one->state * 1664525 + 1013904223;
  return (uint32_t)((uint64_t)one->state * below >> 32);
}

#define CODE(name) (1u << ONEFILE_##name)

/* Any function may be BUSY here. A number that no caller may have is out of range for each. */
static int expect(racer *one, uint32_t number, int answer, unsigned allowed) {
  if (number >= ONEFILE_MOST_CALLERS) allowed = CODE(RANGE);
  else if (number >= CALLERS) allowed = CODE(RANGE) | CODE(EMPTY) | CODE(BUSY);
  if (!((allowed | CODE(BUSY)) >> answer & 1)) {
    printf("caller %u: %s\n", number, onefile_name(answer));
    exit(1);
  }
  one->busy += answer == ONEFILE_BUSY;
  return answer;
}

static void take_down(racer *one, uint32_t number, const onefile_reply *reply, int is_answer) {
  MUST(reply->cause == 0 && reply->len == 2 && reply->values[0] <= reply->values[1]);
  MUST(number < CALLERS);
  one->sights[one->seen++] = (sight){reply->values[1], is_answer};
}

/* Makes a call, or stops in it, or goes on with one that any thread has stopped. */
static void call(racer *one, uint32_t number) {
  uint64_t script[] = {onefile_add(number % CALLERS, 1), onefile_add(ALL, 1)};
  uint64_t steps = draw(one, 3) ? ONEFILE_NO_END : draw(one, 60);
  onefile_reply reply;
  int answer;
  if (draw(one, 3)) {
    answer = onefile_call_within(&memory, number, script, 2, steps, &reply);
    expect(one, number, answer, CODE(DONE) | CODE(STOPPED) | CODE(EMPTY) | CODE(CALL_OPEN));
  } else {
    answer = onefile_go_on(&memory, number, steps, &reply);
    expect(one, number, answer, CODE(DONE) | CODE(STOPPED) | CODE(EMPTY) | CODE(NO_CALL));
  }
  if (answer == ONEFILE_DONE) take_down(one, number, &reply, 1);
  else if (answer == ONEFILE_STOPPED) sched_yield();
}

/* Asks for the last reply of a number. All calls are announced, so its ticket counts them. */
static void ask(racer *one, uint32_t number) {
  onefile_reply reply;
  int answer = onefile_last_reply_of(&memory, number, &reply);
  expect(one, number, answer, CODE(DONE) | CODE(EMPTY) | CODE(ABSENT) | CODE(NOT_YET));
  if (answer != ONEFILE_DONE) return;
  take_down(one, number, &reply, 0);
  MUST(reply.ticket == reply.values[0]);
  one->told++;
}

/* What was saved has each caller's calls, as many as its ticket says, and their sum. */
static void look(racer *one) {
  uint32_t calls, ticket, sum = 0;
  onefile_reply reply;
  for (uint32_t i = 0; i < CALLERS; i++) {
    while (onefile_register(&saved, i, &calls) == ONEFILE_BUSY) {}
    while (onefile_ticket(&saved, i, &ticket) == ONEFILE_BUSY) {}
    MUST(calls == ticket);
    sum += calls;
    int answer;
    while ((answer = onefile_last_reply(&saved, i, &reply)) == ONEFILE_BUSY) {}
    MUST(answer == (calls ? ONEFILE_DONE : ONEFILE_ABSENT));
    if (answer == ONEFILE_DONE) take_down(one, i, &reply, 0);
  }
  while (onefile_register(&saved, ALL, &calls) == ONEFILE_BUSY) {}
  MUST(calls == sum);
}

/* Closes the memory. A thread that has done so reopens it, if no other one has, and lets go what
 * was saved: until then the memory can't be closed again. */
static void close_and_reopen(racer *one) {
  unsigned allowed = CODE(DONE) | CODE(EMPTY) | CODE(FULL) | CODE(IN_USE);
  if (expect(one, 0, onefile_close(&memory, &saved), allowed) != ONEFILE_DONE) return;
  int answer;
  one->closes++;
  look(one);
  allowed = CODE(DONE) | CODE(FULL);
  while (expect(one, 0, answer = onefile_reopen(&memory, &saved), allowed) == ONEFILE_BUSY) {}
  while (expect(one, 0, onefile_free_saved(&saved), CODE(DONE)) == ONEFILE_BUSY) {}
}

static void *race(void *racer_of) {
  racer *one = racer_of;
  for (unsigned long i = 0; i < rounds; i++) {
    uint32_t number = draw(one, DRAWN);
    if (number > NO_CALLER) number = ONEFILE_MOST_CALLERS + draw(one, 3);
    switch (draw(one, 20)) {
    case 0: case 1: case 2:
      expect(one, number, onefile_enrol(&memory, number), CODE(DONE) | CODE(EMPTY) | CODE(TAKEN));
      break;
    case 3: case 4:
      expect(one, number, onefile_leave(&memory, number), CODE(DONE) | CODE(EMPTY));
      break;
    case 5: close_and_reopen(one); break;
    case 6:
      expect(one, 0, onefile_reopen(&memory, &saved), CODE(DONE) | CODE(FULL) | CODE(EMPTY));
      break;
    case 7: case 8: ask(one, number); break;
    default: call(one, number);
    }
  }
  return NULL;
}

/* All calls together are those that somebody has seen, and none was answered twice. */
static void compare(const racer *racers, uint32_t all) {
  char *is_seen = calloc(all + 1, 1), *is_answered = calloc(all + 1, 1);
  uint32_t count = 0;
  for (int i = 0; i < THREADS; i++) {
    for (uint32_t j = 0; j < racers[i].seen; j++) {
      sight it = racers[i].sights[j];
      MUST(it.call >= 1 && it.call <= all && !(it.is_answer && is_answered[it.call]));
      count += !is_seen[it.call];
      is_seen[it.call] = 1;
      if (it.is_answer) is_answered[it.call] = 1;
    }
  }
  MUST(count == all);
  free(is_seen);
  free(is_answered);
}

/* Closes the memory for good. Gives how many calls took effect. */
static uint32_t end(racer *one) {
  uint32_t all;
  for (uint32_t i = 0; i < CALLERS; i++) onefile_leave(&memory, i);
  MUST(onefile_close(&memory, &saved) == ONEFILE_DONE);
  look(one);
  MUST(onefile_register(&saved, ALL, &all) == ONEFILE_DONE);
  MUST(onefile_free_saved(&saved) == ONEFILE_DONE);
  return all;
}

int main(int argc, char **argv) {
  pthread_t threads[THREADS];
  racer racers[THREADS];
  uint32_t closes = 0, busy = 0, told = 0;
  if (argc > 1) rounds = strtoul(argv[1], NULL, 10);
  MUST(onefile_open(&memory, CALLERS, 0, ONEFILE_GREATEST_LIMIT) == ONEFILE_DONE);
  for (uint32_t i = 0; i < THREADS; i++) {
    racers[i] = (racer){.state = i, .sights = malloc((rounds + 1) * CALLERS * sizeof(sight))};
    MUST(racers[i].sights != NULL);
    MUST(pthread_create(&threads[i], NULL, race, &racers[i]) == 0);
  }
  for (int i = 0; i < THREADS; i++) pthread_join(threads[i], NULL);
  uint32_t all = end(&racers[0]);
  compare(racers, all);
  for (int i = 0; i < THREADS; i++) {
    closes += racers[i].closes;
    busy += racers[i].busy;
    told += racers[i].told;
    free(racers[i].sights);
  }
  MUST(all > 0 && closes > 0 && told > 0);
  printf("sixteen threads: each answer is one that may come, and each call is there once\n");
  if (argc > 1) {
    printf("%u calls, %u lives, %u last replies, %u times BUSY\n", all, closes + 1, told, busy);
  }
  return 0;
}
