/* sequences.c: memories whose sequences come to their end: sequences [FOLDER]. Each caller is told
 * how many are left, and spent calls change nothing. Then the sequences begin anew and the memory
 * goes on: in the process, in a file, and in a file that two processes share. Four threads do so
 * again and again while they work, and none of their calls is spent. */
#define _GNU_SOURCE
#include "onefile.h"

#include <pthread.h>
#include <stdatomic.h>
#include <stdio.h>
#include <stdlib.h>
#include <string.h>
#include <sys/wait.h>
#include <unistd.h>

enum { WORKERS = 4, BLOCKS = 8, LIMIT = 1000, TENTH = LIMIT / 10, LIVES = 5 };

static onefile_memory memory = ONEFILE_NONE, other = ONEFILE_NONE;
static onefile_saved saved = ONEFILE_NONE;
static char path[220];

static void expect(int line, long long came, long long wanted) {
  if (came == wanted) return;
  printf("line %d: %lld in place of %lld\n", line, came, wanted);
  fflush(stdout);
  _Exit(1);
}

#define EXPECT(call, wanted) expect(__LINE__, (call), (wanted))
#define MUST(call) expect(__LINE__, (call), ONEFILE_DONE)

/* Adds 1 to register 0, and gives the answer. */
static int add(onefile_memory *one, uint32_t number, onefile_reply *reply) {
  const uint64_t script[] = {onefile_add(0, 1)};
  return onefile_call(one, number, script, 1, reply);
}

static uint32_t sum(onefile_memory *one, uint32_t number) {
  const uint64_t script[] = {onefile_load(0)};
  onefile_reply reply;
  MUST(onefile_call(one, number, script, 1, &reply));
  return reply.values[0];
}

static uint32_t left(onefile_memory *one, uint32_t number) {
  uint32_t count = LIMIT + 1;
  MUST(onefile_sequences_left(one, number, &count));
  return count;
}

/* Adds until a call is spent, and gives how many were answered. */
static uint32_t use_up(onefile_memory *one, uint32_t number) {
  onefile_reply reply;
  uint32_t count = 0;
  int answer;
  while ((answer = add(one, number, &reply)) == ONEFILE_DONE) {
    EXPECT(left(one, number), LIMIT - reply.seq);
    count++;
  }
  EXPECT(answer, ONEFILE_SPENT);
  EXPECT(reply.seq, LIMIT);
  EXPECT(left(one, number), 0);
  return count;
}

/* ---- One memory. */

/* What can't be done, and changes nothing. */
static void refused(void) {
  uint32_t count = 7;
  EXPECT(onefile_renumber(NULL, &saved), ONEFILE_NULL);
  EXPECT(onefile_renumber(&memory, NULL), ONEFILE_NULL);
  EXPECT(onefile_renumber(&other, &saved), ONEFILE_EMPTY);
  EXPECT(onefile_renumber(&memory, &saved), ONEFILE_IN_USE);
  EXPECT(onefile_sequences_left(NULL, 0, &count), ONEFILE_NULL);
  EXPECT(onefile_sequences_left(&memory, 0, NULL), ONEFILE_NULL);
  EXPECT(onefile_sequences_left(&memory, ONEFILE_MOST_CALLERS, &count), ONEFILE_RANGE);
  EXPECT(onefile_sequences_left(&memory, 3, &count), ONEFILE_EMPTY);
  EXPECT(count, 7);
}

/* Lives of a memory that was just opened, each until its sequences are used up. */
static void live(void) {
  uint32_t total = 0, tickets = 0, ticket;
  onefile_reply reply;
  for (int life = 0; life < LIVES; life++) {
    MUST(onefile_enrol(&memory, 0));
    EXPECT(left(&memory, 0), LIMIT);
    EXPECT(sum(&memory, 0), total);
    uint32_t count = use_up(&memory, 0);
    EXPECT(count, LIMIT);
    total += count;
    EXPECT(sum(&memory, 0), total);
    tickets += count + 3; /* two calls that only read, and one that was spent */
    refused();
    MUST(onefile_enrol(&memory, 1));
    EXPECT(left(&memory, 1), LIMIT); /* it knows of none who has left */
    MUST(onefile_leave(&memory, 0));
    MUST(onefile_leave(&memory, 1));
    MUST(onefile_enrol(&memory, 1));
    EXPECT(left(&memory, 1), 0);
    EXPECT(add(&memory, 1, &reply), ONEFILE_SPENT);
    MUST(onefile_leave(&memory, 1));
    MUST(onefile_renumber(&memory, &saved));
    EXPECT(onefile_renumber(&memory, &saved), ONEFILE_FULL);
    MUST(onefile_ticket(&saved, 0, &ticket));
    EXPECT(ticket, tickets - 2); /* the last one that was answered and has written */
    MUST(onefile_last_reply(&saved, 0, &reply));
    EXPECT(reply.values[0], total);
    tickets = ticket;
    MUST(onefile_free_saved(&saved));
  }
  MUST(onefile_enrol(&memory, 2));
  EXPECT(sum(&memory, 2), LIVES * LIMIT);
  MUST(onefile_leave(&memory, 2));
}

/* ---- Threads that have the sequences begin anew when a tenth is left. */

static pthread_barrier_t all;
static _Atomic int is_late, lives;
static _Atomic uint32_t answered;

static int until(int (*call)(onefile_memory *, uint32_t), uint32_t number) {
  int answer;
  do answer = call(&memory, number);
  while (answer == ONEFILE_BUSY); /* another worker enrols or leaves */
  return answer;
}

static void begin_anew(uint32_t number) {
  MUST(until(onefile_leave, number));
  if (pthread_barrier_wait(&all) == PTHREAD_BARRIER_SERIAL_THREAD) {
    MUST(onefile_renumber(&memory, &saved));
    MUST(onefile_free_saved(&saved));
    is_late = 0;
    lives++;
  }
  pthread_barrier_wait(&all);
  MUST(until(onefile_enrol, number));
}

static void *work(void *number_of) {
  uint32_t number = *(uint32_t *)number_of;
  onefile_reply reply;
  MUST(until(onefile_enrol, number));
  while (lives < LIVES) {
    MUST(add(&memory, number, &reply));
    answered++;
    if (left(&memory, number) <= TENTH) is_late = 1;
    if (is_late) begin_anew(number);
  }
  MUST(until(onefile_leave, number));
  return NULL;
}

/* So many threads on the memory that is open. */
static void serve(void) {
  pthread_t threads[WORKERS];
  uint32_t numbers[WORKERS];
  lives = 0;
  answered = 0;
  MUST(onefile_enrol(&memory, 0));
  uint32_t before = sum(&memory, 0);
  MUST(onefile_leave(&memory, 0));
  pthread_barrier_init(&all, NULL, WORKERS);
  for (uint32_t i = 0; i < WORKERS; i++) {
    numbers[i] = i;
    pthread_create(&threads[i], NULL, work, &numbers[i]);
  }
  for (int i = 0; i < WORKERS; i++) pthread_join(threads[i], NULL);
  pthread_barrier_destroy(&all);
  MUST(onefile_enrol(&memory, 0));
  EXPECT(sum(&memory, 0), before + answered);
  MUST(onefile_leave(&memory, 0));
}

static void in_memory(void) {
  MUST(onefile_open(&memory, WORKERS, BLOCKS, LIMIT));
  live();
  serve();
  MUST(onefile_free(&memory));
}

/* ---- A file. */

static void in_file(void) {
  MUST(onefile_open_file(&memory, path, WORKERS, BLOCKS, LIMIT));
  live();
  serve();
  EXPECT(onefile_reopen_file(&other, path, LIMIT, NULL), ONEFILE_FILE_IN_USE);
  uint32_t total = 0;
  MUST(onefile_enrol(&memory, 0));
  total = sum(&memory, 0);
  MUST(onefile_free(&memory)); /* as after a kill: it was not closed */
  MUST(onefile_reopen_file(&memory, path, LIMIT, NULL));
  MUST(onefile_enrol(&memory, 0));
  EXPECT(left(&memory, 0), LIMIT);
  EXPECT(sum(&memory, 0), total);
  MUST(onefile_leave(&memory, 0));
  EXPECT(unlink(path), 0);
  EXPECT(onefile_renumber(&memory, &saved), ONEFILE_NO_FILE); /* and it is as it was */
  MUST(onefile_enrol(&memory, 0));
  EXPECT(sum(&memory, 0), total);
  MUST(onefile_free(&memory));
}

/* ---- A file that processes share. */

static void take_part(uint32_t *total) {
  MUST(onefile_share_file(&memory, path, WORKERS, BLOCKS, LIMIT));
  uint32_t own = WORKERS;
  MUST(onefile_enrol_any(&memory, &own));
  EXPECT(left(&memory, own), LIMIT);
  *total += use_up(&memory, own);
  MUST(onefile_leave(&memory, own));
}

/* A life of two processes, of which the other one gives how many calls were answered. */
static uint32_t share_a_life(void) {
  uint32_t total = 0, others = 0;
  int ends[2];
  EXPECT(pipe(ends), 0);
  MUST(onefile_share_file(&other, path, WORKERS, BLOCKS, LIMIT)); /* so it is one life */
  pid_t child = fork();
  if (child == 0) {
    onefile_free(&other);
    take_part(&total);
    EXPECT(write(ends[1], &total, sizeof total), sizeof total);
    _Exit(0);
  }
  take_part(&total);
  EXPECT(onefile_renumber(&memory, &saved), ONEFILE_FILE_IN_USE);
  EXPECT(read(ends[0], &others, sizeof others), sizeof others);
  EXPECT(waitpid(child, NULL, 0), child);
  close(ends[0]), close(ends[1]);
  MUST(onefile_close(&memory, NULL));
  MUST(onefile_close(&other, NULL));
  return total + others;
}

static void shared(void) {
  uint32_t own = WORKERS, total = 0;
  for (int life = 0; life < LIVES; life++) {
    uint32_t count = share_a_life();
    EXPECT(count >= LIMIT, 1); /* calls of both may take one sequence */
    total += count;
  }
  MUST(onefile_share_file(&memory, path, WORKERS, BLOCKS, LIMIT));
  MUST(onefile_enrol_any(&memory, &own));
  EXPECT(left(&memory, own), LIMIT);
  EXPECT(sum(&memory, own), total);
  MUST(onefile_free(&memory));
  EXPECT(unlink(path), 0);
}

int main(int argc, char **argv) {
  snprintf(path, sizeof path, "%s/onefile-sequences.%d", argc > 1 ? argv[1] : "/tmp", (int)getpid());
  in_memory();
  printf("in memory: sequences are used up, and begin anew\n");
  in_file();
  printf("in a file: the same\n");
  fflush(stdout);
  shared();
  printf("in a file that two processes share: the same\n");
  return 0;
}
