/* jobs.c: four workers do the jobs of one queue, one worker is stopped in the middle of a call,
 * and the workers of the next life go on. No job is lost, and none is done twice. What it prints is
 * the same however the threads run.
 *
 * A worker ends its job and takes the next one in one call: `put` keeps the result at the key of
 * the job, `add` counts it, `pop` answers the next job. So the reply to a worker's last call says
 * which job it has, and the memory keeps that reply. */
#include "onefile.h"

#include <pthread.h>
#include <stdio.h>
#include <stdlib.h>

enum { WORKERS = 4, JOBS = 200, EACH = 30, JOBS_QUEUE = 0, NO_JOB = 0 };

typedef struct worker {
  uint32_t number;
  uint32_t job;   /* the job that it has, or NO_JOB */
  uint32_t most;  /* how many jobs it ends before it goes home */
  int is_stopped; /* whether it is stopped in the call that would end the last of them */
} worker;

static onefile_memory memory = ONEFILE_NONE;

/* Ends the program if an answer is another one. */
static void expect(int answer, int wanted, const char *what) {
  if (answer == wanted) return;
  printf("%s: %s\n", what, onefile_name(answer));
  exit(1);
}

static uint32_t result_of(uint32_t job) { return job * job + 1; }

/* The job that a call took: its last instruction is the `pop`. */
static uint32_t job_of(const onefile_reply *reply) {
  uint32_t last = reply->len - 1;
  return reply->given[last] ? reply->values[last] : NO_JOB;
}

/* Takes a first job, if the worker has none. */
static void take_first(worker *one) {
  uint64_t take[] = {onefile_pop(JOBS_QUEUE)};
  onefile_reply reply;
  if (one->job != NO_JOB) return;
  expect(onefile_call(&memory, one->number, take, 1, &reply), ONEFILE_DONE, "take");
  one->job = job_of(&reply);
}

/* Does jobs until there are none, or until it has done enough. */
static void *work(void *worker_of) {
  worker *one = worker_of;
  onefile_reply reply;
  take_first(one);
  for (uint32_t done = 1; one->job != NO_JOB && done <= one->most; done++) {
    uint64_t next[] = {onefile_put(one->job, result_of(one->job)), onefile_add(one->number, 1),
                       onefile_pop(JOBS_QUEUE)};
    uint64_t steps = one->is_stopped && done == one->most ? 12 : ONEFILE_NO_END;
    int wanted = steps == ONEFILE_NO_END ? ONEFILE_DONE : ONEFILE_STOPPED;
    expect(onefile_call_within(&memory, one->number, next, 3, steps, &reply), wanted, "work");
    if (wanted == ONEFILE_STOPPED) break;
    expect((int)reply.cause, 0, "cause");
    expect((int)reply.given[0], 0, "the job was done before");
    one->job = job_of(&reply);
  }
  return NULL;
}

static void work_all(worker *workers) {
  pthread_t threads[WORKERS];
  for (int i = 0; i < WORKERS; i++) pthread_create(&threads[i], NULL, work, &workers[i]);
  for (int i = 0; i < WORKERS; i++) pthread_join(threads[i], NULL);
}

static void push_jobs(void) {
  onefile_reply reply;
  for (uint32_t job = 1; job <= JOBS; job++) {
    uint64_t push[] = {onefile_push(JOBS_QUEUE, job)};
    expect(onefile_call(&memory, 0, push, 1, &reply), ONEFILE_DONE, "push");
  }
}

static void enrol_all(void) {
  for (uint32_t i = 0; i < WORKERS; i++) expect(onefile_enrol(&memory, i), ONEFILE_DONE, "enrol");
}

static void close_all(onefile_saved *saved) {
  for (uint32_t i = 0; i < WORKERS; i++) expect(onefile_leave(&memory, i), ONEFILE_DONE, "leave");
  expect(onefile_close(&memory, saved), ONEFILE_DONE, "close");
}

/* What was saved as its text, which a file could keep, and again from the text. */
static void through_text(onefile_saved *saved) {
  static char text[1 << 18];
  size_t length = 0;
  expect(onefile_image(saved, text, sizeof text, &length), ONEFILE_DONE, "image");
  expect(onefile_free_saved(saved), ONEFILE_DONE, "free");
  expect(onefile_from_image(saved, text, length), ONEFILE_DONE, "from image");
}

/* The job that a worker had in the last life. */
static uint32_t job_in(onefile_saved *saved, uint32_t number) {
  onefile_reply reply;
  expect(onefile_last_reply(saved, number, &reply), ONEFILE_DONE, "last reply");
  return job_of(&reply);
}

/* How many jobs have their result. */
static uint32_t jobs_done(onefile_saved *saved) {
  uint32_t value = 0, done = 0;
  for (uint32_t job = 1; job <= JOBS; job++) {
    if (onefile_key(saved, job, &value) == ONEFILE_DONE && value == result_of(job)) done++;
  }
  return done;
}

/* How many jobs the workers have counted. */
static uint32_t jobs_counted(onefile_saved *saved) {
  uint32_t value = 0, sum = 0;
  for (uint32_t i = 0; i < WORKERS; i++) {
    expect(onefile_register(saved, i, &value), ONEFILE_DONE, "register");
    sum += value;
  }
  return sum;
}

int main(void) {
  onefile_saved saved = ONEFILE_NONE;
  worker workers[WORKERS];

  expect(onefile_open(&memory, WORKERS, JOBS, ONEFILE_GREATEST_LIMIT), ONEFILE_DONE, "open");
  enrol_all();
  push_jobs();
  for (uint32_t i = 0; i < WORKERS; i++) workers[i] = (worker){i, NO_JOB, EACH, i == 3};
  work_all(workers);
  close_all(&saved);
  uint32_t done = jobs_done(&saved);
  printf("%d jobs, and worker 3 was stopped\n", JOBS);
  printf("those that are done: %s\n", done == jobs_counted(&saved) ? "each once" : "not each once");

  /* The next life comes from the text. Each worker asks which job it has. */
  through_text(&saved);
  expect(onefile_reopen(&memory, &saved), ONEFILE_DONE, "reopen");
  enrol_all();
  for (uint32_t i = 0; i < WORKERS; i++) workers[i] = (worker){i, job_in(&saved, i), JOBS, 0};
  expect(onefile_free_saved(&saved), ONEFILE_DONE, "free");
  work_all(workers);
  close_all(&saved);
  printf("%u jobs are done, and %u were counted\n", jobs_done(&saved), jobs_counted(&saved));
  expect(onefile_free_saved(&saved), ONEFILE_DONE, "free");
  return 0;
}
