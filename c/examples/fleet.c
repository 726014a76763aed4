/* fleet.c: a supervisor and its workers are processes that share one file: fleet PATH [COMMAND ..].
 * Workers do jobs; the supervisor kills some of them at random moments, and starts others with
 * their numbers. No job is lost, none is done twice, and the other workers never wait. What it
 * prints is the same whoever is killed.
 *
 * A worker is started as COMMAND PATH NUMBER, by each command in turn. fleet_worker.cc, .py and .rs
 * are workers in other languages. This program is a worker itself if it is given a number; without
 * commands all workers are such ones.
 *
 * A waiting job is a key, whose value is WAITING. A worker asks for the least one and claims it:
 * the key leaves the map, and the job stands at the worker's own key. Its end takes it from there,
 * and puts the result. Each of these is one call, which `need` aborts if things are not so any
 * more.
 *
 * What if a worker is killed? The next one takes its number over. If the dead one's call is open,
 * the new one ends it; a call that isn't open took effect or never will. So the worker's own key
 * says which job the dead one had, and the new one does that job first. */
#define _GNU_SOURCE
#include "onefile.h"

#include <signal.h>
#include <stdio.h>
#include <stdlib.h>
#include <string.h>
#include <sys/prctl.h>
#include <sys/wait.h>
#include <time.h>
#include <unistd.h>

enum { BOSS = 0, WORKERS = 4, CALLERS, JOBS = 200, SHIFTS = 2, BLOCKS = 2 * JOBS + 40 };
/* Values and keys. The keys of waiting jobs are the least. */
enum { WAITING = 1, CLAIM = 2000, RESULT = 3000 };
/* Registers. Of the last two each worker has one: how often it came, and how many jobs it did. */
enum { DONE_COUNT = 0, OVER = 1, CAME = 2, DID = CAME + CALLERS };
/* So many nanoseconds take a job, a turn of the supervisor at most, and a look at what is new. */
enum { A_JOB = 4000000, A_TURN = 8000000, A_MOMENT = 500000 };

static onefile_memory memory = ONEFILE_NONE;
static const char *path;

/* Ends the process if an answer is another one. */
static void expect(int answer, int wanted, const char *what) {
  if (answer == wanted) return;
  printf("%s: %s\n", what, onefile_name(answer));
  fflush(stdout);
  _exit(1);
}

static uint32_t result_of(uint32_t job) { return job * job + 1; }

/* Runs a script, and gives whether it took effect. */
static int run(uint32_t number, const uint64_t *script, size_t count, onefile_reply *reply) {
  expect(onefile_call(&memory, number, script, count, reply), ONEFILE_DONE, "call");
  return reply->cause == 0;
}

/* What one instruction answers, or 0. */
static uint32_t answer_to(uint32_t number, uint64_t word) {
  onefile_reply reply;
  run(number, &word, 1, &reply);
  return reply.given[0] ? reply.values[0] : 0;
}

static void have_file(void) {
  expect(onefile_share_file(&memory, path, CALLERS, BLOCKS, ONEFILE_GREATEST_LIMIT), ONEFILE_DONE,
         "share");
}

static void let_go_file(uint32_t number) {
  expect(onefile_leave(&memory, number), ONEFILE_DONE, "leave");
  expect(onefile_close(&memory, NULL), ONEFILE_DONE, "close");
}

static void pause_for(long nanoseconds) {
  struct timespec wait = {0, nanoseconds};
  nanosleep(&wait, NULL);
}

/* ---- A worker. */

/* Enrols with the number of a worker that was killed, perhaps, and ends its open call. */
static void take_over(uint32_t number) {
  onefile_reply reply;
  int answer;
  while ((answer = onefile_enrol(&memory, number)) == ONEFILE_NOT_YET) pause_for(A_MOMENT);
  expect(answer, ONEFILE_DONE, "enrol");
  answer = onefile_go_on(&memory, number, ONEFILE_NO_END, &reply);
  if (answer != ONEFILE_NO_CALL) expect(answer, ONEFILE_DONE, "go on");
}

/* Claims the least job that waits, if there is one. */
static uint32_t claim_job(uint32_t number) {
  onefile_reply reply;
  for (;;) {
    uint32_t job = answer_to(number, onefile_first());
    if (job == 0 || job > JOBS) return 0;
    const uint64_t claim[] = {onefile_need(job, WAITING), onefile_del(job),
                              onefile_put(CLAIM + number, job)};
    if (run(number, claim, 3, &reply)) return job;
  }
}

static void do_job(uint32_t number, uint32_t job) {
  onefile_reply reply;
  pause_for(A_JOB); /* the work */
  const uint64_t end[] = {onefile_need(CLAIM + number, job), onefile_del(CLAIM + number),
                          onefile_add(DONE_COUNT, 1), onefile_add(DID + number, 1),
                          onefile_put(RESULT + job, result_of(job))};
  expect(run(number, end, 5, &reply), 1, "end");
  expect((int)reply.given[4], 0, "the job was done before");
}

/* A worker is killed at any moment, or goes home once all is over. */
static void work(uint32_t number) {
  have_file();
  take_over(number);
  answer_to(number, onefile_add(CAME + number, 1));
  uint32_t job = answer_to(number, onefile_get(CLAIM + number)); /* that the dead one had claimed */
  while (job != 0 || answer_to(number, onefile_load(OVER)) == 0) {
    if (job != 0) do_job(number, job);
    else pause_for(A_MOMENT);
    job = claim_job(number);
  }
  let_go_file(number);
}

/* ---- The supervisor. */

static char **commands;
static uint32_t command_count;
static pid_t workers[CALLERS];
static uint32_t done_before[CALLERS]; /* what a worker's number had done before it was started */

static void start(uint32_t number) {
  char digits[12];
  snprintf(digits, sizeof digits, "%u", number);
  done_before[number] = answer_to(BOSS, onefile_load(DID + number));
  workers[number] = fork();
  if (workers[number] != 0) return;
  prctl(PR_SET_PDEATHSIG, SIGKILL); /* it ends with the supervisor */
  const char *command = commands[(number - 1) % command_count];
  execl("/bin/sh", "sh", "-c", "exec $0 \"$@\"", command, path, digits, (char *)NULL);
  _exit(127);
}

/* Starts another worker for each that was killed. */
static void restart(void) {
  int status = 0;
  for (uint32_t i = 1; i < CALLERS; i++) {
    if (waitpid(workers[i], &status, WNOHANG) == 0) continue;
    expect(WIFSIGNALED(status), 1, "a worker");
    start(i);
  }
}

/* Kills a worker, perhaps: one that has done a job. */
static void kill_one(void) {
  uint32_t victim = 1 + (uint32_t)random() % WORKERS;
  uint32_t has_done = answer_to(BOSS, onefile_load(DID + victim));
  if (has_done > done_before[victim]) kill(workers[victim], SIGKILL);
}

/* Workers are killed and others are started, until so many jobs are done. */
static void supervise(uint32_t wanted) {
  while (answer_to(BOSS, onefile_load(DONE_COUNT)) < wanted) {
    pause_for(random() % A_TURN);
    kill_one();
    restart();
  }
}

/* Starts the workers, and waits until all have come. */
static void start_all(void) {
  for (uint32_t i = 1; i < CALLERS; i++) start(i);
  for (uint32_t i = 1; i < CALLERS; i++) {
    while (answer_to(BOSS, onefile_load(CAME + i)) == 0) {
      pause_for(A_MOMENT);
      restart();
    }
  }
}

/* Tells the workers that all is over, and waits until all have gone home. */
static void end_all(void) {
  int status = 0;
  answer_to(BOSS, onefile_store(OVER, 1));
  for (uint32_t i = 1; i < CALLERS; i++) {
    waitpid(workers[i], &status, 0);
    if (!WIFSIGNALED(status)) expect(WEXITSTATUS(status), 0, "a worker");
  }
}

/* Brings in a half of the jobs. */
static void bring_jobs(uint32_t first) {
  for (uint32_t job = first; job < first + JOBS / SHIFTS; job++) {
    answer_to(BOSS, onefile_put(job, WAITING));
  }
}

/* Says how many jobs have their result, and how many ends were counted. */
static void report(void) {
  uint32_t done = 0, did_some = 0;
  for (uint32_t job = 1; job <= JOBS; job++) {
    done += answer_to(BOSS, onefile_get(RESULT + job)) == result_of(job);
  }
  for (uint32_t i = 1; i < CALLERS; i++) did_some += answer_to(BOSS, onefile_load(DID + i)) > 0;
  printf("%u jobs are done, and %u were counted; %u workers did some\n", done,
         answer_to(BOSS, onefile_load(DONE_COUNT)), did_some);
  fflush(stdout);
}

static void lead(void) {
  have_file();
  expect(onefile_enrol(&memory, BOSS), ONEFILE_DONE, "enrol");
  start_all();
  for (uint32_t shift = 0; shift < SHIFTS; shift++) {
    bring_jobs(1 + shift * (JOBS / SHIFTS));
    supervise((shift + 1) * (JOBS / SHIFTS));
    report();
  }
  end_all();
  let_go_file(BOSS);
}

int main(int argc, char **argv) {
  if (argc < 2) return fprintf(stderr, "usage: fleet PATH [COMMAND ..]\n"), 2;
  path = argv[1];
  uint32_t number = argc == 3 ? (uint32_t)strtoul(argv[2], NULL, 10) : 0;
  commands = argc > 2 ? argv + 2 : argv;
  command_count = argc > 2 ? (uint32_t)argc - 2 : 1;
  if (number > 0 && number < CALLERS) work(number);
  else lead();
  return 0;
}
