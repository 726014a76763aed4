/* processes.c: transfers between accounts by several processes at once: processes KIND WORKERS
 * MILLISECONDS [stop|kill]. KIND is one of:
 *   shared   processes share a file of the library
 *   threads  threads of one process, on a memory in a file
 *   robust   processes, with a robust process-shared mutex around the accounts, and an undo log:
 *            who gets the lock of a dead process undoes its transfer
 * It prints how many calls were made in a second. With `stop` worker 0 stops itself (SIGSTOP) in
 * the middle of its calls, for 50 ms each, and it prints how many calls the others made meanwhile.
 * With `kill` it kills itself there and another process comes in its place, and it prints how long
 * each of the others was without an answer after that: the median and the most, in microseconds. */
#define _GNU_SOURCE
#include "onefile.h"

#include <errno.h>
#include <pthread.h>
#include <signal.h>
#include <stdatomic.h>
#include <stdio.h>
#include <stdlib.h>
#include <string.h>
#include <sys/mman.h>
#include <sys/prctl.h>
#include <sys/wait.h>
#include <time.h>
#include <unistd.h>

enum { ACCOUNTS = 8, MONEY = 100000000, MOST = 16, MOST_WAITS = 4096, MIDDLE = 20, LINE = 64 };
enum { RUN, STOP, KILL };
enum { SHARED, THREADS, ROBUST };

/* What all processes see. */
typedef struct board {
  struct {
    _Atomic uint64_t calls;
    char apart[LINE];
  } lanes[MOST];
  _Atomic int ready, go, end;
  _Atomic uint64_t since;  /* when the last worker stopped or was killed */
  _Atomic uint32_t deaths; /* how many were */
  _Atomic uint32_t waits;
  uint64_t waited[MOST_WAITS];
  pthread_mutex_t lock;
  volatile uint32_t accounts[ACCOUNTS], changed, undo[2][2];
} board;

static board *all;
static onefile_memory memory = ONEFILE_NONE;
static char path[64];
static int kind, mode;
static uint32_t workers;

static void expect(int holds, const char *what) {
  if (holds) return;
  fprintf(stderr, "processes: %s (%s)\n", what, strerror(errno));
  exit(1);
}

static uint64_t now(void) {
  struct timespec time;
  clock_gettime(CLOCK_MONOTONIC, &time);
  return (uint64_t)time.tv_sec * 1000000000u + (uint64_t)time.tv_nsec;
}

static void sleep_for(uint64_t ns) {
  struct timespec time = {(time_t)(ns / 1000000000u), (long)(ns % 1000000000u)};
  nanosleep(&time, NULL);
}

/* Worker 0 is in the middle of its call: it stops or dies there, as asked. */
static void in_the_middle(void) {
  atomic_store(&all->since, now());
  atomic_fetch_add(&all->deaths, 1);
  kill(getpid(), mode == KILL ? SIGKILL : SIGSTOP);
}

/* ---- One transfer. */

static void by_memory(uint32_t number, uint32_t from, int is_victim) {
  uint64_t script[] = {onefile_sub(from, 1), onefile_add((from + 1) % ACCOUNTS, 1)};
  onefile_reply reply;
  if (!is_victim) {
    expect(onefile_call(&memory, number, script, 2, &reply) == ONEFILE_DONE, "call");
    return;
  }
  int answer = onefile_call_within(&memory, number, script, 2, MIDDLE, &reply);
  if (answer != ONEFILE_STOPPED) return;
  in_the_middle();
  answer = onefile_go_on(&memory, number, ONEFILE_NO_END, &reply);
  expect(answer == ONEFILE_DONE, "go on");
}

static void take_lock(void) {
  int answer = pthread_mutex_lock(&all->lock);
  if (answer == EOWNERDEAD) {
    for (; all->changed > 0; all->changed--) {
      all->accounts[all->undo[all->changed - 1][0]] = all->undo[all->changed - 1][1];
    }
    answer = pthread_mutex_consistent(&all->lock);
  }
  expect(answer == 0, "lock");
}

static void set(uint32_t account, uint32_t value) {
  all->undo[all->changed][0] = account;
  all->undo[all->changed][1] = all->accounts[account];
  all->changed++;
  all->accounts[account] = value;
}

static void by_lock(uint32_t from, int is_victim) {
  uint32_t to = (from + 1) % ACCOUNTS;
  take_lock();
  set(from, all->accounts[from] - 1);
  if (is_victim) in_the_middle();
  set(to, all->accounts[to] + 1);
  all->changed = 0;
  pthread_mutex_unlock(&all->lock);
}

/* ---- Workers. */

/* Makes transfers, as the worker in a lane. After a death it tells how long it was without an
 * answer. */
static void transfer(uint32_t lane, uint32_t number) {
  int is_victim = mode != RUN && lane == 0;
  uint32_t seen = atomic_load(&all->deaths), from = number;
  atomic_fetch_add(&all->ready, 1);
  while (!atomic_load(&all->go)) sleep_for(100000);
  if (is_victim) sleep_for(10000000);
  while (!atomic_load_explicit(&all->end, memory_order_relaxed)) {
    from = (from + 1) % ACCOUNTS;
    if (kind == ROBUST) by_lock(from, is_victim);
    else by_memory(number, from, is_victim);
    atomic_fetch_add_explicit(&all->lanes[lane].calls, 1, memory_order_relaxed);
    uint32_t deaths = atomic_load_explicit(&all->deaths, memory_order_relaxed);
    if (deaths == seen) continue;
    seen = deaths;
    uint32_t at = atomic_fetch_add(&all->waits, 1);
    if (at < MOST_WAITS) all->waited[at] = now() - atomic_load(&all->since);
  }
}

static void *work_in_thread(void *lane) {
  uint32_t number = (uint32_t)(uintptr_t)lane;
  transfer(number, number);
  return NULL;
}

/* A process, whose number is its lane if none was killed before it. */
static pid_t start_process(uint32_t lane, uint32_t number) {
  pid_t child = fork();
  expect(child >= 0, "fork");
  if (child != 0) return child;
  prctl(PR_SET_PDEATHSIG, SIGKILL);
  if (kind == SHARED) {
    int answer = onefile_share_file(&memory, path, MOST, 0, ONEFILE_GREATEST_LIMIT);
    expect(answer == ONEFILE_DONE, onefile_name(answer));
    expect(onefile_enrol(&memory, number) == ONEFILE_DONE, "enrol");
  }
  transfer(lane, number);
  _exit(0);
}

/* ---- The store. */

static void fill_memory(void) {
  onefile_reply reply;
  uint64_t fill[ACCOUNTS];
  for (uint32_t i = 0; i < ACCOUNTS; i++) fill[i] = onefile_store(i, MONEY);
  expect(onefile_enrol(&memory, MOST - 1) == ONEFILE_DONE, "enrol");
  expect(onefile_call(&memory, MOST - 1, fill, ACCOUNTS, &reply) == ONEFILE_DONE, "fill");
  expect(onefile_leave(&memory, MOST - 1) == ONEFILE_DONE, "leave");
}

static void open_store(void) {
  int may = PROT_READ | PROT_WRITE;
  all = mmap(NULL, sizeof *all, may, MAP_SHARED | MAP_ANONYMOUS, -1, 0);
  expect(all != MAP_FAILED, "mmap");
  pthread_mutexattr_t robust;
  pthread_mutexattr_init(&robust);
  pthread_mutexattr_setpshared(&robust, PTHREAD_PROCESS_SHARED);
  pthread_mutexattr_setrobust(&robust, PTHREAD_MUTEX_ROBUST);
  pthread_mutex_init(&all->lock, &robust);
  for (int i = 0; i < ACCOUNTS; i++) all->accounts[i] = MONEY;
  if (kind == ROBUST) return;
  int answer = kind == SHARED ? onefile_share_file(&memory, path, MOST, 0, ONEFILE_GREATEST_LIMIT)
                              : onefile_open_file(&memory, path, MOST, 0, ONEFILE_GREATEST_LIMIT);
  expect(answer == ONEFILE_DONE, onefile_name(answer));
  fill_memory();
  if (kind == SHARED) expect(onefile_close(&memory, NULL) == ONEFILE_DONE, "close");
}

/* All the money is there. */
static void judge(void) {
  onefile_saved saved = ONEFILE_NONE;
  uint64_t sum = 0;
  if (kind == THREADS) onefile_free(&memory);
  if (kind == ROBUST) {
    take_lock();
    for (int i = 0; i < ACCOUNTS; i++) sum += all->accounts[i];
  } else {
    int answer = onefile_reopen_file(&memory, path, ONEFILE_GREATEST_LIMIT, &saved);
    expect(answer == ONEFILE_DONE, onefile_name(answer));
    for (uint32_t i = 0, value = 0; i < ACCOUNTS; i++, sum += value) {
      onefile_register(&saved, i, &value);
    }
    onefile_free(&memory);
    unlink(path);
  }
  expect(sum == (uint64_t)ACCOUNTS * MONEY, "money is lost");
}

static uint64_t calls_of_others(void) {
  uint64_t sum = 0;
  for (uint32_t i = 1; i < workers; i++) sum += atomic_load(&all->lanes[i].calls);
  return sum;
}

/* ---- What is measured. */

static void run_for(uint64_t ns) {
  uint64_t before = now(), calls = 0;
  sleep_for(ns);
  for (uint32_t i = 0; i < workers; i++) calls += atomic_load(&all->lanes[i].calls);
  printf("%.0f calls a second\n", (double)calls * 1e9 / (double)(now() - before));
}

/* Worker 0 is stopped again and again. Who is in a call that was begun before has 5 ms for it. */
static void stop_for(uint64_t ns, pid_t victim) {
  uint64_t end = now() + ns, made = 0;
  uint32_t stops = 0, none = 0;
  while (now() < end) {
    int status = 0;
    expect(waitpid(victim, &status, WUNTRACED) == victim && WIFSTOPPED(status), "stop");
    sleep_for(5000000);
    uint64_t before = calls_of_others();
    sleep_for(45000000);
    uint64_t calls = calls_of_others() - before;
    made += calls;
    none += calls == 0;
    stops++;
    kill(victim, SIGCONT);
  }
  printf("%.0f calls of the others in 45 ms of a stop, none in %u of %u stops\n",
         (double)made / stops, none, stops);
}

static int is_less(const void *one, const void *other) {
  uint64_t a = *(const uint64_t *)one, b = *(const uint64_t *)other;
  return (a > b) - (a < b);
}

/* Worker 0 kills itself, and another one comes with the next number, as long as there are. */
static void kill_for(uint64_t ns, pid_t *victim) {
  uint64_t end = now() + ns;
  uint32_t next = workers;
  while (now() < end && next < MOST - 1) {
    int status = 0;
    expect(waitpid(*victim, &status, 0) == *victim && WIFSIGNALED(status), "kill");
    sleep_for(5000000);
    *victim = start_process(0, next++);
  }
  sleep_for(50000000);
  uint32_t count = atomic_load(&all->waits);
  if (count > MOST_WAITS) count = MOST_WAITS;
  expect(count > 0, "no death");
  qsort(all->waited, count, sizeof *all->waited, is_less);
  printf("%.1f us without an answer in the middle of %u, %.1f at most\n",
         (double)all->waited[count / 2] / 1e3, count, (double)all->waited[count - 1] / 1e3);
}

static int index_of(const char *word, const char *const *words, int count) {
  int at = 0;
  while (at < count && strcmp(word, words[at]) != 0) at++;
  expect(at < count, "usage: processes shared|threads|robust WORKERS MILLISECONDS [stop|kill]");
  return at;
}

int main(int argc, char **argv) {
  static const char *const kinds[] = {"shared", "threads", "robust"};
  static const char *const modes[] = {"run", "stop", "kill"};
  pid_t processes[MOST] = {0};
  pthread_t threads[MOST];
  expect(argc == 4 || argc == 5, "three or four words");
  kind = index_of(argv[1], kinds, 3);
  workers = (uint32_t)atoi(argv[2]);
  mode = argc == 5 ? index_of(argv[4], modes, 3) : RUN;
  uint64_t ns = (uint64_t)atoi(argv[3]) * 1000000u;
  expect(workers >= 1 && workers < MOST && !(kind == THREADS && mode != RUN), "so many workers");
  snprintf(path, sizeof path, "/dev/shm/onefile-processes.%d", (int)getpid());
  open_store();
  for (uint32_t i = 0; i < workers; i++) {
    if (kind != THREADS) processes[i] = start_process(i, i);
    else expect(onefile_enrol(&memory, i) == ONEFILE_DONE, "enrol");
  }
  for (uint32_t i = 0; kind == THREADS && i < workers; i++) {
    pthread_create(&threads[i], NULL, work_in_thread, (void *)(uintptr_t)i);
  }
  while (atomic_load(&all->ready) < (int)workers) sleep_for(100000);
  atomic_store(&all->go, 1);
  if (mode == RUN) run_for(ns);
  if (mode == STOP) stop_for(ns, processes[0]);
  if (mode == KILL) kill_for(ns, &processes[0]);
  atomic_store(&all->end, 1);
  for (uint32_t i = 0; i < workers; i++) {
    if (kind == THREADS) pthread_join(threads[i], NULL);
    else if (mode != RUN) kill(processes[i], SIGKILL);
    if (kind != THREADS) waitpid(processes[i], NULL, 0);
  }
  judge();
  return 0;
}
