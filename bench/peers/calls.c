/* calls.c: transfers between sixteen accounts from C, by a thread for each caller: calls KIND
 * CALLERS COUNT. KIND is one of:
 *   memory  a memory of the library
 *   file    one in a mapped file
 *   mutex   a pthread_mutex_t around the accounts
 *   log     the same with a redo log: the changes are written to it, it is marked as whole, they
 *           are made, and it is marked as made
 * It prints what the accounts have, and how many calls were made. */
#define _GNU_SOURCE
#include "onefile.h"

#include <pthread.h>
#include <stdatomic.h>
#include <stdio.h>
#include <stdlib.h>
#include <string.h>
#include <unistd.h>

enum { ACCOUNTS = 16, MONEY = 100000000, LINE = 64 };

typedef int transfer(uint32_t caller, uint32_t from, uint32_t to);

typedef struct clerk {
  uint32_t number, count, made;
  transfer *one;
} clerk;

static onefile_memory memory = ONEFILE_NONE;

/* What the lock is around. The words of the log are volatile, so that they are written in order. */
static struct {
  pthread_mutex_t lock;
  volatile uint32_t accounts[ACCOUNTS];
  _Alignas(LINE) volatile uint32_t whole, log[4];
} plain = {.lock = PTHREAD_MUTEX_INITIALIZER};

static void expect(int holds, const char *what) {
  if (holds) return;
  fprintf(stderr, "calls: %s\n", what);
  exit(1);
}

static int by_memory(uint32_t caller, uint32_t from, uint32_t to) {
  uint64_t script[] = {onefile_sub(from, 1), onefile_add(to, 1)};
  onefile_reply reply;
  return onefile_call(&memory, caller, script, 2, &reply) == ONEFILE_DONE && reply.cause == 0;
}

static int by_mutex(uint32_t caller, uint32_t from, uint32_t to) {
  (void)caller;
  pthread_mutex_lock(&plain.lock);
  int has_money = plain.accounts[from] > 0;
  if (has_money) {
    plain.accounts[from]--;
    plain.accounts[to]++;
  }
  pthread_mutex_unlock(&plain.lock);
  return has_money;
}

static int by_log(uint32_t caller, uint32_t from, uint32_t to) {
  (void)caller;
  pthread_mutex_lock(&plain.lock);
  int has_money = plain.accounts[from] > 0;
  if (has_money) {
    plain.log[0] = from;
    plain.log[1] = plain.accounts[from] - 1;
    plain.log[2] = to;
    plain.log[3] = plain.accounts[to] + 1;
    plain.whole = 1;
    plain.accounts[plain.log[0]] = plain.log[1];
    plain.accounts[plain.log[2]] = plain.log[3];
    plain.whole = 0;
  }
  pthread_mutex_unlock(&plain.lock);
  return has_money;
}

static void *work(void *clerk_of) {
  clerk *own = clerk_of;
  for (uint32_t i = 0; i < own->count; i++) {
    uint32_t from = (i + own->number) % ACCOUNTS;
    own->made += (uint32_t)own->one(own->number, from, (from + 1) % ACCOUNTS);
  }
  return NULL;
}

/* Opens the memory, in a file if there is a path, and fills the accounts. */
static void begin(const char *path, uint32_t callers) {
  onefile_reply reply;
  uint64_t fill[ACCOUNTS];
  for (uint32_t i = 0; i < ACCOUNTS; i++) fill[i] = onefile_store(i, MONEY);
  int answer = path ? onefile_open_file(&memory, path, callers, 0, ONEFILE_GREATEST_LIMIT)
                    : onefile_open(&memory, callers, 0, ONEFILE_GREATEST_LIMIT);
  expect(answer == ONEFILE_DONE, onefile_name(answer));
  for (uint32_t i = 0; i < callers; i++) expect(onefile_enrol(&memory, i) == 0, "enrol");
  expect(onefile_call(&memory, 0, fill, ACCOUNTS, &reply) == ONEFILE_DONE, "fill");
}

static uint64_t end(const char *path, uint32_t callers) {
  onefile_saved saved = ONEFILE_NONE;
  uint64_t sum = 0;
  for (uint32_t i = 0; i < callers; i++) expect(onefile_leave(&memory, i) == 0, "leave");
  expect(onefile_close(&memory, &saved) == ONEFILE_DONE, "close");
  for (uint32_t i = 0; i < ACCOUNTS; i++) {
    uint32_t value = 0;
    expect(onefile_register(&saved, i, &value) == ONEFILE_DONE, "register");
    sum += value;
  }
  onefile_free_saved(&saved);
  if (path) unlink(path);
  return sum;
}

int main(int argc, char **argv) {
  static const struct {
    const char *name;
    transfer *one;
  } kinds[] = {{"memory", by_memory}, {"file", by_memory}, {"mutex", by_mutex}, {"log", by_log}};
  transfer *one = NULL;
  for (int i = 0; argc == 4 && i < 4; i++) {
    if (strcmp(kinds[i].name, argv[1]) == 0) one = kinds[i].one;
  }
  expect(one != NULL, "usage: calls memory|file|mutex|log CALLERS COUNT");
  uint32_t callers = (uint32_t)atoi(argv[2]), count = (uint32_t)atoi(argv[3]);
  expect(callers >= 1 && callers <= ONEFILE_MOST_CALLERS, "1 to 16 callers");
  char path[64];
  snprintf(path, sizeof path, "/dev/shm/onefile-calls.%d", (int)getpid());
  const char *file = argv[1][0] == 'f' ? path : NULL;
  if (one == by_memory) begin(file, callers);
  for (int i = 0; i < ACCOUNTS; i++) plain.accounts[i] = MONEY;

  clerk clerks[ONEFILE_MOST_CALLERS];
  pthread_t threads[ONEFILE_MOST_CALLERS];
  for (uint32_t i = 0; i < callers; i++) {
    clerks[i] = (clerk){i, count, 0, one};
    expect(pthread_create(&threads[i], NULL, work, &clerks[i]) == 0, "thread");
  }
  uint64_t sum = 0, made = 0;
  for (uint32_t i = 0; i < callers; i++) {
    pthread_join(threads[i], NULL);
    made += clerks[i].made;
  }
  if (one == by_memory) sum = end(file, callers);
  else for (int i = 0; i < ACCOUNTS; i++) sum += plain.accounts[i];
  printf("%llu calls, the sum is %llu\n", (unsigned long long)made, (unsigned long long)sum);
  return 0;
}
