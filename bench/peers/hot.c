/* hot.c: calls from C on a memory that is in the caches, by a thread for each caller: hot KIND WORK
 * CALLERS COUNT. KIND is one of:
 *   memory  a memory of the library
 *   mutex   a pthread_mutex_t around plain arrays
 *   rwlock  a pthread_rwlock_t around the same
 * WORK is one of:
 *   transfer  from one of sixteen registers to another: two instructions that write
 *   read      of one register
 *   gets      of four of 32 keys; a plain array has the number of key k at k
 * It prints how many calls were made. */
#define _GNU_SOURCE
#include "onefile.h"

#include <pthread.h>
#include <stdio.h>
#include <stdlib.h>
#include <string.h>

enum { REGISTERS = 16, KEYS = 32, BLOCKS = 64, MONEY = 100000000, LINE = 64 };
enum { TRANSFER, READ, GETS };

typedef struct clerk {
  uint32_t number, count;
  int (*one)(uint32_t caller, uint32_t i, uint32_t *sum);
  uint32_t made, sum;
} clerk;

static onefile_memory memory = ONEFILE_NONE;
static int kind_of_work;

/* What a lock is around. */
static struct {
  pthread_mutex_t mutex;
  pthread_rwlock_t rwlock;
  _Alignas(LINE) volatile uint32_t registers[REGISTERS], keys[KEYS];
} plain = {.mutex = PTHREAD_MUTEX_INITIALIZER, .rwlock = PTHREAD_RWLOCK_INITIALIZER};

static void expect(int holds, const char *what) {
  if (holds) return;
  fprintf(stderr, "hot: %s\n", what);
  exit(1);
}

static int by_memory(uint32_t caller, uint32_t i, uint32_t *sum) {
  uint64_t script[4];
  size_t length = 0;
  onefile_reply reply;
  if (kind_of_work == TRANSFER) {
    script[length++] = onefile_sub(i % REGISTERS, 1);
    script[length++] = onefile_add((i + 5) % REGISTERS, 1);
  } else if (kind_of_work == READ) {
    script[length++] = onefile_load(i % REGISTERS);
  } else {
    for (uint32_t j = 0; j < 4; j++) script[length++] = onefile_get(8 * j + i % 8);
  }
  int answer = onefile_call(&memory, caller, script, length, &reply);
  *sum ^= reply.values[0];
  return answer == ONEFILE_DONE && reply.cause == 0;
}

/* What a lock is held for. */
static uint32_t in_plain(uint32_t i) {
  uint32_t sum = 0;
  if (kind_of_work == TRANSFER) {
    plain.registers[i % REGISTERS]--;
    plain.registers[(i + 5) % REGISTERS]++;
  } else if (kind_of_work == READ) {
    sum = plain.registers[i % REGISTERS];
  } else {
    for (uint32_t j = 0; j < 4; j++) sum ^= plain.keys[8 * j + i % 8];
  }
  return sum;
}

static int by_mutex(uint32_t caller, uint32_t i, uint32_t *sum) {
  (void)caller;
  pthread_mutex_lock(&plain.mutex);
  *sum ^= in_plain(i);
  pthread_mutex_unlock(&plain.mutex);
  return 1;
}

static int by_rwlock(uint32_t caller, uint32_t i, uint32_t *sum) {
  (void)caller;
  if (kind_of_work == TRANSFER) pthread_rwlock_wrlock(&plain.rwlock);
  else pthread_rwlock_rdlock(&plain.rwlock);
  *sum ^= in_plain(i);
  pthread_rwlock_unlock(&plain.rwlock);
  return 1;
}

static void *work(void *clerk_of) {
  clerk *own = clerk_of;
  uint32_t made = 0, sum = 0;
  for (uint32_t i = 0; i < own->count; i++) made += (uint32_t)own->one(own->number, i, &sum);
  own->made = made;
  own->sum = sum;
  return NULL;
}

static void fill(uint32_t callers) {
  onefile_reply reply;
  int answer = onefile_open(&memory, callers, BLOCKS, ONEFILE_GREATEST_LIMIT);
  expect(answer == ONEFILE_DONE, onefile_name(answer));
  for (uint32_t i = 0; i < callers; i++) expect(onefile_enrol(&memory, i) == 0, "enrol");
  for (uint32_t i = 0; i < REGISTERS + KEYS; i++) {
    uint64_t one = i < REGISTERS ? onefile_store(i, MONEY) : onefile_put(i - REGISTERS, i);
    expect(onefile_call(&memory, 0, &one, 1, &reply) == ONEFILE_DONE, "fill");
  }
}

static int place(const char *word, const char *const *words, int count) {
  for (int i = 0; i < count; i++) {
    if (strcmp(words[i], word) == 0) return i;
  }
  return -1;
}

int main(int argc, char **argv) {
  static const char *const kinds[] = {"memory", "mutex", "rwlock"};
  static const char *const works[] = {"transfer", "read", "gets"};
  int kind = argc == 5 ? place(argv[1], kinds, 3) : -1;
  kind_of_work = argc == 5 ? place(argv[2], works, 3) : -1;
  expect(kind >= 0 && kind_of_work >= 0,
         "usage: hot memory|mutex|rwlock transfer|read|gets CALLERS COUNT");
  uint32_t callers = (uint32_t)atoi(argv[3]);
  expect(callers >= 1 && callers <= ONEFILE_MOST_CALLERS, "1 to 16 callers");
  if (kind == 0) fill(callers);

  clerk clerks[ONEFILE_MOST_CALLERS];
  pthread_t threads[ONEFILE_MOST_CALLERS];
  for (uint32_t i = 0; i < callers; i++) {
    clerks[i] = (clerk){i, (uint32_t)atoi(argv[4]), by_memory, 0, 0};
    if (kind > 0) clerks[i].one = kind == 1 ? by_mutex : by_rwlock;
    expect(pthread_create(&threads[i], NULL, work, &clerks[i]) == 0, "thread");
  }
  unsigned long long made = 0;
  for (uint32_t i = 0; i < callers; i++) {
    pthread_join(threads[i], NULL);
    made += clerks[i].made;
  }
  printf("%llu calls\n", made);
  onefile_free(&memory);
  return 0;
}
