/* floor.c: what a call on a hot memory costs at least: floor WORK CALLERS COUNT. WORK is transfer,
 * read or gets, as in hot.c. Each caller, a thread, makes the atomic steps of a call that meets no
 * other: on the words on which the call makes them, in the same order, and with no logic around
 * them. So there is no script to decode, no reply, and nothing is done again if an exchange is
 * lost. It prints how many calls were made. */
#include <pthread.h>
#include <stdatomic.h>
#include <stdint.h>
#include <stdio.h>
#include <stdlib.h>
#include <string.h>

enum { MOST_CALLERS = 16, INSTRS = 16, BLOCKS = 64, ENTRIES = 6, LINE = 64 };

/* Where the words are, as docs/LAYOUT.md has them. */
static uint32_t callers, cells, durable;
static _Atomic uint64_t *table;

static uint32_t request(uint32_t caller) { return 1 + caller; }
static uint32_t data(uint32_t cell) { return 1 + callers + cell; }
static uint32_t entry(uint32_t caller, uint32_t word) {
  return 1 + callers + cells + caller * (2 * cells + 1) + word;
}
static uint32_t script(uint32_t caller, uint32_t word) {
  return 2 * durable + caller * (INSTRS + 1) + word;
}
static uint32_t own(uint32_t caller, uint32_t cell) { return (INSTRS + 2) * caller + cell; }
static uint32_t reg(uint32_t number) { return (INSTRS + 2) * callers + number % 16; }

/* The four kinds of steps. All are sequentially consistent, as the table's are. */
static uint64_t load(uint32_t word) { return atomic_load(&table[word]); }
static void store(uint32_t word, uint64_t value) { atomic_store(&table[word], value); }
static void exchange(uint32_t word, uint64_t old, uint64_t new) {
  atomic_compare_exchange_strong(&table[word], &old, new);
}
static void raise_to(uint32_t word, uint64_t value) {
  uint64_t found = load(word);
  while (found < value && !atomic_compare_exchange_weak(&table[word], &found, value)) continue;
}
static void keep(uint32_t cell, uint64_t value) { raise_to(durable + cell, value); }
static void write_both(uint32_t cell, uint64_t value) {
  store(cell, value);
  keep(cell, value);
}

/* 66 steps, and two for each caller: a sub and an add, and the four cells of the reply. */
static uint64_t transfer(uint32_t caller, uint32_t i) {
  const uint32_t written[ENTRIES] = {reg(i), reg(i + 5), own(caller, 2), own(caller, 3),
                                     own(caller, 1), own(caller, 0)};
  store(script(caller, 0), i);
  store(script(caller, 1), i);
  store(script(caller, INSTRS), i);
  uint64_t current = load(0), sum = load(request(current % callers));
  uint64_t last = current >> 32 << 32, next = last + ((uint64_t)1 << 32);
  sum ^= load(data(written[5]));
  for (uint32_t c = 0; c < callers; c++) {
    sum ^= load(script(c, INSTRS));
    if (c != caller) sum ^= load(data(own(c, 0)));
  }
  for (uint32_t j = 0; j < 2; j++) sum ^= load(script(caller, j));
  for (uint32_t j = 0; j < 2; j++) sum ^= load(data(written[j]));
  keep(request(caller), last | 1);
  write_both(entry(caller, 0), next | ENTRIES);
  for (uint32_t j = 0; j < ENTRIES; j++) {
    write_both(entry(caller, 2 * j + 1), next | written[j]);
    write_both(entry(caller, 2 * j + 2), next | i);
  }
  write_both(request(caller), next);
  exchange(0, current, next | caller);
  keep(0, next | caller);
  for (uint32_t j = 0; j < ENTRIES; j++) {
    uint32_t cell = data(written[j]);
    exchange(cell, load(cell), next | i);
    keep(cell, load(cell));
  }
  exchange(request(caller), next, next | 1);
  keep(request(caller), next | 1);
  return sum;
}

/* 3 steps. */
static uint64_t read_one(uint32_t caller, uint32_t i) {
  (void)caller;
  uint64_t current = load(0);
  return load(request(current % callers)) ^ load(data(reg(i)));
}

/* 14 steps: of each of four keys the front of its bucket, the key and its number. */
static uint64_t gets(uint32_t caller, uint32_t i) {
  (void)caller;
  uint64_t current = load(0), sum = load(request(current % callers));
  uint32_t buckets = reg(0) + 16, blocks = cells - 3 * BLOCKS;
  for (uint32_t j = 0; j < 4; j++) {
    uint32_t key = 8 * j + i % 8, block = blocks + 3 * key;
    sum ^= load(data(buckets + key)) ^ load(data(block)) ^ load(data(block + 1));
  }
  return sum;
}

typedef struct clerk {
  uint32_t number, count;
  uint64_t (*one)(uint32_t caller, uint32_t i);
  uint64_t sum;
} clerk;

static void *work(void *clerk_of) {
  clerk *own_calls = clerk_of;
  uint64_t sum = 0;
  for (uint32_t i = 0; i < own_calls->count; i++) sum ^= own_calls->one(own_calls->number, i);
  own_calls->sum = sum;
  return NULL;
}

static void expect(int holds, const char *what) {
  if (holds) return;
  fprintf(stderr, "floor: %s\n", what);
  exit(1);
}

int main(int argc, char **argv) {
  expect(argc == 4, "usage: floor transfer|read|gets CALLERS COUNT");
  callers = (uint32_t)atoi(argv[2]);
  expect(callers >= 1 && callers <= MOST_CALLERS, "1 to 16 callers");
  cells = (INSTRS + 2) * callers + 63 + 3 * BLOCKS;
  durable = 1 + callers + cells + callers * (2 * cells + 1);
  size_t words = 2 * durable + callers * (INSTRS + 1) + 1;
  table = aligned_alloc(LINE, (8 * words + LINE - 1) / LINE * LINE);
  expect(table != NULL, "no memory");
  memset((void *)table, 0, 8 * words);
  clerk clerks[MOST_CALLERS];
  pthread_t threads[MOST_CALLERS];
  for (uint32_t i = 0; i < callers; i++) {
    clerks[i] = (clerk){i, (uint32_t)atoi(argv[3]), NULL, 0};
    clerks[i].one = argv[1][0] == 't' ? transfer : argv[1][0] == 'r' ? read_one : gets;
    expect(pthread_create(&threads[i], NULL, work, &clerks[i]) == 0, "thread");
  }
  uint64_t made = 0;
  for (uint32_t i = 0; i < callers; i++) {
    pthread_join(threads[i], NULL);
    made += clerks[i].count;
  }
  printf("%llu calls\n", (unsigned long long)made);
  free((void *)table);
  return 0;
}
