/* keys.c: the parts of the life of a memory of so many keys, by the library for C: keys KEYS CALLS.
 * It has four callers. A line has the name of a part, how often it was done, and the nanoseconds of
 * all of that:
 *   open, fill, close, reopen   for each key
 *   get, put                    by one caller
 *   get at once, put at once    by the four callers in threads
 *   first                       if there are no more keys than it may have
 * and the last one, table, the bytes of the table in the place of nanoseconds. */
#define _GNU_SOURCE
#include "onefile.h"

#include <pthread.h>
#include <stdio.h>
#include <stdlib.h>
#include <sys/stat.h>
#include <time.h>
#include <unistd.h>

/* The instructions on keys in their order run in memories of no more blocks than ORDERED. */
enum { CALLERS = 4, ORDERED = 512, HEAD = 4096 };
enum { GET, PUT, FIRST };

typedef struct clerk {
  uint32_t number, calls;
  int work;
  uint32_t made;
} clerk;

static onefile_memory memory = ONEFILE_NONE;
static uint32_t keys;

static void expect(int holds, const char *what) {
  if (holds) return;
  fprintf(stderr, "keys: %s\n", what);
  exit(1);
}

static void must(int answer) { expect(answer == ONEFILE_DONE, onefile_name(answer)); }

static uint64_t now(void) {
  struct timespec time;
  clock_gettime(CLOCK_MONOTONIC, &time);
  return (uint64_t)time.tv_sec * 1000000000u + (uint64_t)time.tv_nsec;
}

static void tell(const char *name, uint64_t count, uint64_t spent) {
  printf("%s %llu %llu\n", name, (unsigned long long)count, (unsigned long long)spent);
}

/* The keys are far apart. No two are the same, since the factor is odd. */
static uint32_t key_of(uint32_t i) { return i * 2654435761u & ONEFILE_GREATEST; }

/* The key of a call: any of them. */
static uint32_t choice(uint32_t caller, uint32_t call) {
  uint32_t x = (call * CALLERS + caller) * 2246822519u;
  x = (x ^ x >> 15) * 3266489917u;
  return key_of((x ^ x >> 13) % keys);
}

static void *work(void *clerk_of) {
  clerk *own = clerk_of;
  uint32_t made = 0;
  for (uint32_t i = 0; i < own->calls; i++) {
    uint32_t key = choice(own->number, i);
    uint64_t one = own->work == GET ? onefile_get(key) : onefile_put(key, i);
    onefile_reply reply;
    if (own->work == FIRST) one = onefile_first();
    int answer = onefile_call(&memory, own->number, &one, 1, &reply);
    made += answer == ONEFILE_DONE && reply.cause == 0 && reply.given[0];
  }
  own->made = made;
  return NULL;
}

/* Makes calls by so many callers at once, and tells what they took. */
static void make_calls(const char *name, int kind, uint32_t callers, uint32_t calls) {
  pthread_t threads[CALLERS];
  clerk clerks[CALLERS];
  for (uint32_t i = 0; i < callers; i++) clerks[i] = (clerk){i, calls, kind, 0};
  uint64_t begin = now();
  for (uint32_t i = 1; i < callers; i++) {
    expect(pthread_create(&threads[i], NULL, work, &clerks[i]) == 0, "thread");
  }
  work(&clerks[0]);
  for (uint32_t i = 1; i < callers; i++) pthread_join(threads[i], NULL);
  uint64_t spent = now() - begin;
  for (uint32_t i = 0; i < callers; i++) expect(clerks[i].made == calls, name);
  tell(name, (uint64_t)callers * calls, spent);
}

static void open_and_fill(void) {
  onefile_reply reply;
  uint64_t begin = now();
  must(onefile_open(&memory, CALLERS, keys, ONEFILE_GREATEST_LIMIT));
  tell("open", keys, now() - begin);
  for (uint32_t i = 0; i < CALLERS; i++) must(onefile_enrol(&memory, i));
  begin = now();
  for (uint32_t i = 0; i < keys;) {
    uint64_t some[ONEFILE_MOST_INSTRS];
    size_t count = 0;
    while (count < ONEFILE_MOST_INSTRS && i < keys) some[count++] = onefile_put(key_of(i++), 1);
    must(onefile_call(&memory, 0, some, count, &reply));
    expect(reply.cause == 0, "no room");
  }
  tell("fill", keys, now() - begin);
}

static void close_and_reopen(void) {
  onefile_saved saved = ONEFILE_NONE;
  for (uint32_t i = 0; i < CALLERS; i++) must(onefile_leave(&memory, i));
  uint64_t begin = now();
  must(onefile_close(&memory, &saved));
  tell("close", keys, now() - begin);
  begin = now();
  must(onefile_reopen(&memory, &saved));
  tell("reopen", keys, now() - begin);
  must(onefile_free_saved(&saved));
  must(onefile_free(&memory));
}

/* The table is what a file has of it. */
static void tell_table(void) {
  char path[64];
  struct stat file;
  snprintf(path, sizeof path, "/dev/shm/onefile-keys.%d", (int)getpid());
  must(onefile_open_file(&memory, path, CALLERS, keys, ONEFILE_GREATEST_LIMIT));
  expect(stat(path, &file) == 0, "stat");
  unlink(path);
  must(onefile_free(&memory));
  tell("table", keys, (uint64_t)file.st_size - HEAD);
}

int main(int argc, char **argv) {
  expect(argc == 3, "usage: keys KEYS CALLS");
  keys = (uint32_t)atoi(argv[1]);
  uint32_t calls = (uint32_t)atoi(argv[2]);
  expect(keys > 0, "no keys");
  open_and_fill();
  make_calls("get", GET, 1, calls);
  make_calls("get at once", GET, CALLERS, calls / CALLERS);
  make_calls("put", PUT, 1, calls);
  make_calls("put at once", PUT, CALLERS, calls / CALLERS);
  if (keys <= ORDERED) make_calls("first", FIRST, 1, calls / 1000 + 1);
  close_and_reopen();
  tell_table();
  return 0;
}
