/* large.c: memories with room for more keys and items than a plan has: large [FOLDER]. All keys are
 * found, also after a close and in a file that was not closed. From 513 blocks on `first`, `next`
 * and `drop-below` abort, and nothing of their scripts takes effect. */
#include <stdint.h>
#include <stdio.h>
#include <stdlib.h>
#include <unistd.h>
#include "onefile.h"

enum { MANY = 100000 };

static onefile_memory memory = ONEFILE_NONE;
static onefile_saved saved = ONEFILE_NONE;
static onefile_reply reply;

static void expect(int64_t came, int64_t wanted, const char *what) {
  if (came == wanted) return;
  printf("%s: %lld in place of %lld\n", what, (long long)came, (long long)wanted);
  exit(1);
}

static void must(int answer, const char *what) { expect(answer, ONEFILE_DONE, what); }

static uint32_t key_of(uint32_t i) { return 20011 * i + 7; } /* below 2^31 for all i < MANY */

/* Runs a script of caller 0. */
static void call(const uint64_t *words, size_t count) {
  must(onefile_call(&memory, 0, words, count, &reply), "call");
}

/* One instruction, and why it aborts. */
static uint32_t cause_of(uint64_t word) {
  call(&word, 1);
  return reply.cause;
}

/* Puts keys, sixteen a call. */
static void fill(uint32_t from, uint32_t upto) {
  uint64_t words[ONEFILE_MOST_INSTRS];
  while (from < upto) {
    size_t n = 0;
    for (; n < ONEFILE_MOST_INSTRS && from < upto; n++, from++) {
      words[n] = onefile_put(key_of(from), from);
    }
    call(words, n);
    expect(reply.cause, 0, "put");
  }
}

/* Sees that they are there. */
static void find(uint32_t from, uint32_t upto) {
  uint64_t words[ONEFILE_MOST_INSTRS];
  while (from < upto) {
    size_t n = 0;
    uint32_t first = from;
    for (; n < ONEFILE_MOST_INSTRS && from < upto; n++, from++) {
      words[n] = onefile_get(key_of(from));
    }
    call(words, n);
    for (size_t j = 0; j < n; j++) {
      expect(reply.given[j], 1, "there");
      expect(reply.values[j], first + j, "value");
    }
  }
}

static void count_is(uint32_t wanted) {
  expect(cause_of(onefile_count()), 0, "count");
  expect(reply.values[0], wanted, "keys");
}

/* The instructions on keys in their order, by how many blocks there are. */
static void ordered(uint32_t blocks, uint32_t cause) {
  must(onefile_open(&memory, 1, blocks, ONEFILE_GREATEST_LIMIT), "open");
  must(onefile_enrol(&memory, 0), "enrol");
  const uint64_t scripts[][2] = {
    {onefile_put(1, 1), onefile_first()},
    {onefile_put(2, 1), onefile_next(0)},
    {onefile_put(3, 1), onefile_drop_below(1)},
  };
  for (size_t i = 0; i < 3; i++) {
    call(scripts[i], 2);
    expect(reply.cause, cause, "cause");
    if (cause) expect(reply.place, 1, "place");
  }
  count_is(cause ? 0 : 3);
  fill(cause ? 0 : 3, blocks);
  expect(cause_of(onefile_push(3, 1)), ONEFILE_CAUSE_NO_ROOM, "full");
  must(onefile_free(&memory), "free");
}

/* A memory that is closed, and goes on. */
static void closed(void) {
  uint32_t value = 0;
  must(onefile_open(&memory, 2, MANY, ONEFILE_GREATEST_LIMIT), "open");
  must(onefile_enrol(&memory, 0), "enrol");
  fill(0, MANY);
  expect(cause_of(onefile_put(1, 1)), ONEFILE_CAUSE_NO_ROOM, "full");
  find(0, MANY);
  for (uint32_t i = 0; i < MANY; i += 1000) expect(cause_of(onefile_del(key_of(i))), 0, "del");
  for (uint32_t i = 0; i < 100; i++) expect(cause_of(onefile_push(i % 4, i)), 0, "push");
  must(onefile_leave(&memory, 0), "leave");
  must(onefile_close(&memory, &saved), "close");
  must(onefile_key(&saved, key_of(MANY - 1), &value), "key");
  expect(value, MANY - 1, "key");
  expect(onefile_key(&saved, key_of(1000), &value), ONEFILE_ABSENT, "deleted key");
  must(onefile_item(&saved, 3, 24, &value), "item");
  expect(value, 99, "item");
  must(onefile_reopen(&memory, &saved), "reopen");
  must(onefile_free_saved(&saved), "free saved");
  must(onefile_enrol(&memory, 0), "enrol");
  count_is(MANY - MANY / 1000);
  find(1, 1000);
  find(MANY - 999, MANY);
  must(onefile_free(&memory), "free");
}

/* A memory in a file that is not closed. */
static void in_file(const char *folder) {
  char path[300];
  snprintf(path, sizeof path, "%s/onefile-large.%ld", folder, (long)getpid());
  unlink(path);
  must(onefile_open_file(&memory, path, 2, MANY, ONEFILE_GREATEST_LIMIT), "open file");
  must(onefile_enrol(&memory, 0), "enrol");
  fill(0, MANY);
  must(onefile_free(&memory), "free");
  must(onefile_reopen_file(&memory, path, ONEFILE_GREATEST_LIMIT, NULL), "reopen file");
  must(onefile_enrol(&memory, 0), "enrol");
  count_is(MANY);
  find(0, MANY);
  must(onefile_free(&memory), "free");
  unlink(path);
}

int main(int argc, char **argv) {
  ordered(ONEFILE_MOST_ORDERED_BLOCKS, 0);
  ordered(ONEFILE_MOST_ORDERED_BLOCKS + 1, ONEFILE_CAUSE_BAD_OP);
  printf("keys in their order: as they should be\n");
  closed();
  printf("a memory with room for %d: as it should be\n", MANY);
  in_file(argc > 1 ? argv[1] : "/tmp");
  printf("the same in a file: as it should be\n");
  return 0;
}
