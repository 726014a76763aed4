/* books.h: a bank in a file, and what a memory that goes on from the file must have. For kills.c,
 * steps.c and deaths.c, which has more callers. */
#define _GNU_SOURCE
#include "must.h"
#include "onefile.h"

#include <errno.h>
#include <fcntl.h>
#include <stdio.h>
#include <stdlib.h>
#include <string.h>
#include <unistd.h>

#ifndef BANK_CALLERS
#define BANK_CALLERS 4
#endif

enum { CALLERS = BANK_CALLERS, ACCOUNTS = 8, MONEY = 100000000, BLOCKS = 20, INSTRS = 6 };

typedef struct transfer {
  uint32_t from, to, amount;
} transfer;

/* What is known of the bank: of each caller the call that the last look has found, and of each
 * account the money. */
typedef struct books {
  uint32_t calls[CALLERS], money[ACCOUNTS];
} books;

static onefile_memory bank = ONEFILE_NONE;
static char path[200];

static transfer transfer_of(uint32_t caller, uint32_t call) {
  uint32_t x = caller * 2654435761u ^ call * 2246822519u;
  x = (x ^ x >> 15) * 2654435761u;
  x ^= x >> 13;
  return (transfer){x % ACCOUNTS, (x >> 3) % ACCOUNTS, 1 + (x >> 6) % 1000};
}

/* The script of a call. Its third instruction counts the calls of the caller, its fourth keeps the
 * number of the call, and the last two go through a queue, which is empty between two calls. */
static void write_script(uint32_t caller, uint32_t call, uint64_t script[INSTRS]) {
  transfer one = transfer_of(caller, call);
  script[0] = onefile_sub(one.from, one.amount);
  script[1] = onefile_add(one.to, one.amount);
  script[2] = onefile_add(ACCOUNTS + caller, 1);
  script[3] = onefile_put(caller, call);
  script[4] = onefile_push(caller % ONEFILE_QUEUES, call);
  script[5] = onefile_pop(caller % ONEFILE_QUEUES);
}

static int is_reply_to(const onefile_reply *reply, uint32_t call) {
  return reply->cause == 0 && reply->len == INSTRS && reply->values[2] == call &&
         reply->values[5] == call;
}

/* Enrols all callers of a bank that was opened, and fills the accounts at the first time. */
static void enter_bank(void) {
  onefile_reply reply;
  uint64_t fill[ACCOUNTS];
  for (uint32_t i = 0; i < ACCOUNTS; i++) fill[i] = onefile_store(i, MONEY);
  for (uint32_t i = 0; i < CALLERS; i++) MUST(onefile_enrol(&bank, i) == ONEFILE_DONE);
  MUST(onefile_call_text(&bank, 0, "load 0", 6, &reply) == ONEFILE_DONE);
  if (reply.values[0] == 0) MUST(onefile_call(&bank, 0, fill, ACCOUNTS, &reply) == ONEFILE_DONE);
}

static books new_books(void) {
  books known = {.calls = {0}};
  for (int i = 0; i < ACCOUNTS; i++) known.money[i] = MONEY;
  return known;
}

/* A copy of the file, with rubbish in all words that are not durable. */
static void copy_spoilt(const char *to) {
  static uint64_t words[1 << 17];
  int file = open(path, O_RDONLY);
  ssize_t size = read(file, words, sizeof words);
  MUST(size > 4096 && size < (ssize_t)sizeof words);
  close(file);
  uint64_t first = words[4], durable = words[5]; /* of the header */
  uint64_t *table = words + 4096 / sizeof *words, *end = words + (size_t)size / sizeof *words;
  for (uint64_t *word = table; word < end; word++) {
    if (word < table + first || word >= table + first + durable) {
      *word = (uint64_t)random() << 33 ^ (uint64_t)random() << 11 ^ (uint64_t)random();
    }
  }
  file = open(to, O_WRONLY | O_CREAT | O_TRUNC, 0600);
  MUST(write(file, words, (size_t)size) == size);
  close(file);
}

/* Looks at one caller: the calls that were answered are there, and at most the open one besides.
 * Its last reply says so too. Then these calls are made in the books. */
static void look_at(onefile_saved *saved, books *known, uint32_t number, uint32_t answered) {
  uint32_t calls = 0, value = 0;
  onefile_reply reply;
  MUST(onefile_register(saved, ACCOUNTS + number, &calls) == ONEFILE_DONE);
  MUST(calls >= answered && calls <= answered + 1);
  int answer = onefile_key(saved, number, &value);
  MUST(calls == 0 ? answer == ONEFILE_ABSENT : answer == ONEFILE_DONE && value == calls);
  MUST(onefile_item(saved, number % ONEFILE_QUEUES, 0, &value) == ONEFILE_ABSENT);
  answer = onefile_last_reply(saved, number, &reply);
  if (calls > 0) MUST(answer == ONEFILE_DONE && is_reply_to(&reply, calls));
  MUST(calls >= known->calls[number]);
  while (known->calls[number] < calls) {
    transfer one = transfer_of(number, ++known->calls[number]);
    known->money[one.from] -= one.amount;
    known->money[one.to] += one.amount;
  }
}

/* Looks at what a memory that goes on from the file has, in a copy of it. `answered` has of each
 * caller how many of its calls were. */
static void look(books *known, const uint32_t answered[CALLERS]) {
  onefile_memory memory = ONEFILE_NONE;
  onefile_saved saved = ONEFILE_NONE;
  char copy[220];
  uint32_t value = 0;
  snprintf(copy, sizeof copy, "%s.look", path);
  copy_spoilt(copy);
  MUST(onefile_reopen_file(&memory, copy, ONEFILE_GREATEST_LIMIT, &saved) == ONEFILE_DONE);
  MUST(onefile_free(&memory) == ONEFILE_DONE && unlink(copy) == 0);
  for (uint32_t i = 0; i < CALLERS; i++) look_at(&saved, known, i, answered[i]);
  MUST(onefile_register(&saved, 0, &value) == ONEFILE_DONE);
  int is_filled = value != 0;
  for (uint32_t i = 0; i < ACCOUNTS; i++) {
    MUST(onefile_register(&saved, i, &value) == ONEFILE_DONE);
    MUST(value == (is_filled ? known->money[i] : 0));
  }
  MUST(onefile_free_saved(&saved) == ONEFILE_DONE);
}
