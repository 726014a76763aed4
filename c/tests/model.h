/* model.h: what scripts do to a store, as docs/LANGUAGE.md says it, in plain C. For random.c, which
 * judges the library by it. Nothing here is taken from the library but its numbers. */
#ifndef ONEFILE_MODEL_H
#define ONEFILE_MODEL_H

#include "onefile.h"

#include <string.h>

/* How many keys and items a model has room for, and the most instructions of its scripts. */
enum { ROOM = 24, MOST = 4 };

typedef enum form {
  LOAD, STORE, ADD, SUB, GET, PUT, DEL, NEED, PUSH, POP, LEN, COUNT, FIRST, NEXT, DROP_BELOW
} form;

/* `at` is a register, a key or a queue. */
typedef struct instr {
  form form;
  uint32_t at, value;
} instr;

/* Keys ascend. The front of a queue is its item 0. */
typedef struct store {
  uint32_t registers[ONEFILE_REGISTERS];
  uint32_t keys, key[ROOM + 1], value[ROOM + 1];
  uint32_t length[ONEFILE_QUEUES], item[ONEFILE_QUEUES][ROOM + 1];
} store;

/* What a script comes to: a bit of `given` for each instruction that answers a number. */
typedef struct outcome {
  uint8_t cause, place;
  uint16_t given;
  uint32_t values[MOST];
} outcome;

/* How many keys are below this one: its place, if it is there. */
static uint32_t keys_below(const store *s, uint32_t key) {
  uint32_t count = 0;
  while (count < s->keys && s->key[count] < key) count++;
  return count;
}

static int is_full(const store *s) {
  uint32_t taken = s->keys;
  for (int i = 0; i < ONEFILE_QUEUES; i++) taken += s->length[i];
  return taken == ROOM;
}

/* Takes `count` numbers at `at` out of a list of `length`. */
static void take_out(uint32_t *list, uint32_t length, uint32_t at, uint32_t count) {
  memmove(list + at, list + at + count, (length - at - count) * sizeof *list);
}

static void remove_keys(store *s, uint32_t at, uint32_t count) {
  take_out(s->key, s->keys, at, count);
  take_out(s->value, s->keys, at, count);
  s->keys -= count;
}

static void insert_key(store *s, uint32_t at, uint32_t key, uint32_t value) {
  memmove(s->key + at + 1, s->key + at, (s->keys - at) * sizeof *s->key);
  memmove(s->value + at + 1, s->value + at, (s->keys - at) * sizeof *s->value);
  s->keys++;
  s->key[at] = key;
  s->value[at] = value;
}

/* The two ways in which an instruction ends without an abort. */
enum { NONE, A_NUMBER };

static int answers(uint32_t *value, uint32_t number) {
  *value = number;
  return A_NUMBER;
}

static int run_on_register(uint32_t *reg, instr it, uint32_t *value) {
  if (it.form == ADD && it.value > ONEFILE_GREATEST - *reg) return -ONEFILE_CAUSE_OVERFLOW;
  if (it.form == SUB && it.value > *reg) return -ONEFILE_CAUSE_SHORT;
  if (it.form == STORE) *reg = it.value;
  if (it.form == ADD) *reg += it.value;
  if (it.form == SUB) *reg -= it.value;
  return it.form == STORE ? NONE : answers(value, *reg);
}

static int run_on_queue(store *s, instr it, uint32_t *value) {
  uint32_t *length = &s->length[it.at], *item = s->item[it.at];
  if (it.form == LEN) return answers(value, *length);
  if (it.form == PUSH && is_full(s)) return -ONEFILE_CAUSE_NO_ROOM;
  if (it.form == PUSH) item[(*length)++] = it.value;
  if (it.form == PUSH || *length == 0) return NONE;
  answers(value, item[0]);
  take_out(item, (*length)--, 0, 1);
  return A_NUMBER;
}

static int run_on_keys(store *s, instr it, uint32_t *value) {
  uint32_t place = keys_below(s, it.at);
  int is_there = place < s->keys && s->key[place] == it.at;
  uint32_t above = place + (uint32_t)is_there, before = s->value[place];
  switch (it.form) {
  case COUNT: return answers(value, s->keys);
  case FIRST: return s->keys > 0 ? answers(value, s->key[0]) : NONE;
  case NEXT: return above < s->keys ? answers(value, s->key[above]) : NONE;
  case DROP_BELOW: remove_keys(s, 0, place); return answers(value, place);
  case NEED: return is_there && before == it.value ? NONE : -ONEFILE_CAUSE_DIFFERS;
  case PUT:
    if (!is_there && is_full(s)) return -ONEFILE_CAUSE_NO_ROOM;
    if (!is_there) insert_key(s, place, it.at, it.value);
    s->value[place] = it.value;
    break;
  case DEL:
    if (is_there) remove_keys(s, place, 1);
    break;
  default: break; /* GET */
  }
  return is_there ? answers(value, before) : NONE;
}

/* Runs one instruction. Gives A_NUMBER if it answers one, which is in `value` then, or NONE, or
 * minus the cause of its abort. */
static int run_instr(store *s, instr it, uint32_t *value) {
  if (it.form <= SUB) return run_on_register(&s->registers[it.at], it, value);
  if (it.form >= PUSH && it.form <= LEN) return run_on_queue(s, it, value);
  return run_on_keys(s, it, value);
}

/* Runs a script: all of it, or nothing if an instruction aborts. */
static outcome run_script(store *s, const instr *script, uint32_t len) {
  store after = *s;
  outcome all = {0};
  for (uint32_t i = 0; i < len; i++) {
    uint32_t value = 0;
    int end = run_instr(&after, script[i], &value);
    if (end < 0) return (outcome){.cause = (uint8_t)-end, .place = (uint8_t)i};
    if (end == A_NUMBER) all.given |= (uint16_t)(1 << i);
    all.values[i] = value;
  }
  *s = after;
  return all;
}

/* The word of an instruction. */
static uint64_t word_of(instr it) {
  switch (it.form) {
  case LOAD: return onefile_load(it.at);
  case STORE: return onefile_store(it.at, it.value);
  case ADD: return onefile_add(it.at, it.value);
  case SUB: return onefile_sub(it.at, it.value);
  case GET: return onefile_get(it.at);
  case PUT: return onefile_put(it.at, it.value);
  case DEL: return onefile_del(it.at);
  case NEED: return onefile_need(it.at, it.value);
  case PUSH: return onefile_push(it.at, it.value);
  case POP: return onefile_pop(it.at);
  case LEN: return onefile_len(it.at);
  case COUNT: return onefile_count();
  case FIRST: return onefile_first();
  case NEXT: return onefile_next(it.at);
  case DROP_BELOW: return onefile_drop_below(it.at);
  }
  return 0;
}

#endif
