/* random.c: sixteen threads make random scripts of 1 to 4 instructions on one memory, and a plain
 * model judges them: random [CALLS [SEED]]. The model runs all scripts one after another, in the
 * order of their sequences; within one the announced ones come first, by caller. Each reply must be
 * the model's, and so must be what is saved whenever the memory is closed, which then goes on. No
 * call may take effect before one that was answered when it began. Now and then a thread asks for
 * its last reply while the others go on. */
#include "model.h"

#include <pthread.h>
#include <sched.h>
#include <stdatomic.h>
#include <stdio.h>
#include <stdlib.h>

/* A life has so many calls at most, a script uses so many keys, half of them small. */
enum { CALLERS = 16, LONGEST_LIFE = 500000, KEYS = 32 };

/* A call that was answered. */
typedef struct call {
  uint32_t seq, announced;
  outcome came;
} call;

/* A caller: its calls of this life, and how many it had made before. */
typedef struct caller {
  uint32_t number, count, before;
  call *calls;
} caller;

typedef struct figures {
  unsigned long announced, reads, causes[5];
} figures;

static onefile_memory memory = ONEFILE_NONE;
static caller callers[CALLERS];
static uint64_t seed;
static atomic_uint newest; /* the last sequence that a call was answered with */
static atomic_ulong stops, asked;

#define MUST(holds) must((holds), __LINE__, #holds)

static void must(int holds, int line, const char *what) {
  if (holds) return;
  printf("line %d: not %s\n", line, what);
  exit(1);
}

/* ---- Random scripts. */

/* A number below this one. */
static uint32_t draw(uint64_t *state, uint32_t below) {
  uint64_t x = *state += 0x9e3779b97f4a7c15;
  x = (x ^ x >> 30) * 0xbf58476d1ce4e5b9;
  x = (x ^ x >> 27) * 0x94d049bb133111eb;
  return (uint32_t)(((x ^ x >> 31) >> 32) * below >> 32);
}

/* What a call's script and stops are drawn from. */
static uint64_t state_of(uint32_t number, uint32_t index) {
  uint64_t state = seed << 40 ^ (uint64_t)number << 32 ^ index;
  draw(&state, 2);
  return state * 0xd1342543de82ef95;
}

static instr draw_instr(uint64_t *state) {
  static const form forms[] = {LOAD, STORE, ADD,  ADD,  ADD,  SUB, GET,   GET,  PUT,       PUT,
                               PUT,  PUT,   DEL,  NEED, NEED, LEN, PUSH,  PUSH, PUSH,      PUSH,
                               POP,  POP,   POP,  POP,  COUNT, FIRST, NEXT, NEXT, DROP_BELOW};
  instr it = {forms[draw(state, sizeof forms / sizeof *forms)], 0, 0};
  uint32_t key = draw(state, it.form == DROP_BELOW ? KEYS / 4 : KEYS);
  it.at = key < KEYS / 2 ? key : ONEFILE_GREATEST - (KEYS - 1 - key);
  if (it.form <= SUB) it.at = draw(state, ONEFILE_REGISTERS);
  if (it.form >= PUSH && it.form <= LEN) it.at = draw(state, ONEFILE_QUEUES);
  it.value = draw(state, draw(state, 4) ? 4 : ONEFILE_GREATEST);
  return it;
}

static uint32_t draw_script(uint64_t *state, instr script[MOST]) {
  uint32_t len = 1 + draw(state, MOST);
  for (uint32_t i = 0; i < len; i++) script[i] = draw_instr(state);
  return len;
}

/* ---- Threads. */

/* Makes a call. One of four stops now and then, lets other threads run, and goes on. */
static void make(uint32_t number, const uint64_t *words, uint32_t len, uint64_t *state,
                 onefile_reply *reply) {
  uint64_t steps = draw(state, 4) ? ONEFILE_NO_END : draw(state, 80);
  int answer = onefile_call_within(&memory, number, words, len, steps, reply);
  while (answer == ONEFILE_STOPPED) {
    atomic_fetch_add(&stops, 1);
    sched_yield();
    answer = onefile_go_on(&memory, number, 1 + draw(state, 80), reply);
  }
  MUST(answer == ONEFILE_DONE);
}

static call call_of(const onefile_reply *reply) {
  call it = {reply->seq, reply->announced, {0}};
  it.came.cause = (uint8_t)reply->cause;
  if (reply->cause) it.came.place = (uint8_t)reply->place;
  for (int i = 0; i < ONEFILE_MOST_INSTRS; i++) {
    MUST(reply->given[i] <= (i < MOST));
    if (!reply->given[i]) continue;
    it.came.given |= (uint16_t)(1 << i);
    it.came.values[i] = reply->values[i];
  }
  return it;
}

/* What others may ask while this caller makes no call: its last announced call is told as it was
 * answered, if the calls of others leave a moment for it. */
static void ask(uint32_t number, const call *last) {
  onefile_reply found;
  int answer = onefile_last_reply_of(&memory, number, &found);
  if (answer != ONEFILE_DONE) {
    MUST(answer == ONEFILE_BUSY || answer == ONEFILE_NOT_YET);
    return;
  }
  found.seq = found.announced = 0;
  outcome came = call_of(&found).came;
  MUST(memcmp(&came, &last->came, sizeof came) == 0);
  atomic_fetch_add(&asked, 1);
}

static void *work(void *caller_of) {
  caller *one = caller_of;
  const call *last = NULL;
  for (uint32_t i = 0; i < one->count; i++) {
    uint64_t state = state_of(one->number, one->before + i), words[MOST];
    instr script[MOST];
    onefile_reply reply;
    uint32_t len = draw_script(&state, script);
    for (uint32_t j = 0; j < len; j++) words[j] = word_of(script[j]);
    uint32_t answered = atomic_load(&newest);
    make(one->number, words, len, &state, &reply);
    MUST(reply.len == len && reply.announced <= 1 && reply.seq >= answered + reply.announced);
    while (answered < reply.seq && !atomic_compare_exchange_weak(&newest, &answered, reply.seq)) {}
    one->calls[i] = call_of(&reply);
    if (reply.announced) last = &one->calls[i];
    if (last && i % CALLERS == one->number) ask(one->number, last);
  }
  return NULL;
}

/* What the open memory told of each caller's last call at the end of a life. */
static onefile_reply told[CALLERS];

/* One life of the memory: its callers run at once, and what is left is saved. */
static void live(onefile_saved *saved, uint32_t each) {
  pthread_t threads[CALLERS];
  for (uint32_t i = 0; i < CALLERS; i++) {
    callers[i].count = each;
    while (onefile_enrol(&memory, i) == ONEFILE_BUSY) sched_yield(); /* another one asks */
    MUST(pthread_create(&threads[i], NULL, work, &callers[i]) == 0);
  }
  for (uint32_t i = 0; i < CALLERS; i++) pthread_join(threads[i], NULL);
  for (uint32_t i = 0; i < CALLERS; i++) {
    told[i] = (onefile_reply){0};
    int answer = onefile_last_reply_of(&memory, i, &told[i]);
    MUST(answer == ONEFILE_DONE || answer == ONEFILE_ABSENT);
    MUST(onefile_leave(&memory, i) == ONEFILE_DONE);
  }
  MUST(onefile_close(&memory, saved) == ONEFILE_DONE);
}

/* ---- The judge. */

/* Where a call is in the one order, with those of other callers. */
static uint64_t place_of(const call *it, uint32_t number) {
  return ((uint64_t)it->seq << 1 | !it->announced) << 4 | number;
}

/* Takes the call that comes next, of all that are left. Gives its caller, or CALLERS. */
static uint32_t next_caller(const uint32_t *taken) {
  uint32_t found = CALLERS;
  uint64_t least = UINT64_MAX;
  for (uint32_t i = 0; i < CALLERS; i++) {
    if (taken[i] == callers[i].count) continue;
    uint64_t place = place_of(&callers[i].calls[taken[i]], i);
    if (place < least) least = place, found = i;
  }
  return found;
}

static void judge_call(store *model, uint32_t number, uint32_t index, const call *it) {
  instr script[MOST];
  uint64_t state = state_of(number, index);
  uint32_t len = draw_script(&state, script);
  outcome wanted = run_script(model, script, len);
  if (memcmp(&wanted, &it->came, sizeof wanted) == 0) return;
  printf("seed %llu: call %u of caller %u at %u has another reply than the model: words",
         (unsigned long long)seed, index, number, it->seq);
  for (uint32_t i = 0; i < len; i++) printf(" %llu", (unsigned long long)word_of(script[i]));
  printf("\n");
  exit(1);
}

/* Runs all calls of a life on the model. Each sequence has an announced call, and a caller's calls
 * are in the order in which it made them. */
static void judge(store *model, uint32_t *seq, figures *seen) {
  uint32_t taken[CALLERS] = {0};
  uint64_t last = 0;
  for (uint32_t i; (i = next_caller(taken)) < CALLERS; taken[i]++) {
    const call *it = &callers[i].calls[taken[i]];
    MUST(place_of(it, i) >= last + it->announced && it->seq - *seq <= it->announced);
    last = place_of(it, i);
    *seq = it->seq;
    judge_call(model, i, callers[i].before + taken[i], it);
    if (it->announced) seen->announced++;
    else seen->reads++;
    seen->causes[it->came.cause]++;
  }
}

/* What was saved is the model. */
static void judge_saved(onefile_saved *saved, const store *model) {
  uint32_t value;
  for (uint32_t i = 0; i < ONEFILE_REGISTERS; i++) {
    MUST(onefile_register(saved, i, &value) == ONEFILE_DONE && value == model->registers[i]);
  }
  for (uint32_t i = 0; i < KEYS; i++) {
    uint32_t key = i < KEYS / 2 ? i : ONEFILE_GREATEST - (KEYS - 1 - i);
    uint32_t place = keys_below(model, key);
    int is_there = place < model->keys && model->key[place] == key;
    int answer = onefile_key(saved, key, &value);
    MUST(answer == (is_there ? ONEFILE_DONE : ONEFILE_ABSENT));
    if (is_there) MUST(value == model->value[place]);
  }
  for (uint32_t i = 0; i < ONEFILE_QUEUES; i++) {
    for (uint32_t j = 0; j < model->length[i]; j++) {
      MUST(onefile_item(saved, i, j, &value) == ONEFILE_DONE && value == model->item[i][j]);
    }
    MUST(onefile_item(saved, i, model->length[i], &value) == ONEFILE_ABSENT);
  }
}

/* Each caller's ticket is the number of its last announced call, whose reply is saved. All calls of
 * a life have numbers, which go on from the ticket at its beginning. */
static void judge_tickets(onefile_saved *saved, uint32_t *tickets) {
  for (uint32_t i = 0; i < CALLERS; i++) {
    uint32_t ticket, last = callers[i].count;
    onefile_reply reply = {0};
    while (last > 0 && !callers[i].calls[last - 1].announced) last--;
    MUST(onefile_ticket(saved, i, &ticket) == ONEFILE_DONE && ticket == tickets[i] + last);
    tickets[i] = ticket;
    if (last == 0) continue;
    MUST(onefile_last_reply(saved, i, &reply) == ONEFILE_DONE && reply.ticket == ticket);
    outcome came = call_of(&reply).came;
    MUST(memcmp(&came, &callers[i].calls[last - 1].came, sizeof came) == 0);
    outcome before = call_of(&told[i]).came;
    MUST(told[i].ticket == ticket && memcmp(&came, &before, sizeof came) == 0);
  }
}

/* ---- One life after another. */

/* Opens the memory again from what was saved, every second time by way of its text. */
static void open_again(onefile_saved *saved, int by_text) {
  static char text[1 << 16];
  size_t length;
  if (by_text) {
    MUST(onefile_image(saved, text, sizeof text, &length) == ONEFILE_DONE);
    MUST(onefile_free_saved(saved) == ONEFILE_DONE);
    MUST(onefile_from_image(saved, text, length) == ONEFILE_DONE);
  }
  MUST(onefile_reopen(&memory, saved) == ONEFILE_DONE);
  MUST(onefile_free_saved(saved) == ONEFILE_DONE);
}

int main(int argc, char **argv) {
  unsigned long count = argc > 1 ? strtoul(argv[1], NULL, 10) : 20000;
  unsigned long lives = count / LONGEST_LIFE + 4, each = count / CALLERS / lives;
  onefile_saved saved = ONEFILE_NONE;
  store model = {.keys = 0};
  uint32_t seq = 0, tickets[CALLERS] = {0};
  figures seen = {0, 0, {0}};
  seed = argc > 2 ? strtoull(argv[2], NULL, 10) : 1;
  for (uint32_t i = 0; i < CALLERS; i++) {
    callers[i] = (caller){.number = i, .calls = malloc((each + 1) * sizeof(call))};
    MUST(callers[i].calls != NULL);
  }
  MUST(onefile_open(&memory, CALLERS, ROOM, ONEFILE_GREATEST_LIMIT) == ONEFILE_DONE);
  for (unsigned long life = 0; life < lives; life++) {
    if (life > 0) open_again(&saved, life % 2);
    live(&saved, (uint32_t)each);
    judge(&model, &seq, &seen);
    judge_saved(&saved, &model);
    judge_tickets(&saved, tickets);
    for (uint32_t i = 0; i < CALLERS; i++) callers[i].before += callers[i].count;
  }
  MUST(onefile_free_saved(&saved) == ONEFILE_DONE);
  MUST(atomic_load(&asked) > 0);
  printf("random calls of sixteen callers: each reply and all that is saved as in the model\n");
  if (argc > 1) {
    printf("%lu lives, %lu calls announced in %u batches, %lu that read; stopped %lu times, told "
           "%lu times; aborts: %lu overflow, %lu short, %lu no room, %lu differs\n",
           lives, seen.announced, seq, seen.reads, stops, asked, seen.causes[1], seen.causes[2],
           seen.causes[3], seen.causes[4]);
  }
  return 0;
}
