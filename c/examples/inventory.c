/* inventory.c: the items of a shop in a file, a million if no number is given: inventory FILE [ITEMS
 * [ORDERS]]. Eight workers make orders, until each has made so many. Kill it at any moment and start
 * it again: it goes on where it was. Each order is made once, and all pieces add up.
 *
 * An item is a key, whose value is how many pieces are left. An order takes pieces of one item and
 * counts them as sold, or finds it sold out. All that is one call, which keeps the number of the
 * order too, in a register of its worker. So after a kill the register says which order is next:
 * the one that was open has been made with all of its effect, or not at all. */
#include "onefile.h"

#include <pthread.h>
#include <stdio.h>
#include <stdlib.h>

enum { WORKERS = 8, STOCK = 100, ITEMS = 1000000, ORDERS = 100000, TELL = 1000 };
enum { SOLD = 0, LAST = 8 }; /* the registers of worker 0 */

typedef struct worker {
  uint32_t number;
  uint32_t last; /* the last order that it has made; the first one has number 1 */
} worker;

static onefile_memory memory = ONEFILE_NONE;
static uint32_t items = ITEMS, orders = ORDERS;

/* Ends the program if something is not so. */
static void expect(int holds, const char *what) {
  if (holds) return;
  printf("wrong: %s\n", what);
  fflush(stdout);
  _Exit(1);
}

static void must(int answer) { expect(answer == ONEFILE_DONE, onefile_name(answer)); }

/* Runs a script, and gives whether it took effect. */
static int run(uint32_t number, const uint64_t *script, size_t count, onefile_reply *reply) {
  must(onefile_call(&memory, number, script, count, reply));
  return reply->cause == 0;
}

/* What a script of one instruction answers. */
static uint32_t answer_to(uint32_t number, uint64_t instruction) {
  onefile_reply reply;
  expect(run(number, &instruction, 1, &reply), "an instruction aborts");
  expect(reply.given[0] == 1, "a key is not there");
  return reply.values[0];
}

/* ---- Orders. */

/* The item of an order, by its worker and its number. One of eight is of an item in demand, which is
 * sold out soon. */
static uint32_t item_of(uint32_t number, uint32_t order) {
  uint32_t x = (order * 8 + number) * 2654435761u;
  x = (x ^ x >> 15) * 2246822519u;
  x ^= x >> 13;
  uint32_t choice = x >> 3;
  return x % 8 == 0 ? choice % 100 % items : choice % items;
}

/* How many pieces each order of an item takes. */
static uint32_t pieces_of(uint32_t item) { return 1 + item % 3; }

/* Makes an order. It looks first; `need` aborts the call if another worker has changed the item
 * since, and then it looks again. */
static void make_order(uint32_t number, uint32_t order) {
  uint32_t item = item_of(number, order), pieces = pieces_of(item), left;
  onefile_reply reply;
  do {
    left = answer_to(number, onefile_get(item));
    const uint64_t take[] = {onefile_need(item, left), onefile_store(LAST + number, order),
                             onefile_put(item, left - pieces), onefile_add(SOLD + number, pieces)};
    run(number, take, left >= pieces ? 4 : 2, &reply); /* sold out: it is made, and takes nothing */
    expect(reply.cause == 0 || reply.cause == ONEFILE_CAUSE_DIFFERS, "another cause");
  } while (reply.cause != 0);
}

static void tell(const worker *one) {
  printf("worker %u has made %u\n", one->number, one->last);
  fflush(stdout);
}

static void *work(void *worker_of) {
  worker *one = worker_of;
  while (one->last < orders) {
    make_order(one->number, one->last + 1);
    one->last++;
    if (one->last % TELL == 0) tell(one);
  }
  return NULL;
}

/* ---- The file. */

/* Opens the memory of the file, or makes it. */
static void open_items(const char *path) {
  int answer = onefile_reopen_file(&memory, path, ONEFILE_GREATEST_LIMIT, NULL);
  if (answer == ONEFILE_NO_FILE) {
    answer = onefile_open_file(&memory, path, WORKERS, items, ONEFILE_GREATEST_LIMIT);
  }
  must(answer);
  for (uint32_t i = 0; i < WORKERS; i++) must(onefile_enrol(&memory, i));
  printf("open\n");
  fflush(stdout);
}

/* Puts the items that are not there yet, in the order of their keys. So the number of keys says how
 * far an earlier run has come. */
static void fill(void) {
  onefile_reply reply;
  uint32_t next;
  while ((next = answer_to(0, onefile_count())) < items) {
    uint64_t some[ONEFILE_MOST_INSTRS];
    size_t count = 0;
    while (count < ONEFILE_MOST_INSTRS && next < items) some[count++] = onefile_put(next++, STOCK);
    expect(run(0, some, count, &reply), "the items have no room");
  }
  expect(next == items, "the file has other items");
}

/* How many orders of each item were made, by the numbers of the last ones. */
static uint32_t *orders_made(worker *workers) {
  uint32_t *made = calloc(items, sizeof *made);
  expect(made != NULL, "no memory");
  for (uint32_t i = 0; i < WORKERS; i++) {
    workers[i] = (worker){i, answer_to(i, onefile_load(LAST + i))};
    for (uint32_t order = 1; order <= workers[i].last; order++) made[item_of(i, order)]++;
  }
  return made;
}

/* Looks at all items, and gives how many pieces are sold. All orders of an item take as many pieces,
 * so how many are left doesn't depend on which order came first. */
static uint64_t look(worker *workers) {
  uint32_t *made = orders_made(workers);
  uint64_t sold = 0, counted = 0;
  for (uint32_t item = 0; item < items;) {
    uint64_t some[ONEFILE_MOST_INSTRS];
    onefile_reply reply;
    size_t count = 0;
    while (count < ONEFILE_MOST_INSTRS && item + count < items) {
      some[count] = onefile_get(item + (uint32_t)count);
      count++;
    }
    expect(run(0, some, count, &reply), "an item is not there");
    for (size_t i = 0; i < count; i++, item++) {
      uint32_t pieces = pieces_of(item), most = STOCK / pieces;
      uint32_t taken = pieces * (made[item] < most ? made[item] : most);
      expect(reply.given[i] && reply.values[i] + taken == STOCK, "an order is lost, or made twice");
      sold += taken;
    }
  }
  free(made);
  for (uint32_t i = 0; i < WORKERS; i++) counted += answer_to(i, onefile_load(SOLD + i));
  expect(counted == sold, "stock and sold don't add up");
  return sold;
}

int main(int argc, char **argv) {
  pthread_t threads[WORKERS];
  worker workers[WORKERS];
  if (argc < 2 || argc > 4) {
    return fprintf(stderr, "usage: inventory FILE [ITEMS [ORDERS]]\n"), 2;
  }
  if (argc > 2) items = (uint32_t)strtoul(argv[2], NULL, 10);
  if (argc > 3) orders = (uint32_t)strtoul(argv[3], NULL, 10);
  expect(items > 0, "no items");
  open_items(argv[1]);
  fill();
  look(workers);
  for (int i = 0; i < WORKERS; i++) tell(&workers[i]);
  for (int i = 0; i < WORKERS; i++) pthread_create(&threads[i], NULL, work, &workers[i]);
  for (int i = 0; i < WORKERS; i++) pthread_join(threads[i], NULL);
  uint64_t sold = look(workers);
  printf("%llu pieces are sold, and %llu are left\n", (unsigned long long)sold,
         (unsigned long long)items * STOCK - sold);
  for (uint32_t i = 0; i < WORKERS; i++) must(onefile_leave(&memory, i));
  onefile_saved saved = ONEFILE_NONE;
  must(onefile_close(&memory, &saved));
  must(onefile_free_saved(&saved));
  return 0;
}
