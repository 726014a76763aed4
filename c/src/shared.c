/* shared.c: memories that several processes have at once.
 *
 * The life of a shared file begins when it is made or recovered, which only a process does that
 * nobody shares the file with (LOCK_EX). It ends when nobody has it any more (LOCK_SH). The file
 * keeps, behind its table, the durable words that the life has started from. Each process opens a
 * memory of its own on private pages, from these words: they are the same for all. No caller has
 * made a step then. Then the pages of the file come in the place of the private ones.
 *
 * So each process has callers of all numbers, in the state from which every number starts. Who has
 * the lock of a number has the number: from enrolment until it leaves or dies. If nobody has had it
 * in this life, it begins with the machine that the process has for it. Then its bit in the header
 * is set, and stays so until the life ends. If it was had before, it gets a new machine, made from
 * the words on the shared pages and from the count of its calls, which is in the header. Nothing
 * but steps of callers, evictions and looks is done on these pages: no memory on them is ever
 * closed.
 *
 * A number whose last owner died with its log half written gets no new machine before a commit.
 * The last callers of the table are spare: one of them makes that commit. Its number is had for one
 * call and let go then, as any other one. If the process dies in this call, the other spare caller
 * makes the next commit, which frees the first one too. */
#define _GNU_SOURCE
#include "files.h"
#include "slots.h"

#include <errno.h>
#include <fcntl.h>
#include <pthread.h>
#include <sched.h>
#include <stdlib.h>
#include <string.h>
#include <sys/file.h>
#include <sys/mman.h>
#include <time.h>
#include <unistd.h>

/* The answer if another process begins or ends a life of the file just now. */
enum { AGAIN = 1000 };

/* How often it is tried again, and after how long. */
enum { MOST_TRIES = 1000, A_MILLISECOND = 1000000 };

/* How often a number's request is evicted before the number is said to be not yet free. */
enum { MOST_EVICTIONS = 4 };

/* How often a commit by a spare caller is tried, if other processes have the spare callers. */
enum { MOST_NUDGES = 100 };

/* The byte whose lock is that of number 0. No file is so long. */
#define LOCKS ((off_t)1 << 40)

/* What is asked for. */
typedef struct wish {
  const char *path;
  uint32_t callers, blocks, limit;
  onefile_memory *memory;
} wish;

/* The lock of so many numbers from this one on. It is this memory's own, and that of no other one
 * of this process; the system lets it go when the process ends. */
static int set_lock(int file, short how, uint32_t number, uint32_t count) {
  struct flock lock = {.l_type = how, .l_whence = SEEK_SET, .l_len = count};
  lock.l_start = LOCKS + (off_t)number;
  return fcntl(file, F_OFD_SETLK, &lock);
}

/* ---- To have a life of the file. */

/* The words that the life of a file has started from. BAD_FILE. */
static uint32_t read_start(int file, birth *born) {
  const header *head = &born->head;
  size_t bytes = head->table.durable * sizeof(uint64_t);
  size_t summed = offsetof(header, share_sum) - offsetof(header, limit);
  if (head->share_sum != mapped_sum(head->sum, &head->limit, summed)) return ONEFILE_BAD_FILE;
  uint64_t *words = malloc(bytes);
  if (!words) return ONEFILE_NO_MEMORY;
  uint32_t answer = mapped_read_all(file, words, bytes, mapped_start_at(head));
  if (answer == ONEFILE_DONE && mapped_sum(head->sum, words, bytes) != head->start_sum) {
    answer = ONEFILE_BAD_FILE;
  }
  if (answer == ONEFILE_DONE) {
    answer = of_c_from_words(head->callers, head->blocks, head->limit, words, head->table.durable,
                             &born->start);
    if (answer == ONEFILE_RANGE) answer = ONEFILE_BAD_FILE;
  }
  free(words);
  return answer;
}

/* Whether the words of the memory that was opened are those that all others have started from. */
static uint32_t is_start(const birth *born, const char *words) {
  const header *head = &born->head;
  const char *durable = words + head->table.first * sizeof(uint64_t);
  uint64_t sum = mapped_sum(head->sum, durable, head->table.durable * sizeof(uint64_t));
  return sum == head->start_sum ? ONEFILE_DONE : mapped_mistaken();
}

/* Opens a memory on private pages, and puts those of the file in their place. */
static uint32_t open_shared(int file, birth *born, table *one, onefile_slot *memory) {
  int may = PROT_READ | PROT_WRITE;
  one->size = (size_t)mapped_start_at(&born->head);
  void *map = mmap(NULL, one->size, may, MAP_PRIVATE | MAP_ANONYMOUS, -1, 0);
  if (map == MAP_FAILED) return mapped_refusal();
  one->map = map;
  char *words = (char *)map + PAGE;
  uint32_t answer = mapped_open_at(born, one, words, memory);
  if (answer == ONEFILE_DONE) answer = is_start(born, words);
  if (answer != ONEFILE_DONE) return answer;
  if (mmap(map, one->size, may, MAP_SHARED | MAP_FIXED, file, 0) == MAP_FAILED ||
      madvise(map, one->size, MADV_DONTFORK) != 0) {
    return mapped_refusal();
  }
  return ONEFILE_DONE;
}

/* Whether the file has callers and blocks as the wish has. */
static int has_sizes(const header *head, const wish *asked) {
  return head->callers - head->spare == asked->callers && head->blocks == asked->blocks;
}

/* Has the memory of the wish on a life of the file. */
static uint32_t join(int file, birth *born, const wish *asked) {
  onefile_slot *memory = &asked->memory->memory.slot;
  if (!has_sizes(&born->head, asked)) return ONEFILE_OTHER_SIZES;
  table *one = mapped_free_table();
  if (!one) return ONEFILE_NO_MEMORY;
  one->map = NULL;
  one->file = file;
  one->is_opening = one->is_shared = 1;
  one->lost = 0;
  atomic_store(&one->memory, asked->memory);
  uint32_t answer = read_start(file, born);
  if (answer == ONEFILE_DONE) answer = open_shared(file, born, one, memory);
  if (answer != ONEFILE_DONE) {
    int why = errno;
    of_c_free(memory);
    mapped_empty(one);
    if (one->map) munmap(one->map, one->size);
    errno = why;
  }
  one->is_opening = 0;
  return answer;
}

void shared_end_life(int file) {
  static const uint64_t mark = IS_CLOSED;
  set_lock(file, F_UNLCK, 0, ONEFILE_MOST_CALLERS); /* a forked child may have the file still */
  if (flock(file, LOCK_EX | LOCK_NB) != 0) return; /* others have it still */
  if (fsync(file) != 0) return;
  if (pwrite(file, &mark, sizeof mark, offsetof(header, closed)) == sizeof mark) fsync(file);
}

/* Joins the life of a file that is locked by LOCK_SH. The table has the file then; if not, it is
 * let go. AGAIN if the life has ended, or if it is a file for one process: nobody has it. */
static uint32_t join_or_let_go(int file, const wish *asked) {
  birth born = {.path = asked->path};
  uint32_t answer = mapped_look(file, &born.head, &born.mode);
  if (answer == ONEFILE_DONE) {
    if (born.head.version != FOR_MANY || born.head.closed == IS_CLOSED) answer = AGAIN;
    else answer = join(file, &born, asked);
    of_c_free(&born.start);
    if (answer == ONEFILE_DONE) return answer;
    int why = errno;
    if (answer != AGAIN) shared_end_life(file);
    errno = why;
  }
  int why = errno;
  close(file);
  errno = why;
  return answer;
}

/* ---- To begin one. */

/* Begins a life in a new file with what `born` has, and joins it. As the lock changes, another
 * process may take the file to end that life, in which no step was made. */
static uint32_t begin_life(birth *born, const wish *asked) {
  onefile_slot first = {0};
  table *one = mapped_free_table();
  if (!one) return ONEFILE_NO_MEMORY;
  uint32_t callers = asked->callers + born->head.spare;
  uint32_t answer = mapped_head_for(born, FOR_MANY, callers, asked->blocks);
  born->head.limit = asked->limit;
  if (answer == ONEFILE_DONE) answer = mapped_make(born, one, &first);
  if (answer == ONEFILE_FILE_IN_USE) return AGAIN; /* another process makes the new file */
  if (answer != ONEFILE_DONE) return answer;
  int file = one->file;
  if (flock(file, LOCK_SH | LOCK_NB) == 0 && mapped_is_named(file, born->path)) {
    return join_or_let_go(file, asked);
  }
  close(file);
  return AGAIN;
}

/* Begins a life with what recovery finds in a file that this process alone has. */
static uint32_t recover(int file, const wish *asked) {
  birth born = {.path = asked->path};
  uint32_t answer = mapped_go_on_from(file, &born, asked->limit);
  if (answer == ONEFILE_DONE && !has_sizes(&born.head, asked)) answer = ONEFILE_OTHER_SIZES;
  if (answer == ONEFILE_DONE) answer = begin_life(&born, asked);
  of_c_free(&born.start);
  return answer;
}

static uint32_t make_first(const wish *asked) {
  birth born = {.path = asked->path, .head.spare = ONEFILE_SPARE_CALLERS};
  uint32_t callers = asked->callers + ONEFILE_SPARE_CALLERS;
  uint32_t answer = mapped_conceive(&born, callers, asked->blocks, asked->limit);
  if (answer == ONEFILE_DONE) answer = begin_life(&born, asked);
  of_c_free(&born.start);
  return answer == ONEFILE_FILE_EXISTS ? AGAIN : answer;
}

/* The answer if the file of this name is locked for one process: a memory of one process has it,
 * or a life of it begins or ends just now. */
static uint32_t who_has(const char *path) {
  uint32_t version = FOR_MANY;
  int file = open(path, O_RDONLY | O_CLOEXEC | O_NOFOLLOW);
  if (file < 0) return AGAIN;
  ssize_t size = pread(file, &version, sizeof version, offsetof(header, version));
  close(file);
  return size == sizeof version && version == FOR_ONE ? ONEFILE_FILE_IN_USE : AGAIN;
}

/* Makes the file, recovers it or joins it. The caller has the files. */
static uint32_t try_to_share(const wish *asked) {
  int file = -1;
  uint32_t answer = mapped_open_locked(asked->path, 0, LOCK_EX, &file);
  if (answer == ONEFILE_NO_FILE) return make_first(asked);
  if (answer == ONEFILE_DONE) {
    answer = recover(file, asked);
    int why = errno;
    close(file); /* the new file has been locked since before it had the name */
    errno = why;
    return answer;
  }
  if (answer != ONEFILE_FILE_IN_USE) return answer;
  answer = mapped_open_locked(asked->path, 0, LOCK_SH, &file);
  if (answer == ONEFILE_DONE) return join_or_let_go(file, asked);
  if (answer == ONEFILE_NO_FILE) return AGAIN;
  return answer == ONEFILE_FILE_IN_USE ? who_has(asked->path) : answer;
}

/* Tries until no other process begins or ends a life of the file, for about a second. */
static uint32_t share(const wish *asked) {
  static const struct timespec a_while = {0, A_MILLISECOND};
  uint32_t answer = AGAIN;
  for (int tries = 0; answer == AGAIN && tries < MOST_TRIES; tries++) {
    if (tries > 0) nanosleep(&a_while, NULL);
    int could_be = mapped_take_files();
    answer = try_to_share(asked);
    mapped_let_go_files(could_be);
  }
  return answer == AGAIN ? ONEFILE_FILE_IN_USE : answer;
}

int onefile_share_file(onefile_memory *memory, const char *path, uint32_t callers, uint32_t blocks,
                       uint32_t limit) {
  of_c_table sizes;
  if (!memory || !path) return ONEFILE_NULL;
  if (callers == 0 || callers > ONEFILE_MOST_CALLERS - ONEFILE_SPARE_CALLERS) return ONEFILE_RANGE;
  if (of_c_sizes(callers, blocks, &sizes) != ONEFILE_DONE) return ONEFILE_RANGE;
  if (limit == 0 || limit > ONEFILE_GREATEST_LIMIT) return ONEFILE_RANGE;
  int could_be;
  pthread_setcancelstate(PTHREAD_CANCEL_DISABLE, &could_be);
  uint32_t answer = ONEFILE_BUSY;
  if (claim_all(memory)) {
    answer = ONEFILE_FULL;
    if (memory->memory.slot.state == 0 && !has_caller(memory)) {
      answer = share(&(wish){path, callers, blocks, limit, memory});
    }
    release_all(memory);
  }
  pthread_setcancelstate(could_be, NULL);
  return (int)answer;
}

/* ---- Numbers. */

int shared_has(const onefile_memory *memory) {
  const table *one = mapped_table_of(memory);
  return one && one->is_shared;
}

static uint64_t bit_of(uint32_t number) { return (uint64_t)1 << number; }

/* Takes a number, also one that this memory has. TAKEN, SYSTEM. */
static uint32_t take_number(const table *one, uint32_t number) {
  if (set_lock(one->file, F_WRLCK, number, 1) == 0) return ONEFILE_DONE;
  return errno == EAGAIN || errno == EACCES ? ONEFILE_TAKEN : mapped_refusal();
}

static void let_go_number(const table *one, uint32_t number) {
  set_lock(one->file, F_UNLCK, number, 1);
}

/* Enrols a caller whose number nobody has had in this life. Its count is there before its bit. */
static uint32_t enrol_new(table *one, onefile_memory *memory, uint32_t number) {
  uint32_t begun = 0, answer = enrol_caller(memory, number);
  if (answer != ONEFILE_DONE) return answer;
  of_c_begun(&memory->caller[number].slot, &begun);
  atomic_store(&one->map->number[number].begun, begun);
  atomic_fetch_or(&one->map->used, bit_of(number));
  return ONEFILE_DONE;
}

/* Enrols a caller whose number was had in this life. It gets a new machine, made from the words on
 * the shared pages: the one that it has here is older than they are. NOT_YET, SPENT and NO_MEMORY
 * leave it without one. */
static uint32_t enrol_again(table *one, onefile_memory *memory, uint32_t number) {
  uint32_t answer = ONEFILE_NOT_YET;
  if (!(one->lost & bit_of(number))) {
    uint32_t enrolled = enrol_caller(memory, number);
    if (enrolled != ONEFILE_DONE) return enrolled;
    one->lost |= bit_of(number);
  }
  uint32_t begun = atomic_load(&one->map->number[number].begun);
  for (int tries = 0; answer == ONEFILE_NOT_YET && tries < MOST_EVICTIONS; tries++) {
    of_c_evict_request(&memory->memory.slot, number);
    answer = of_c_revive(&memory->caller[number].slot, begun);
  }
  if (answer == ONEFILE_DONE) one->lost &= ~bit_of(number);
  return answer;
}

/* Enrols a caller whose number is taken and whose slot is claimed. NOT_YET, SPENT, NO_MEMORY. */
static uint32_t enrol_taken(table *one, onefile_memory *memory, uint32_t number) {
  int was_had = (atomic_load(&one->map->used) & bit_of(number)) != 0;
  uint32_t answer =
      was_had ? enrol_again(one, memory, number) : enrol_new(one, memory, number);
  if (answer == ONEFILE_DONE) memory->caller[number].shared = mapped_place_of(one);
  return answer;
}

/* ---- Spare callers. */

/* Makes a commit as a spare caller that is enrolled: ends the call that its last owner has left
 * open, and makes one that aborts in every store. SPENT, NO_TICKET. */
static uint32_t commit_as(onefile_memory *memory, uint32_t number) {
  onefile_guarded *caller = &memory->caller[number];
  const uint64_t script[] = {onefile_store(0, 0), onefile_sub(0, 1)};
  onefile_reply reply;
  uint32_t answer = of_c_go_on(&caller->slot, ONEFILE_NO_END, &reply);
  if (answer != ONEFILE_DONE && answer != ONEFILE_NO_CALL) return answer;
  shared_begin(caller, number);
  answer = of_c_call(&caller->slot, script, 2, ONEFILE_NO_END, &reply);
  shared_end(caller, number, answer);
  return answer;
}

/* The same as one that nobody has now. It is let go then, also if it got no machine. TAKEN,
 * NOT_YET, SPENT, NO_TICKET, NO_MEMORY, SYSTEM. */
static uint32_t nudge_as(table *one, onefile_memory *memory, uint32_t number) {
  onefile_guarded *caller = &memory->caller[number];
  if (!claim(caller)) return ONEFILE_TAKEN; /* a call has it, which is answered EMPTY */
  uint32_t found = take_number(one, number), has_taken = found == ONEFILE_DONE;
  if (has_taken) found = enrol_taken(one, memory, number);
  if (found == ONEFILE_DONE) {
    found = commit_as(memory, number);
    leave_caller(memory, number);
    shared_leave(caller, number);
  } else if (has_taken) {
    let_go_number(one, number);
  }
  release(caller);
  return found;
}

/* Makes a commit as any spare caller. TAKEN if others have a spare caller, NOT_YET if each one is
 * not free yet, or there is none; SPENT, NO_MEMORY, SYSTEM. */
static uint32_t nudge(table *one, onefile_memory *memory) {
  uint32_t answer = ONEFILE_NOT_YET;
  for (uint32_t i = 0; i < one->spare; i++) {
    uint32_t found = nudge_as(one, memory, one->callers + i);
    if (found == ONEFILE_TAKEN) answer = found;
    else if (found != ONEFILE_NOT_YET && found != ONEFILE_NO_TICKET) return found;
  }
  return answer;
}

void shared_nudge(onefile_memory *memory) {
  if (shared_has(memory)) nudge(mapped_table_of(memory), memory);
}

/* Enrols a caller whose number is taken. If it is not free yet, a spare caller makes a commit. */
static uint32_t enrol_freed(table *one, onefile_memory *memory, uint32_t number) {
  uint32_t answer = enrol_taken(one, memory, number);
  for (int tries = 0; answer == ONEFILE_NOT_YET && tries < MOST_NUDGES; tries++) {
    uint32_t found = nudge(one, memory);
    if (found == ONEFILE_TAKEN) sched_yield();
    else if (found != ONEFILE_DONE) return found;
    answer = enrol_taken(one, memory, number);
  }
  return answer;
}

/* ---- Enrolment. */

uint32_t shared_enrol(onefile_memory *memory, uint32_t number) {
  table *one = mapped_table_of(memory);
  onefile_guarded *caller = &memory->caller[number];
  if (caller->slot.state != 0 && !(one->lost & bit_of(number))) return ONEFILE_TAKEN;
  uint32_t answer = take_number(one, number);
  if (answer != ONEFILE_DONE) return answer;
  answer = enrol_freed(one, memory, number);
  if (answer != ONEFILE_DONE && !(one->lost & bit_of(number))) let_go_number(one, number);
  return answer;
}

/* Tries one number of any. If it is not free yet, another process may have it before this one. */
static uint32_t try_number(table *one, onefile_memory *memory, uint32_t number) {
  onefile_guarded *caller = &memory->caller[number];
  if (!claim(caller)) return ONEFILE_TAKEN; /* a call has it */
  uint32_t answer = shared_enrol(memory, number);
  if (answer != ONEFILE_DONE && answer != ONEFILE_TAKEN) let_go_number(one, number);
  release(caller);
  return answer;
}

/* First those that nobody has had in this life, then the others. */
uint32_t shared_enrol_any(onefile_memory *memory, uint32_t *number) {
  table *one = mapped_table_of(memory);
  uint64_t used = atomic_load(&one->map->used);
  uint32_t answer = ONEFILE_TAKEN;
  for (uint32_t i = 0; i < 2 * one->callers; i++) {
    uint32_t it = i % one->callers;
    if (((used & bit_of(it)) != 0) != (i >= one->callers)) continue;
    uint32_t found = try_number(one, memory, it);
    if (found == ONEFILE_DONE) *number = it;
    if (found == ONEFILE_TAKEN) continue;
    if (answer != ONEFILE_SPENT) answer = found;
    if (found != ONEFILE_NOT_YET && found != ONEFILE_SPENT) return found;
  }
  return answer;
}

void shared_leave(onefile_guarded *caller, uint32_t number) {
  if (caller->shared == 0) return;
  let_go_number(mapped_table_in(caller->shared), number);
  caller->shared = 0;
}

uint32_t shared_close(onefile_memory *memory) {
  uint64_t lost = mapped_table_of(memory)->lost;
  for (uint32_t i = 0; i < ONEFILE_MOST_CALLERS; i++) {
    if (memory->caller[i].slot.state != 0 && !(lost & bit_of(i))) return ONEFILE_IN_USE;
  }
  for (uint32_t i = 0; i < ONEFILE_MOST_CALLERS; i++) of_c_free(&memory->caller[i].slot);
  return of_c_free(&memory->memory.slot);
}

/* ---- Counts of calls. */

static void count(onefile_guarded *caller, uint32_t number, uint32_t more) {
  uint32_t begun = 0;
  if (of_c_begun(&caller->slot, &begun) != ONEFILE_DONE || begun > UINT32_MAX - more) return;
  atomic_store(&mapped_table_in(caller->shared)->map->number[number].begun, begun + more);
}

/* The count is one more before the call's first step. So it is never too low. If the process dies
 * before that step, the count is one too high: this call is lost. */
void shared_begin(onefile_guarded *caller, uint32_t number) {
  if (caller->shared != 0) count(caller, number, 1);
}

/* A call that was refused was not begun. */
void shared_end(onefile_guarded *caller, uint32_t number, uint32_t answer) {
  if (caller->shared == 0 || answer == ONEFILE_DONE) return;
  if (answer != ONEFILE_STOPPED && answer != ONEFILE_SPENT) count(caller, number, 0);
}
