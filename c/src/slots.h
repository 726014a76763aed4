/* slots.h: how the files of the library's C side take a memory or what was saved. Each is taken by
 * one atomic exchange, so nobody waits. Private to the library. */
#ifndef ONEFILE_SLOTS_H
#define ONEFILE_SLOTS_H

#include "of_c.h"

/* Whether the memory was opened in a file by the process that has forked this one: then its table
 * is not here. */
int mapped_is_inherited(onefile_memory *memory);

/* Whether the memory is in a file, and has no such number for users. */
int mapped_lacks(const onefile_memory *memory, uint32_t number);

/* Whether processes share the memory. */
int shared_has(const onefile_memory *memory);

/* Whether the memory is in a file, and closes it and opens one in its place whose sequences begin
 * anew; what it has left is kept in `saved`. */
int mapped_has(const onefile_memory *memory);
uint32_t mapped_renumber(onefile_memory *memory, onefile_slot *saved);

/* Enrols a caller of a shared memory, if no living process has its number. The memory and the
 * caller's slot are claimed; the second function claims slots itself. TAKEN, NOT_YET, SPENT. */
uint32_t shared_enrol(onefile_memory *memory, uint32_t number);
uint32_t shared_enrol_any(onefile_memory *memory, uint32_t *number);

/* Has a spare caller make a commit, if the memory is shared. Such a memory is claimed. */
void shared_nudge(onefile_memory *memory);

/* Lets the number go of a caller that has left, if it is of a shared memory. */
void shared_leave(onefile_guarded *caller, uint32_t number);

/* Lets a shared memory go that is claimed with all its callers. IN_USE. */
uint32_t shared_close(onefile_memory *memory);

/* Of a shared memory, the file is told of a call before it begins, and after it what came of it. */
void shared_begin(onefile_guarded *caller, uint32_t number);
void shared_end(onefile_guarded *caller, uint32_t number, uint32_t answer);

static inline int claim(onefile_guarded *one) {
  return __atomic_exchange_n(&one->busy, 1, __ATOMIC_SEQ_CST) == 0;
}

/* The next to take it sees all that was written before this. No fence is needed after it: it would
 * cost as much as the exchange. */
static inline void release(onefile_guarded *one) {
  __atomic_store_n(&one->busy, 0, __ATOMIC_RELEASE);
}

/* Takes both, or none. */
static inline int claim_both(onefile_guarded *one, onefile_guarded *other) {
  if (!claim(one)) return 0;
  if (claim(other)) return 1;
  release(one);
  return 0;
}

static inline void release_callers(onefile_memory *memory, size_t count) {
  while (count > 0) release(&memory->caller[--count]);
}

/* Takes the memory with all its callers, or nothing. */
static inline int claim_all(onefile_memory *memory) {
  if (!claim(&memory->memory)) return 0;
  for (size_t i = 0; i < ONEFILE_MOST_CALLERS; i++) {
    if (!claim(&memory->caller[i])) {
      release_callers(memory, i);
      release(&memory->memory);
      return 0;
    }
  }
  return 1;
}

static inline void release_all(onefile_memory *memory) {
  release_callers(memory, ONEFILE_MOST_CALLERS);
  release(&memory->memory);
}

/* Enrols a caller of a memory, if its slot and the memory's are taken. */
static inline uint32_t enrol_caller(onefile_memory *memory, uint32_t number) {
  onefile_guarded *caller = &memory->caller[number];
  of_c_pair both = {memory->memory.slot, caller->slot};
  uint32_t answer = of_c_enrol(&both, number);
  memory->memory.slot = both.memory;
  caller->slot = both.caller;
  return answer;
}

/* Lets a caller leave its memory, if both slots are taken. */
static inline uint32_t leave_caller(onefile_memory *memory, uint32_t number) {
  onefile_guarded *caller = &memory->caller[number];
  of_c_pair both = {memory->memory.slot, caller->slot};
  uint32_t answer = of_c_leave(&both);
  memory->memory.slot = both.memory;
  caller->slot = both.caller;
  return answer;
}

/* Whether a caller is enrolled, if all are taken. */
static inline int has_caller(const onefile_memory *memory) {
  for (size_t i = 0; i < ONEFILE_MOST_CALLERS; i++) {
    if (memory->caller[i].slot.state != 0) return 1;
  }
  return 0;
}

#endif
