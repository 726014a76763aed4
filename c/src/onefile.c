/* onefile.c: the C side of the library. It tests what the proved functions can't test: that no
 * pointer is null, and that each slot is in one call at a time. The slots of a memory and of its
 * callers are always those of one onefile_memory, and the memory's slot is filled and emptied only
 * while all slots of its callers are taken and empty. So a caller that is held is one of the memory
 * beside it. */
#include "of_c.h"
#include "slots.h"

const char *onefile_version(void) {
  return ONEFILE_PROVED ? ONEFILE_VERSION : ONEFILE_VERSION " (not proved)";
}

const char *onefile_name(int answer) {
  static const char *const names[] = {
      "ONEFILE_DONE",        "ONEFILE_NULL",        "ONEFILE_BUSY",     "ONEFILE_EMPTY",
      "ONEFILE_FULL",        "ONEFILE_NO_MEMORY",   "ONEFILE_RANGE",    "ONEFILE_TAKEN",
      "ONEFILE_CALL_OPEN",   "ONEFILE_NO_CALL",     "ONEFILE_STOPPED",  "ONEFILE_SPENT",
      "ONEFILE_NO_TICKET",   "ONEFILE_NO_SCRIPT",   "ONEFILE_IN_USE",   "ONEFILE_ABSENT",
      "ONEFILE_NO_ROOM",     "ONEFILE_NO_IMAGE",    "ONEFILE_BAD_FILE", "ONEFILE_NO_FILE",
      "ONEFILE_FILE_EXISTS", "ONEFILE_FILE_IN_USE", "ONEFILE_TORN",     "ONEFILE_NO_SPACE",
      "ONEFILE_SYSTEM",      "ONEFILE_OTHER_SIZES", "ONEFILE_OTHER_VERSION",
      "ONEFILE_NOT_YET"};
  return answer >= 0 && (size_t)answer < sizeof names / sizeof *names ? names[answer]
                                                                      : "ONEFILE_?";
}

/* ---- Memories. */

int onefile_open(onefile_memory *memory, uint32_t callers, uint32_t blocks, uint32_t limit) {
  if (!memory) return ONEFILE_NULL;
  if (!claim_all(memory)) return ONEFILE_BUSY;
  uint32_t answer = ONEFILE_FULL;
  if (!has_caller(memory)) answer = of_c_open(callers, blocks, limit, &memory->memory.slot);
  release_all(memory);
  return (int)answer;
}

int onefile_reopen(onefile_memory *memory, onefile_saved *saved) {
  if (!memory || !saved) return ONEFILE_NULL;
  if (!claim(&saved->saved)) return ONEFILE_BUSY;
  uint32_t answer = ONEFILE_BUSY;
  if (claim_all(memory)) {
    answer = ONEFILE_FULL;
    if (!has_caller(memory)) answer = of_c_reopen(&saved->saved.slot, &memory->memory.slot);
    release_all(memory);
  }
  release(&saved->saved);
  return (int)answer;
}

/* Whether this process may use a number of the memory: RANGE if it is a spare one, FILE_IN_USE. */
static uint32_t may_use(onefile_memory *memory, uint32_t number) {
  if (mapped_lacks(memory, number)) return ONEFILE_RANGE;
  return mapped_is_inherited(memory) ? ONEFILE_FILE_IN_USE : ONEFILE_DONE;
}

/* Enrols a caller, if its slot and the memory's are taken. */
static uint32_t enrol(onefile_memory *memory, uint32_t number) {
  uint32_t answer = may_use(memory, number);
  if (answer != ONEFILE_DONE) return answer;
  return shared_has(memory) ? shared_enrol(memory, number) : enrol_caller(memory, number);
}

int onefile_enrol(onefile_memory *memory, uint32_t number) {
  if (!memory) return ONEFILE_NULL;
  if (number >= ONEFILE_MOST_CALLERS) return ONEFILE_RANGE;
  onefile_guarded *caller = &memory->caller[number];
  if (!claim_both(&memory->memory, caller)) return ONEFILE_BUSY;
  uint32_t answer = enrol(memory, number);
  release(caller);
  release(&memory->memory);
  return (int)answer;
}

/* Enrols the first caller that is free, of a memory that is taken. */
static uint32_t enrol_first(onefile_memory *memory, uint32_t *number) {
  uint32_t answer = ONEFILE_TAKEN;
  for (uint32_t i = 0; answer == ONEFILE_TAKEN && i < ONEFILE_MOST_CALLERS; i++) {
    onefile_guarded *caller = &memory->caller[i];
    if (!claim(caller)) continue; /* a call has it */
    answer = enrol(memory, i);
    release(caller);
    if (answer == ONEFILE_DONE) *number = i;
  }
  return answer == ONEFILE_RANGE ? ONEFILE_TAKEN : answer;
}

int onefile_enrol_any(onefile_memory *memory, uint32_t *number) {
  if (!memory || !number) return ONEFILE_NULL;
  if (!claim(&memory->memory)) return ONEFILE_BUSY;
  int is_shared = shared_has(memory) && !mapped_is_inherited(memory);
  uint32_t answer = is_shared ? shared_enrol_any(memory, number) : enrol_first(memory, number);
  release(&memory->memory);
  return (int)answer;
}

int onefile_leave(onefile_memory *memory, uint32_t number) {
  if (!memory) return ONEFILE_NULL;
  if (number >= ONEFILE_MOST_CALLERS) return ONEFILE_RANGE;
  onefile_guarded *caller = &memory->caller[number];
  if (!claim_both(&memory->memory, caller)) return ONEFILE_BUSY;
  uint32_t answer = leave_caller(memory, number);
  if (answer == ONEFILE_DONE) shared_leave(caller, number);
  release(caller);
  release(&memory->memory);
  return (int)answer;
}

/* Closes a memory that is taken with all its callers. One that is shared is let go: others work on
 * with it, so nothing is recovered. */
static uint32_t close_taken(onefile_memory *memory, onefile_saved *saved) {
  int is_shared = shared_has(memory);
  if (!saved && !is_shared) return ONEFILE_NULL;
  if (mapped_is_inherited(memory)) return ONEFILE_FILE_IN_USE;
  if (is_shared) return shared_close(memory);
  if (has_caller(memory)) return ONEFILE_IN_USE;
  return of_c_close(&memory->memory.slot, &saved->saved.slot);
}

int onefile_close(onefile_memory *memory, onefile_saved *saved) {
  if (!memory) return ONEFILE_NULL;
  if (saved && !claim(&saved->saved)) return ONEFILE_BUSY;
  uint32_t answer = ONEFILE_BUSY;
  if (claim_all(memory)) {
    answer = close_taken(memory, saved);
    release_all(memory);
  }
  if (saved) release(&saved->saved);
  return (int)answer;
}

/* Has the sequences of a memory begin anew that is taken with all its callers. */
static uint32_t renumber_taken(onefile_memory *memory, onefile_saved *saved) {
  if (mapped_is_inherited(memory) || shared_has(memory)) return ONEFILE_FILE_IN_USE;
  if (mapped_has(memory)) return mapped_renumber(memory, &saved->saved.slot);
  uint32_t answer = of_c_close(&memory->memory.slot, &saved->saved.slot);
  if (answer == ONEFILE_DONE) answer = of_c_renumber(&saved->saved.slot);
  return answer == ONEFILE_DONE ? of_c_reopen(&saved->saved.slot, &memory->memory.slot) : answer;
}

int onefile_renumber(onefile_memory *memory, onefile_saved *saved) {
  if (!memory || !saved) return ONEFILE_NULL;
  if (!claim(&saved->saved)) return ONEFILE_BUSY;
  uint32_t answer = ONEFILE_BUSY;
  if (claim_all(memory)) {
    answer = renumber_taken(memory, saved);
    release_all(memory);
  }
  release(&saved->saved);
  return (int)answer;
}

int onefile_free(onefile_memory *memory) {
  if (!memory) return ONEFILE_NULL;
  if (!claim_all(memory)) return ONEFILE_BUSY;
  for (size_t i = 0; i < ONEFILE_MOST_CALLERS; i++) {
    of_c_free(&memory->caller[i].slot);
    memory->caller[i].shared = 0;
  }
  uint32_t answer = of_c_free(&memory->memory.slot);
  release_all(memory);
  return (int)answer;
}

/* ---- Calls. */

/* A length of 0 needs no pointer. */
static const uint64_t no_words[1];
static const uint8_t no_text[1];

int onefile_call_within(onefile_memory *memory, uint32_t number, const uint64_t *words, size_t count,
                        uint64_t steps, onefile_reply *reply) {
  if (!memory || (!words && count > 0) || !reply) return ONEFILE_NULL;
  if (number >= ONEFILE_MOST_CALLERS) return ONEFILE_RANGE;
  onefile_guarded *caller = &memory->caller[number];
  if (!claim(caller)) return ONEFILE_BUSY;
  shared_begin(caller, number);
  uint32_t answer = of_c_call(&caller->slot, words ? words : no_words, count, steps, reply);
  shared_end(caller, number, answer);
  release(caller);
  return (int)answer;
}

int onefile_call(onefile_memory *memory, uint32_t number, const uint64_t *words, size_t count,
                 onefile_reply *reply) {
  return onefile_call_within(memory, number, words, count, ONEFILE_NO_END, reply);
}

int onefile_call_text_within(onefile_memory *memory, uint32_t number, const char *text,
                             size_t length, uint64_t steps, onefile_reply *reply) {
  if (!memory || (!text && length > 0) || !reply) return ONEFILE_NULL;
  if (number >= ONEFILE_MOST_CALLERS) return ONEFILE_RANGE;
  onefile_guarded *caller = &memory->caller[number];
  if (!claim(caller)) return ONEFILE_BUSY;
  const uint8_t *bytes = text ? (const uint8_t *)text : no_text;
  shared_begin(caller, number);
  uint32_t answer = of_c_call_text(&caller->slot, bytes, length, steps, reply);
  shared_end(caller, number, answer);
  release(caller);
  return (int)answer;
}

int onefile_call_text(onefile_memory *memory, uint32_t number, const char *text, size_t length,
                      onefile_reply *reply) {
  return onefile_call_text_within(memory, number, text, length, ONEFILE_NO_END, reply);
}

int onefile_go_on(onefile_memory *memory, uint32_t number, uint64_t steps, onefile_reply *reply) {
  if (!memory || !reply) return ONEFILE_NULL;
  if (number >= ONEFILE_MOST_CALLERS) return ONEFILE_RANGE;
  onefile_guarded *caller = &memory->caller[number];
  if (!claim(caller)) return ONEFILE_BUSY;
  uint32_t answer = of_c_go_on(&caller->slot, steps, reply);
  release(caller);
  return (int)answer;
}

/* How often a last reply is looked for, if calls of others take effect meanwhile. */
enum { MOST_LOOKS = 100 };

static uint32_t look_for_reply(onefile_memory *memory, uint32_t number, onefile_reply *reply) {
  uint32_t answer = ONEFILE_NOT_YET;
  for (int tries = 0; answer == ONEFILE_NOT_YET && tries < MOST_LOOKS; tries++) {
    answer = of_c_last_reply_of(&memory->memory.slot, number, reply);
  }
  return answer;
}

/* Looks for a last reply, if the memory's slot is taken. A call whose process has died may be half
 * done: a commit ends it. */
static uint32_t find_reply(onefile_memory *memory, uint32_t number, onefile_reply *reply) {
  uint32_t answer = may_use(memory, number);
  if (answer == ONEFILE_DONE) answer = look_for_reply(memory, number, reply);
  if (answer != ONEFILE_NOT_YET || !shared_has(memory)) return answer;
  shared_nudge(memory);
  return look_for_reply(memory, number, reply);
}

int onefile_last_reply_of(onefile_memory *memory, uint32_t number, onefile_reply *reply) {
  if (!memory || !reply) return ONEFILE_NULL;
  if (number >= ONEFILE_MOST_CALLERS) return ONEFILE_RANGE;
  uint32_t answer = ONEFILE_BUSY;
  if (claim(&memory->memory)) {
    answer = find_reply(memory, number, reply);
    release(&memory->memory);
  }
  return (int)answer;
}

int onefile_sequences_left(onefile_memory *memory, uint32_t number, uint32_t *left) {
  if (!memory || !left) return ONEFILE_NULL;
  if (number >= ONEFILE_MOST_CALLERS) return ONEFILE_RANGE;
  onefile_guarded *caller = &memory->caller[number];
  if (!claim(caller)) return ONEFILE_BUSY;
  uint32_t answer = of_c_sequences_left(&caller->slot, left);
  release(caller);
  return (int)answer;
}

/* ---- What was saved. */

/* The call of one function on what was saved. */
#define ON(saved, given, call)                         \
  do {                                                 \
    if (!(saved) || !(given)) return ONEFILE_NULL;     \
    if (!claim(&(saved)->saved)) return ONEFILE_BUSY;  \
    uint32_t answer = (call);                          \
    release(&(saved)->saved);                          \
    return (int)answer;                                \
  } while (0)

int onefile_register(onefile_saved *saved, uint32_t reg, uint32_t *value) {
  ON(saved, value, of_c_register(&saved->saved.slot, reg, value));
}

int onefile_key(onefile_saved *saved, uint32_t key, uint32_t *value) {
  ON(saved, value, of_c_key(&saved->saved.slot, key, value));
}

int onefile_item(onefile_saved *saved, uint32_t queue, uint32_t at, uint32_t *value) {
  ON(saved, value, of_c_item(&saved->saved.slot, queue, at, value));
}

int onefile_ticket(onefile_saved *saved, uint32_t number, uint32_t *ticket) {
  ON(saved, ticket, of_c_ticket(&saved->saved.slot, number, ticket));
}

int onefile_last_reply(onefile_saved *saved, uint32_t number, onefile_reply *reply) {
  ON(saved, reply, of_c_last_reply(&saved->saved.slot, number, reply));
}

int onefile_image(onefile_saved *saved, char *buffer, size_t room, size_t *length) {
  uint8_t nothing[1];
  uint8_t *bytes = buffer ? (uint8_t *)buffer : nothing;
  ON(saved, length && (buffer || room == 0), of_c_image(&saved->saved.slot, bytes, room, length));
}

int onefile_from_image(onefile_saved *saved, const char *text, size_t length) {
  const uint8_t *bytes = text ? (const uint8_t *)text : no_text;
  ON(saved, text || length == 0, of_c_from_image(bytes, length, &saved->saved.slot));
}

int onefile_free_saved(onefile_saved *saved) {
  ON(saved, saved, of_c_free(&saved->saved.slot));
}
