/* of_c.h: what crates/of_c exports, as C sees it. An allocator takes no parameter in C, and a slice
 * is a pointer and a length. Private to the library. */
#ifndef ONEFILE_OF_C_H
#define ONEFILE_OF_C_H

#include "onefile.h"

/* A memory's slot beside that of one of its callers. */
typedef struct of_c_pair {
  onefile_slot memory;
  onefile_slot caller;
} of_c_pair;

/* How many words a table has, and which of them are durable: so many from the place `first` on. */
typedef struct of_c_table {
  uint64_t words;
  uint64_t first;
  uint64_t durable;
} of_c_table;

uint32_t of_c_open(uint32_t callers, uint32_t blocks, uint32_t limit, onefile_slot *memory);
uint32_t of_c_reopen(onefile_slot *saved, onefile_slot *memory);
uint32_t of_c_enrol(of_c_pair *pair, uint32_t number);
uint32_t of_c_leave(of_c_pair *pair);
uint32_t of_c_close(onefile_slot *memory, onefile_slot *saved);
uint32_t of_c_free(onefile_slot *slot);
uint32_t of_c_call(onefile_slot *caller, const uint64_t *words, size_t count, uint64_t steps,
                   onefile_reply *reply);
uint32_t of_c_call_text(onefile_slot *caller, const uint8_t *text, size_t length, uint64_t steps,
                        onefile_reply *reply);
uint32_t of_c_go_on(onefile_slot *caller, uint64_t steps, onefile_reply *reply);
uint32_t of_c_sequences_left(onefile_slot *caller, uint32_t *left);
uint32_t of_c_begun(onefile_slot *caller, uint32_t *begun);
uint32_t of_c_evict_request(onefile_slot *memory, uint32_t number);
uint32_t of_c_revive(onefile_slot *caller, uint32_t made);
uint32_t of_c_register(onefile_slot *saved, uint32_t reg, uint32_t *value);
uint32_t of_c_key(onefile_slot *saved, uint32_t key, uint32_t *value);
uint32_t of_c_item(onefile_slot *saved, uint32_t queue, uint32_t at, uint32_t *value);
uint32_t of_c_ticket(onefile_slot *saved, uint32_t number, uint32_t *ticket);
uint32_t of_c_last_reply(onefile_slot *saved, uint32_t number, onefile_reply *reply);
uint32_t of_c_last_reply_of(onefile_slot *memory, uint32_t number, onefile_reply *reply);
uint32_t of_c_image(onefile_slot *saved, uint8_t *buffer, size_t room, size_t *size);
uint32_t of_c_from_image(const uint8_t *text, size_t length, onefile_slot *saved);
uint32_t of_c_sizes(uint32_t callers, uint32_t blocks, of_c_table *sizes);
uint32_t of_c_from_words(uint32_t callers, uint32_t blocks, uint32_t limit, const uint64_t *words,
                         size_t length, onefile_slot *saved);
uint32_t of_c_renumber(onefile_slot *saved);
uint32_t of_c_set_limit(onefile_slot *saved, uint32_t limit);
uint32_t of_c_seq(onefile_slot *saved, uint32_t *seq);

_Static_assert(sizeof(onefile_slot) == 16, "a slot is as of_c has it");
_Static_assert(sizeof(onefile_reply) == 6 * 4 + 8 + 32 * 4, "a reply is as of_c has it");

#endif
