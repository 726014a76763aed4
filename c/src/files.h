/* files.h: what mapped.c and shared.c have in common: the tables in files, the header of a file,
 * and how a file is locked, made and named. Private to the library. */
#ifndef ONEFILE_FILES_H
#define ONEFILE_FILES_H

#include "of_c.h"

#include <stdatomic.h>
#include <stddef.h>
#include <sys/types.h>

enum { PAGE = 4096, MOST_PATH = 4096 };

/* The versions of a file: a memory of one process has it, or processes share it. A shared file of
 * version 2 has no counts of calls, and one of version 3 has no spare callers. */
enum { FOR_ONE = 1, FOR_MANY = 4 };

#define IS_CLOSED 0x6f66636c6f736564u

/* What a shared file keeps of a number: how many of its calls were begun, or one more. Two numbers
 * have a line of the cache. */
typedef struct tally {
  _Alignas(32) _Atomic uint32_t begun;
} tally;

/* What is at the front of a file. */
typedef struct header {
  char magic[8];
  uint32_t version, order;
  uint32_t callers, blocks; /* all callers, with the spare ones */
  of_c_table table;
  uint32_t offset; /* of the table */
  uint32_t spare;  /* how many of the callers are spare, the last ones; 0 if made unshared */
  uint64_t lives;  /* how many memories there were, this one too */
  char boot[40];   /* the run of the machine in which the file was made */
  uint64_t sum;    /* of all bytes above */
  uint64_t closed; /* IS_CLOSED as soon as the memory is closed and the disk has all of it */
  uint32_t limit, apart; /* the limit of this life */
  /* Of a file that processes share: */
  uint64_t start_sum;    /* of the durable words that the life starts from, behind the table */
  uint64_t share_sum;    /* of the two lines above, and of `sum` */
  _Alignas(64) _Atomic uint64_t used; /* a bit for each number that a process has had */
  _Alignas(64) tally number[ONEFILE_MOST_CALLERS];
} header;

_Static_assert(sizeof(header) <= PAGE, "the words are behind the header");

/* A table in a file. */
typedef struct table {
  _Atomic uintptr_t words; /* where it is; 0 if there is none */
  header *map;             /* the file in memory */
  size_t size;             /* of what is mapped */
  int file;                /* its descriptor; -1 in a forked child */
  int is_opening;          /* no memory has it yet */
  int is_shared;           /* other processes may have it too */
  uint32_t callers, spare; /* how many there are for users, and how many spare ones after them */
  uint64_t lost;           /* if it is shared: which of them has no machine here, a bit for each */
  _Atomic(onefile_memory *) memory;    /* which is opened on it */
  _Atomic(onefile_memory *) inherited; /* the same in a forked child; null in who has opened it */
} table;

/* What is to be opened in a new file. */
typedef struct birth {
  const char *path;
  char beside[MOST_PATH]; /* the name that the file has until the memory is open */
  header head;
  mode_t mode;
  onefile_slot start; /* what the memory starts from */
} birth;

/* Who has the files opens or closes one, or forks. A thread that has them cannot be cancelled; the
 * first gives what the second needs. */
int mapped_take_files(void);
void mapped_let_go_files(int could_be);

/* A place for a table that is empty, or null. The caller has the files. */
table *mapped_free_table(void);

/* The table in a file on which a memory is open, or null. A table's place, from 1, and the table in
 * a place. */
table *mapped_table_of(const onefile_memory *memory);
uint32_t mapped_place_of(const table *one);
table *mapped_table_in(uint32_t place);

/* The place has no table any more. */
void mapped_empty(table *one);

/* The answer if the system refuses something, whose reason is in errno, and if the proved code
 * does not take its memory as it should. */
uint32_t mapped_refusal(void);
uint32_t mapped_mistaken(void);

/* Opens the file of this name, and locks it by `how` without waiting. */
uint32_t mapped_open_locked(const char *path, int flags, int how, int *opened);
int mapped_is_named(int file, const char *path);

/* Reads all these bytes. BAD_FILE if there are fewer. */
uint32_t mapped_read_all(int file, void *bytes, size_t size, off_t from);

uint64_t mapped_sum(uint64_t sum, const void *of, size_t size);

/* The header of a file that has a memory, and its mode. BAD_FILE, OTHER_VERSION, TORN, SYSTEM. */
uint32_t mapped_look(int file, header *head, mode_t *mode);

/* The byte of a file at which the words are from which its life starts. */
off_t mapped_start_at(const header *head);

/* What a first memory starts from, or one that goes on from a file that is locked, with new
 * sequences. `start` of the birth is to be let go also after a refusal. */
uint32_t mapped_conceive(birth *born, uint32_t callers, uint32_t blocks, uint32_t limit);
uint32_t mapped_go_on_from(int file, birth *born, uint32_t limit);

/* The header of the new file: for a memory of one process, or for processes that share it. */
uint32_t mapped_head_for(birth *born, uint32_t version, uint32_t callers, uint32_t blocks);

/* Opens the memory on these words. */
uint32_t mapped_open_at(birth *born, table *one, char *words, onefile_slot *memory);

/* Makes the new file, opens the memory in it and gives it its name. It is locked for this process
 * alone. If processes are to share it, no memory is open in it, and nothing is mapped. */
uint32_t mapped_make(birth *born, table *one, onefile_slot *memory);

/* Lets all numbers of a shared file go. The last one to let go of it marks it as closed. Its lock
 * is gone then. */
void shared_end_life(int file);

#endif
