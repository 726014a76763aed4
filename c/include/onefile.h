/* onefile.h: a memory on which threads run scripts at once, for C and C++.
 *
 * A memory has 16 registers, a map from keys to numbers and 4 queues. It has 1 to 64 callers, which
 * have the numbers from 0. A call runs a script of 1 to 16 instructions, all of it or nothing. All
 * calls of all callers take effect in one order. A call never waits for another caller: it ends
 * within a bound of its own steps. What a memory leaves when it is closed is kept in an
 * onefile_saved, and a memory can go on from there.
 *
 * Objects. onefile_memory and onefile_saved are structs of yours. Set one to ONEFILE_NONE before
 * you use it first. Then it is empty. onefile_open and onefile_reopen fill a memory, as do
 * onefile_open_file, onefile_reopen_file and onefile_share_file; onefile_close fills a saved one.
 * onefile_free and onefile_free_saved let go what is held, and leave it empty. A memory that was
 * just filled has no caller enrolled, also if it goes on from an earlier one.
 *
 * Answers. A function answers ONEFILE_DONE or the code of a refusal. After a refusal nothing has
 * changed, if the function does not say otherwise here.
 *
 * Each function may answer these three:
 *   ONEFILE_NULL       a pointer is null
 *   ONEFILE_BUSY       another call has the object, or the caller of this number: try again later
 *   ONEFILE_NO_MEMORY  malloc gave none. onefile_call, its forms and onefile_go_on never answer it:
 *                      a call takes no memory. Nor do onefile_last_reply_of, onefile_register,
 *                      onefile_key, onefile_item, onefile_ticket and onefile_last_reply
 *
 * Threads. Any thread may call any function on any object at any time. Calls of different callers
 * run at once. Two calls of one caller do not: the second one is answered ONEFILE_BUSY, and
 * nobody waits. onefile_enrol and onefile_leave take the memory and the one caller,
 * onefile_last_reply_of takes the memory alone. The others on memories, as onefile_open and
 * onefile_close, take the memory with all its callers. So two callers that enrol or leave at the
 * same moment may be answered BUSY: who must leave tries again. A thread that is cancelled by pthread_cancel ends no function in its middle.
 *
 * What you must ensure, since it can't be tested:
 *   - A pointer that is not null points to as much as its type, or the length beside it, says. While
 *     a function runs, no other thread writes there, nor reads what the function writes.
 *   - You neither write the fields of these structs, but for ONEFILE_NONE before the first use, nor
 *     copy or move a struct that is not empty, nor let its storage end.
 *   - malloc, realloc and free belong together, and malloc aligns to 16.
 *   - No function is called in a signal handler, nor in the forked child of a process with threads,
 *     nor by a thread that may be cancelled at any moment (PTHREAD_CANCEL_ASYNCHRONOUS).
 *
 * What is kept is in the process. To keep it longer, write the text that onefile_image gives, or
 * open the memory in a file.
 */
#ifndef ONEFILE_H
#define ONEFILE_H

#include <stddef.h>
#include <stdint.h>

#ifdef __cplusplus
extern "C" {
#endif

#define ONEFILE_VERSION "0.1"

/* 1 if what is below the C side of the library is proved, 0 if it was built without proofs. c/build
 * writes this line into the header that it puts beside a library. */
#define ONEFILE_PROVED 0

/* The version that the library was made as. It ends in " (not proved)" if ONEFILE_PROVED was 0. */
const char *onefile_version(void);

/* ---- Answers. */

enum {
  ONEFILE_DONE = 0,
  ONEFILE_NULL = 1,         /* a pointer is null */
  ONEFILE_BUSY = 2,         /* another call has the object or the caller */
  ONEFILE_EMPTY = 3,        /* the object is empty, or no caller is enrolled with this number */
  ONEFILE_FULL = 4,         /* the object that is to be filled is not empty */
  ONEFILE_NO_MEMORY = 5,    /* malloc gave none */
  ONEFILE_RANGE = 6,        /* a number is out of its range */
  ONEFILE_TAKEN = 7,        /* a caller is enrolled with this number */
  ONEFILE_CALL_OPEN = 8,    /* a call of the caller is open */
  ONEFILE_NO_CALL = 9,      /* no call of the caller is open */
  ONEFILE_STOPPED = 10,     /* the steps that were given are made; the call stays open */
  ONEFILE_SPENT = 11,       /* no sequence is left; the call is over, and changed nothing */
  ONEFILE_NO_TICKET = 12,   /* the caller has made all calls that it may make, 2^32 - 1 */
  ONEFILE_NO_SCRIPT = 13,   /* the words or the text are no script */
  ONEFILE_IN_USE = 14,      /* a caller has not left */
  ONEFILE_ABSENT = 15,      /* there is no such key, item or call */
  ONEFILE_NO_ROOM = 16,     /* the buffer is too short for the text */
  ONEFILE_NO_IMAGE = 17,    /* the text is no image */
  ONEFILE_BAD_FILE = 18,    /* the file holds no memory, or what it holds is spoilt */
  ONEFILE_NO_FILE = 19,     /* there is no file or no folder with this name */
  ONEFILE_FILE_EXISTS = 20, /* there is a file with this name */
  ONEFILE_FILE_IN_USE = 21, /* a memory is open in the file, of this process or of another one */
  ONEFILE_TORN = 22,        /* the machine stopped while a memory was open in the file */
  ONEFILE_NO_SPACE = 23,    /* the disk is full, or the process may have no file of this size */
  ONEFILE_SYSTEM = 24,      /* the system refused something else: errno says why */
  ONEFILE_OTHER_SIZES = 25, /* the memory in the file has other callers or blocks */
  ONEFILE_OTHER_VERSION = 26, /* another version of the library has made the file */
  ONEFILE_NOT_YET = 27      /* it can't be had before others have gone on: try again */
};

/* The name of an answer, as "ONEFILE_DONE". "ONEFILE_?" if there is no such answer. */
const char *onefile_name(int answer);

/* ---- Objects. */

#define ONEFILE_MOST_CALLERS 64
#define ONEFILE_SPARE_CALLERS 2 /* of these, in a file that onefile_share_file has made */
#define ONEFILE_MOST_BLOCKS 16777216
#define ONEFILE_MOST_ORDERED_BLOCKS 512 /* with more, ONEFILE_CAUSE_BAD_OP */
#define ONEFILE_MOST_INSTRS 16
#define ONEFILE_REGISTERS 16
#define ONEFILE_QUEUES 4
#define ONEFILE_GREATEST 2147483647u /* the greatest key, value and item */
#define ONEFILE_GREATEST_LIMIT 4294967294u

/* The fields of these are the library's. */
typedef struct onefile_slot {
  uint32_t state;
  void *at;
} onefile_slot;

typedef struct onefile_guarded {
  uint32_t busy;
  uint32_t shared; /* of a caller whose number is kept in a shared file */
  onefile_slot slot;
  char apart[64]; /* a line of the cache, so that no two callers share one */
} onefile_guarded;

typedef struct onefile_memory {
  onefile_guarded memory;
  onefile_guarded caller[ONEFILE_MOST_CALLERS];
} onefile_memory;

typedef struct onefile_saved {
  onefile_guarded saved;
} onefile_saved;

#ifdef __cplusplus
#define ONEFILE_NONE {}
#else
#define ONEFILE_NONE {0}
#endif

/* ---- Memories. */

/* Fills `memory` with an empty memory of so many callers (1 to 64), with room for so many keys and
 * queued items together (0 to ONEFILE_MOST_BLOCKS). `limit` (1 to ONEFILE_GREATEST_LIMIT) is the
 * last sequence that may be committed: each batch of calls that write takes one.
 * FULL, RANGE. */
int onefile_open(onefile_memory *memory, uint32_t callers, uint32_t blocks, uint32_t limit);

/* Fills `memory` with one that goes on from what was saved, with its callers, blocks and limit. No
 * call that is held there runs again. `saved` is unchanged, and can be used again.
 * FULL; EMPTY if `saved` is empty. */
int onefile_reopen(onefile_memory *memory, onefile_saved *saved);

/* Enrols the caller with this number. It goes on where this number left. Each call that it begins
 * takes effect after all answered calls of callers that have left before.
 * EMPTY; RANGE if the memory has no such caller, or if it is a spare one; TAKEN; FILE_IN_USE in a
 * forked child, of a memory that its parent has in a file; of a shared memory NOT_YET, SPENT and
 * SYSTEM too. */
int onefile_enrol(onefile_memory *memory, uint32_t number);

/* The same with the first number that is free, which is written into `number`. Of a shared memory
 * those that nobody has had in this life come first.
 * EMPTY; TAKEN if none is free; FILE_IN_USE; NOT_YET, SPENT and SYSTEM as above. */
int onefile_enrol_any(onefile_memory *memory, uint32_t *number);

/* The caller leaves, and its number is free again. A call that is open stays open: it takes effect
 * once or not at all, and the next caller of this number can go on with it; of a shared memory only
 * if it is announced and has not taken effect. After a close no call is open, and onefile_ticket
 * tells whether it took effect.
 * EMPTY, RANGE. */
int onefile_leave(onefile_memory *memory, uint32_t number);

/* Closes the memory. What is durable is recovered and kept in `saved`: it has each call that was
 * answered. `memory` is empty then. A shared memory is let go: nothing is written into `saved`,
 * which may be null.
 * EMPTY, FULL; IN_USE while a caller of this memory has not left; FILE_IN_USE in a forked child,
 * of a memory that its parent has opened in a file. */
int onefile_close(onefile_memory *memory, onefile_saved *saved);

/* Closes the memory and fills it with one that goes on from what it has left, with the same
 * callers, blocks and limit: in memory, or in a new file with the same name. Sequences begin anew;
 * store and tickets go on. No caller is enrolled then. What the memory has left is kept in `saved`,
 * as after onefile_close: onefile_last_reply tells what the last call of each caller came to.
 * EMPTY, FULL; IN_USE while a caller of this memory has not left; FILE_IN_USE if processes share
 * it: let each close it, and the next life has all sequences; FILE_IN_USE in a forked child.
 * NO_MEMORY, and of a memory in a file FILE_IN_USE, NO_SPACE, NO_FILE and SYSTEM too, may come once
 * the memory is closed: `memory` is empty then, and `saved` is not. */
int onefile_renumber(onefile_memory *memory, onefile_saved *saved);

/* Lets go the memory and all its callers. Nothing is saved.
 * EMPTY. */
int onefile_free(onefile_memory *memory);

/* ---- Memories in a file, on Linux.
 *
 * Such a memory has its words in a file that is mapped. So it survives the death of its process at
 * any moment: the next process finds every call that was answered, each once, and of each caller at
 * most the open call besides. It does not survive the death of the machine: no call waits for the
 * disk. If the machine stops while the memory is open, the file is ONEFILE_TORN.
 *
 * A file has one memory at a time, and is locked meanwhile. onefile_close and onefile_free let it
 * go, and it is marked as closed once the disk has all of it. These calls wait for one another, and
 * for the two below. A process has at most 64 such files: ONEFILE_NO_MEMORY answers one more.
 *
 * Reopening makes a new file, PATH.new, which gets the name PATH once the memory is open in it. The
 * old file is not written. So PATH.new is the library's: what is there goes.
 *
 * /proc must be there, or the answer is ONEFILE_SYSTEM. You must ensure besides:
 *   - The path ends in a zero byte, and the file is on a disk of this machine or in its memory.
 *   - While the memory is open nobody else writes, cuts off, renames or removes the file.
 *   - A forked child uses no memory that was opened in a file before. It may let it go by
 *     onefile_free. onefile_close answers ONEFILE_FILE_IN_USE there: its parent has the memory. */

/* Makes a file with this name and fills `memory` with an empty memory in it, as onefile_open does.
 * FULL, RANGE, FILE_EXISTS, NO_FILE, NO_SPACE, SYSTEM; FILE_IN_USE if another process makes it. */
int onefile_open_file(onefile_memory *memory, const char *path, uint32_t callers, uint32_t blocks,
                      uint32_t limit);

/* Fills `memory` with one that goes on from the file, in a new file with this name. No call that is
 * held there runs again. The sequences begin anew, so each life has all of them up to `limit`, and
 * `seq` of a reply counts within its life. Tickets go on. What was found is kept in `saved`, if
 * that is not null: onefile_last_reply tells what the last call of each caller came to.
 * FULL, also if `saved` is not empty; RANGE if there is no such limit; NO_FILE, FILE_IN_USE,
 * BAD_FILE, OTHER_VERSION, TORN, NO_SPACE, SYSTEM. */
int onefile_reopen_file(onefile_memory *memory, const char *path, uint32_t limit,
                        onefile_saved *saved);

/* ---- Memories that processes share, on Linux.
 *
 * Several processes have one file at once, each by a memory of its own. All calls of all processes
 * take effect in one order, by their `seq`. A process may be killed or stopped at any moment, also
 * in the middle of a call: the others go on and never wait for it, and its open call takes effect
 * once or not at all, perhaps later.
 *
 * A life of the file is from when a first process has it until none has it. Once no process has the
 * file, the next one to come recovers it, as onefile_reopen_file does, and a life begins with all
 * sequences, and tickets that go on. At SPENT let all processes close the memory.
 *
 * One memory at a time has a number: onefile_enrol of another one is answered TAKEN. When the caller
 * leaves, its memory is let go or its process dies, another one may take the number over, while all
 * others go on: onefile_enrol goes on from what the table has of this number. If the last owner had
 * announced a call that has not taken effect, that call is open: a new call is answered CALL_OPEN,
 * and onefile_go_on ends it. Any other call of the last owner has taken effect, or never will.
 *
 * A process that dies may leave words of its number that nobody may write over before a commit.
 * Then onefile_enrol has a spare caller make one, by a call that changes nothing and takes a
 * sequence. A file that onefile_share_file has made has two spare callers, after those that it was
 * asked for. Their numbers are the library's: RANGE answers who enrols them, also if
 * onefile_reopen_file has opened the file. What was saved of the file has them after the others.
 *
 * onefile_enrol is answered NOT_YET if no spare caller can make the commit: two processes died while
 * they made one, and there was none since; others have both spare callers just now; or the file was
 * made by onefile_open_file and has none. The number is free after the next commit of any caller: a
 * call that writes. At NOT_YET and SPENT, and at NO_MEMORY, the memory may keep the number for
 * itself: for others it is TAKEN, and no caller is enrolled with it. Let it enrol this number again,
 * or close the memory. onefile_enrol_any keeps no number that it has not enrolled; it is answered
 * NOT_YET if all numbers are taken or not yet free, and one is not yet free.
 *
 * There is no saved one to ask, but onefile_last_reply_of tells what the last call of a number
 * answered, also if its process has died. What a later process must know of an earlier call, let
 * the call keep in a register or at a key. onefile_close and onefile_free let the file go for this process alone; a
 * process that ends does so too. All else is as above: the file doesn't survive the death of the
 * machine while it is open, nobody else may touch it or PATH.new, and a forked child has nothing
 * of the memory but by onefile_free.
 *
 * What is trusted: that processes which map one file and start from the words that it keeps have
 * one table, which is what a proved memory takes for its own; that a mapping which comes in the
 * place of private pages has the same words; flock and the locks of fcntl; and c/src/shared.c, by
 * which one memory at most has a number at a time, the file tells the next owner of a number how
 * many of its calls were begun, nothing but steps of callers (spare ones too), takeovers, evictions
 * and looks at last replies is done on the shared pages, and nobody recovers a file that another
 * process has.
 * Proved is, of a row that meets its rule, that what a memory knows of a number at its start fits
 * the rule if that number has done nothing, whatever the others have done (of_row:
 * laws::fresh_members_fit), and each step for all states of the others. The takeover is proved in
 * the protocol (of_core: laws::taken_over_stands) and in the library's calls (of_row: Row::revive,
 * of_memory: LostHandle::revive). That a number goes from one process to another is not. What
 * enrolment and leaving tell of earlier calls is proved in one process alone. */

/* Fills `memory` with the memory of the file, which other processes may have: the file is made if
 * there is none, recovered if no process has it, or joined. `callers` is 1 to 62, which is
 * ONEFILE_MOST_CALLERS without the spare ones. The limit is that of the process which makes or
 * recovers it. It may wait for about a second, while another process does this.
 * FULL, RANGE, NO_FILE if there is no such folder, BAD_FILE, TORN, NO_SPACE, SYSTEM; OTHER_SIZES,
 * OTHER_VERSION; FILE_IN_USE if a memory of one process has the file, and also after that second.
 * The other way, onefile_reopen_file is answered FILE_IN_USE while processes share the file. */
int onefile_share_file(onefile_memory *memory, const char *path, uint32_t callers, uint32_t blocks,
                       uint32_t limit);

/* ---- Calls. */

/* The words of instructions. Registers are below ONEFILE_REGISTERS, queues below ONEFILE_QUEUES, keys
 * and values at most ONEFILE_GREATEST. A greater number gives the word of no instruction, or that of
 * another one. */
static inline uint64_t onefile_word(uint64_t form, uint64_t first, uint64_t second) {
  return ((form + first) << 31) + second;
}

/* Answers a register. */
static inline uint64_t onefile_load(uint32_t reg) { return onefile_word(16, reg, 0); }

/* A register becomes the value. */
static inline uint64_t onefile_store(uint32_t reg, uint32_t value) {
  return onefile_word(32, reg, value);
}

/* Adds the value to a register, and answers the sum. */
static inline uint64_t onefile_add(uint32_t reg, uint32_t value) {
  return onefile_word(48, reg, value);
}

/* Takes the value off a register, and answers the difference. */
static inline uint64_t onefile_sub(uint32_t reg, uint32_t value) {
  return onefile_word(64, reg, value);
}

/* Answers the value at a key, or none. */
static inline uint64_t onefile_get(uint32_t key) { return onefile_word(80, 0, key); }

/* A key leaves the map; answers its value, or none. */
static inline uint64_t onefile_del(uint32_t key) { return onefile_word(96, 0, key); }

/* Puts the value at the back of a queue. */
static inline uint64_t onefile_push(uint32_t queue, uint32_t value) {
  return onefile_word(112, queue, value);
}

/* Takes the front of a queue, and answers it, or none. */
static inline uint64_t onefile_pop(uint32_t queue) { return onefile_word(128, queue, 0); }

/* Answers the length of a queue. */
static inline uint64_t onefile_len(uint32_t queue) { return onefile_word(144, queue, 0); }

/* Answers the number of keys. */
static inline uint64_t onefile_count(void) { return onefile_word(160, 0, 0); }

/* The next three abort in a memory with room for more than ONEFILE_MOST_ORDERED_BLOCKS keys and
 * items. Answers the least key, or none. */
static inline uint64_t onefile_first(void) { return onefile_word(176, 0, 0); }

/* Answers the least key above this one, or none. */
static inline uint64_t onefile_next(uint32_t key) { return onefile_word(192, 0, key); }

/* Every key below this one leaves the map; answers how many left. */
static inline uint64_t onefile_drop_below(uint32_t key) { return onefile_word(208, 0, key); }

/* The value at a key becomes this one; answers the one before, or none. */
static inline uint64_t onefile_put(uint32_t key, uint32_t value) {
  return onefile_word((uint64_t)1 << 31, key, value);
}

/* Aborts unless the value at the key is this one. */
static inline uint64_t onefile_need(uint32_t key, uint32_t value) {
  return onefile_word((uint64_t)2 << 31, key, value);
}

/* What a call answered. Calls take effect in the order of `seq`. Of those with the same `seq` the
 * announced ones come first, in the order of their callers' numbers, and then the others. */
typedef struct onefile_reply {
  uint32_t seq;       /* the sequence at which the call took effect; at SPENT the last one */
  uint32_t announced; /* 1 if other callers could finish the call, 0 if it only read */
  uint32_t len;       /* how many instructions the script has */
  uint32_t place;     /* the instruction that aborted, from 0, if `cause` is not 0 */
  uint32_t cause;     /* why the script aborted: nothing of it took effect then */
  uint32_t ticket;    /* of a last reply: which call of its caller it was, from 1; of an answer 0 */
  uint64_t steps;     /* how many steps the call made; at STOPPED, how many it has asked for */
  uint32_t given[ONEFILE_MOST_INSTRS];  /* 1 for each instruction that answered a number */
  uint32_t values[ONEFILE_MOST_INSTRS]; /* the numbers */
} onefile_reply;

enum {
  ONEFILE_CAUSE_OVERFLOW = 1, /* a sum is above ONEFILE_GREATEST */
  ONEFILE_CAUSE_SHORT = 2,    /* more is taken off than a register has */
  ONEFILE_CAUSE_NO_ROOM = 3,  /* no block is free */
  ONEFILE_CAUSE_DIFFERS = 4,  /* the value at the key is not the one that is needed */
  ONEFILE_CAUSE_BAD_OP = 5    /* a memory with so much room does not run the instruction */
};

/* Steps that are never all made. */
#define ONEFILE_NO_END UINT64_MAX

/* Runs a script of `count` words, or the script that a text spells, as "sub 0 30; add 1 30", as the
 * caller with this number. At DONE the reply is written, also if the script aborted. At SPENT its
 * `seq` is written.
 * EMPTY, RANGE, CALL_OPEN, NO_TICKET, SPENT; NO_SCRIPT: at a text, the reply's `place` is the piece
 * between semicolons, from 0, that is at fault. */
int onefile_call(onefile_memory *memory, uint32_t number, const uint64_t *words, size_t count,
                 onefile_reply *reply);
int onefile_call_text(onefile_memory *memory, uint32_t number, const char *text, size_t length,
                      onefile_reply *reply);

/* The same, for at most so many steps of the caller. A step is one atomic access to the memory; an
 * `add` of a memory's only caller makes 49. At STOPPED the call is open: it takes effect once or not
 * at all, and another caller may finish it. The reply's `steps` is written then. */
int onefile_call_within(onefile_memory *memory, uint32_t number, const uint64_t *words, size_t count,
                        uint64_t steps, onefile_reply *reply);
int onefile_call_text_within(onefile_memory *memory, uint32_t number, const char *text,
                             size_t length, uint64_t steps, onefile_reply *reply);

/* Goes on with the open call, for at most so many more steps (ONEFILE_NO_END: to its answer).
 * EMPTY, RANGE, NO_CALL, STOPPED, SPENT. */
int onefile_go_on(onefile_memory *memory, uint32_t number, uint64_t steps, onefile_reply *reply);

/* How many sequences are left at most: those after the `seq` of the caller's last call that was
 * answered or SPENT. If it has made no call, those after the last one that was known to callers that
 * have left. Other callers may have taken some since. It makes no step.
 * EMPTY, RANGE. */
int onefile_sequences_left(onefile_memory *memory, uint32_t number, uint32_t *left);

/* What the last call of the number that is held answered, whoever has made it, and its ticket, while
 * others go on: as onefile_last_reply of what was saved. A call that only read is not held. The
 * answer was right at a moment of this call. `seq`, `announced` and `steps` are not written.
 * EMPTY, RANGE; ABSENT if no call of the number is held; FILE_IN_USE in a forked child, of a memory
 * that its parent has in a file. NOT_YET if calls of others took effect all the time, or if one is
 * half done and its caller doesn't go on: try again. Of a shared memory a spare caller ends such a
 * call, if it can. */
int onefile_last_reply_of(onefile_memory *memory, uint32_t number, onefile_reply *reply);

/* ---- What was saved. Each but onefile_from_image answers EMPTY if `saved` is empty. */

/* The number in a register (0 to 15). RANGE. */
int onefile_register(onefile_saved *saved, uint32_t reg, uint32_t *value);

/* The number at a key. RANGE; ABSENT. */
int onefile_key(onefile_saved *saved, uint32_t key, uint32_t *value);

/* The item at this place of a queue (0 to 3), the front at 0. RANGE; ABSENT. */
int onefile_item(onefile_saved *saved, uint32_t queue, uint32_t at, uint32_t *value);

/* The number of the caller's last call that is held; 0 if none is. Its calls are numbered from 1,
 * also those that were not announced, which are not held. If a memory goes on from here, the
 * caller's next call has the next number. RANGE. */
int onefile_ticket(onefile_saved *saved, uint32_t number, uint32_t *ticket);

/* The reply to that last call, also if the caller was stopped before it was answered, and its
 * ticket. `seq`, `announced` and `steps` are not written.
 * RANGE; ABSENT if no call of the caller is held. */
int onefile_last_reply(onefile_saved *saved, uint32_t number, onefile_reply *reply);

/* Writes what is held into `buffer`, which has room for `room` bytes, as the text of an image, with
 * no zero byte at its end, and its length into `length`. It has the store, and of each caller the
 * last ticket and reply; the limit is not in it. The program `onefile` reads it, if there are at
 * most 16 callers and 512 blocks. Behind the text `buffer` is as it was.
 * NO_ROOM: only `length` is written, which says how much room is needed. `buffer` may be null if
 * `room` is 0. */
int onefile_image(onefile_saved *saved, char *buffer, size_t room, size_t *length);

/* Fills `saved` with what a text of `length` bytes holds, which onefile_image or the program
 * `onefile` has written. Its limit is ONEFILE_GREATEST_LIMIT. No memory has the sequence 4294967295,
 * so an image with that one is none here: `onefile renumber` makes one of it that is.
 * FULL, NO_IMAGE. */
int onefile_from_image(onefile_saved *saved, const char *text, size_t length);

/* Lets go what is held. EMPTY. */
int onefile_free_saved(onefile_saved *saved);

#ifdef __cplusplus
}
#endif
#endif
