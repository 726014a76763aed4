/* mapped.c: memories whose table is in a mapped file.
 *
 * A file is one page that is its header, and then the words of the table, in the machine's own byte
 * order. Of a file that is there the header and the durable words are read, and nothing is written:
 * reopening makes a new file beside it, opens the memory there, and gives that one the name. So a
 * process that is killed leaves the old file or the new one.
 *
 * It has the three functions too by which the proved code takes memory. All of it is malloc's, but
 * for the words of a table that is being opened in a file. */
#define _GNU_SOURCE
#include "files.h"
#include "slots.h"

#include <errno.h>
#include <fcntl.h>
#include <pthread.h>
#include <stdio.h>
#include <stdlib.h>
#include <string.h>
#include <sys/file.h>
#include <sys/mman.h>
#include <sys/resource.h>
#include <sys/stat.h>
#include <unistd.h>

enum { ORDER = 0x01020304, MOST_FILES = 64, LARGE_PAGE = 1 << 21 };

static const char magic[8] = {'O', 'n', 'e', 'F', 'i', 'l', 'e', '\n'};
static const uint64_t SUM_OF_NOTHING = 14695981039346656037u;

/* ---- Tables in files. */

static table tables[MOST_FILES];

/* Who has it opens or closes a file, or forks. */
static pthread_mutex_t files = PTHREAD_MUTEX_INITIALIZER;

/* Takes the files. Most requests to the system end a thread that was cancelled, and would leave the
 * lock and the memory taken: so it cannot be cancelled until it has let go the files. It gives
 * whether it could be before. */
int mapped_take_files(void) {
  int could_be;
  pthread_setcancelstate(PTHREAD_CANCEL_DISABLE, &could_be);
  pthread_mutex_lock(&files);
  return could_be;
}

void mapped_let_go_files(int could_be) {
  pthread_mutex_unlock(&files);
  pthread_setcancelstate(could_be, NULL);
}

/* What the thread that opens a memory in a file waits for. The memory asks twice for so many bytes:
 * first for what a close will hand out, then for its table. */
enum { TABLE_REQUEST = 1, REQUESTS };
static _Thread_local struct {
  size_t bytes;
  unsigned count;
  char *words;
} awaited;

static table *table_at(const void *words) {
  if ((uintptr_t)words % PAGE != 0) return NULL;
  for (size_t i = 0; i < MOST_FILES; i++) {
    if (atomic_load(&tables[i].words) == (uintptr_t)words) return &tables[i];
  }
  return NULL;
}

table *mapped_table_of(const onefile_memory *memory) {
  for (size_t i = 0; i < MOST_FILES; i++) {
    if (atomic_load(&tables[i].memory) != memory) continue;
    if (atomic_load(&tables[i].words) != 0) return &tables[i];
  }
  return NULL;
}

int mapped_lacks(const onefile_memory *memory, uint32_t number) {
  const table *one = mapped_table_of(memory);
  return one && number >= one->callers;
}

uint32_t mapped_place_of(const table *one) { return (uint32_t)(one - tables) + 1; }

table *mapped_table_in(uint32_t place) { return &tables[place - 1]; }

void mapped_empty(table *one) {
  atomic_store(&one->memory, NULL);
  atomic_store(&one->words, 0);
}

/* Lets a file go. The mark that it is closed is written once the disk has all else. */
static void let_go(table *one) {
  int could_be = mapped_take_files();
  mapped_empty(one);
  if (!one->is_shared && msync(one->map, one->size, MS_SYNC) == 0) {
    one->map->closed = IS_CLOSED;
    msync(one->map, PAGE, MS_SYNC);
  }
  munmap(one->map, one->size);
  if (one->is_shared) shared_end_life(one->file);
  flock(one->file, LOCK_UN); /* a forked child may have the descriptor still */
  close(one->file);
  mapped_let_go_files(could_be);
}

/* An answer to a request for memory: the pointer is never null. */
typedef struct given {
  _Bool is_given;
  void *block;
} given;

static given give(void *block) {
  static char nothing;
  return (given){block != NULL, block ? block : &nothing};
}

/* Asks for large pages for the words of a large table: all of them are written when it is opened,
 * and with pages of 4096 bytes most of that time goes to the system, which gives them one by one.
 * What a caller keeps of its own are numbers of 4 bytes, with room for all cells and touched here
 * and there: on large pages it would take as much memory as the tables of all callers. Without
 * large pages nothing else differs, so the answer is not looked at. */
static void ask_large_pages(void *block, size_t size, size_t align) {
  if (!block || align != sizeof(uint64_t) || size < 2 * LARGE_PAGE) return;
  uintptr_t from = ((uintptr_t)block + LARGE_PAGE - 1) & ~(uintptr_t)(LARGE_PAGE - 1);
  uintptr_t upto = ((uintptr_t)block + size) & ~(uintptr_t)(LARGE_PAGE - 1);
  madvise((void *)from, upto - from, MADV_HUGEPAGE);
}

given rattle_alloc(size_t size, size_t align) {
  if (awaited.bytes != 0 && size == awaited.bytes && awaited.count++ == TABLE_REQUEST) {
    return give(awaited.words);
  }
  void *block = malloc(size ? size : align);
  ask_large_pages(block, size, align);
  return give(block);
}

given rattle_realloc(void *block, size_t kept, size_t size, size_t align) {
  (void)kept;
  if (table_at(block)) return give(NULL); /* a table stays as large as it is */
  void *grown = realloc(block, size ? size : align);
  ask_large_pages(grown, size, align);
  return give(grown);
}

void rattle_dealloc(void *block) {
  table *one = table_at(block);
  if (!one) {
    free(block);
  } else if (!one->is_opening) {
    if (one->file >= 0) {
      let_go(one);
    } else {
      atomic_store(&one->inherited, NULL);
      mapped_empty(one);
    }
  }
}

/* ---- Forks: the child has neither the table nor the lock. */

static void before_fork(void) { pthread_mutex_lock(&files); }

static void after_fork(void) { pthread_mutex_unlock(&files); }

static void in_child(void) {
  for (size_t i = 0; i < MOST_FILES; i++) {
    if (atomic_load(&tables[i].words) == 0 || tables[i].file < 0) continue;
    close(tables[i].file);
    tables[i].file = -1;
    atomic_store(&tables[i].inherited, atomic_load(&tables[i].memory));
  }
  pthread_mutex_unlock(&files);
}

int mapped_is_inherited(onefile_memory *memory) {
  for (size_t i = 0; i < MOST_FILES; i++) {
    if (atomic_load(&tables[i].inherited) == memory) return 1;
  }
  return 0;
}

static int watches_forks(void) {
  static int is_done;
  if (!is_done) is_done = pthread_atfork(before_fork, after_fork, in_child) == 0;
  return is_done;
}

/* ---- Headers. */

uint64_t mapped_sum(uint64_t sum, const void *of, size_t size) {
  const unsigned char *bytes = of;
  for (size_t i = 0; i < size; i++) sum = (sum ^ bytes[i]) * 1099511628211u;
  return sum;
}

static uint64_t sum_of(const header *one) {
  return mapped_sum(SUM_OF_NOTHING, one, offsetof(header, sum));
}

/* The name of this run of the machine. SYSTEM. */
static uint32_t read_boot(char boot[40]) {
  int file = open("/proc/sys/kernel/random/boot_id", O_RDONLY | O_CLOEXEC);
  if (file < 0) return ONEFILE_SYSTEM;
  memset(boot, 0, 40);
  ssize_t size = read(file, boot, 36);
  close(file);
  return size == 36 ? ONEFILE_DONE : ONEFILE_SYSTEM;
}

uint32_t mapped_head_for(birth *born, uint32_t version, uint32_t callers, uint32_t blocks) {
  header *made = &born->head;
  *made = (header){
      .version = version,
      .order = ORDER,
      .callers = callers,
      .blocks = blocks,
      .offset = PAGE,
      .spare = made->spare,
      .lives = made->lives + 1,
  };
  memcpy(made->magic, magic, sizeof magic);
  uint32_t answer = of_c_sizes(callers, blocks, &made->table);
  if (answer == ONEFILE_DONE) answer = read_boot(made->boot);
  made->sum = sum_of(made);
  return answer;
}

static size_t pages_for(uint64_t words) {
  return (words * sizeof(uint64_t) + PAGE - 1) / PAGE * PAGE;
}

off_t mapped_start_at(const header *head) {
  return (off_t)(PAGE + pages_for(head->table.words));
}

static size_t size_for(const header *one) {
  size_t start = one->version == FOR_MANY ? pages_for(one->table.durable) : 0;
  return (size_t)mapped_start_at(one) + start;
}

/* Whether this is the header of a file of so many bytes. */
static int is_header(const header *one, uint64_t size) {
  of_c_table sizes;
  return (one->closed == 0 || one->closed == IS_CLOSED) && one->offset == PAGE &&
         (one->spare == 0 || one->spare == ONEFILE_SPARE_CALLERS) && one->callers > one->spare &&
         of_c_sizes(one->callers, one->blocks, &sizes) == ONEFILE_DONE &&
         memcmp(&sizes, &one->table, sizeof sizes) == 0 && size == size_for(one);
}

/* What is wrong with the header of a file of so many bytes: BAD_FILE, OTHER_VERSION. A header of
 * each version begins as the first one, up to its sum. */
static uint32_t fault_of(const header *one, uint64_t size) {
  if (memcmp(one->magic, magic, sizeof magic) != 0 || one->order != ORDER) return ONEFILE_BAD_FILE;
  if (one->sum != sum_of(one)) return ONEFILE_BAD_FILE;
  if (one->version != FOR_ONE && one->version != FOR_MANY) return ONEFILE_OTHER_VERSION;
  return is_header(one, size) ? ONEFILE_DONE : ONEFILE_BAD_FILE;
}

/* Whether the words of a file are those that were in memory: it was closed, or the machine has run
 * since. TORN, SYSTEM. */
static uint32_t is_whole(const header *one) {
  char boot[40];
  if (one->closed == IS_CLOSED) return ONEFILE_DONE;
  uint32_t answer = read_boot(boot);
  if (answer != ONEFILE_DONE) return answer;
  return memcmp(boot, one->boot, sizeof boot) == 0 ? ONEFILE_DONE : ONEFILE_TORN;
}

/* ---- Files. */

/* The answer if the system refuses something: errno says what. */
uint32_t mapped_refusal(void) {
  switch (errno) {
    case ENOENT: return ONEFILE_NO_FILE;
    case EEXIST: return ONEFILE_FILE_EXISTS;
    case EWOULDBLOCK: return ONEFILE_FILE_IN_USE;
    case ENOMEM: return ONEFILE_NO_MEMORY;
    case ENOSPC:
    case EDQUOT:
    case EFBIG: return ONEFILE_NO_SPACE;
    default: return ONEFILE_SYSTEM;
  }
}

int mapped_is_named(int file, const char *path) {
  struct stat one, other;
  return fstat(file, &one) == 0 && stat(path, &other) == 0 && one.st_dev == other.st_dev &&
         one.st_ino == other.st_ino;
}

/* Opens the file of this name and locks it. A lock belongs to the file and not to the name, which
 * may be another file's by then: so it looks, and tries again. */
uint32_t mapped_open_locked(const char *path, int flags, int how, int *opened) {
  for (int tries = 0; tries < 100; tries++) {
    int file = open(path, flags | O_RDWR | O_CLOEXEC | O_NOFOLLOW, 0600);
    if (file < 0) return mapped_refusal();
    uint32_t answer = flock(file, how | LOCK_NB) == 0 ? ONEFILE_DONE : mapped_refusal();
    if (answer == ONEFILE_DONE && mapped_is_named(file, path)) {
      *opened = file;
      return ONEFILE_DONE;
    }
    int why = errno;
    close(file);
    errno = why;
    if (answer != ONEFILE_DONE) return answer;
  }
  return ONEFILE_FILE_IN_USE;
}

uint32_t mapped_read_all(int file, void *bytes, size_t size, off_t from) {
  for (size_t done = 0; done < size;) {
    ssize_t count = pread(file, (char *)bytes + done, size - done, from + (off_t)done);
    if (count < 0 && errno != EINTR) return mapped_refusal();
    if (count == 0) return ONEFILE_BAD_FILE;
    if (count > 0) done += (size_t)count;
  }
  return ONEFILE_DONE;
}

/* Has the disk keep the name of a file, as far as it can be had. */
static void sync_name(const char *path) {
  char folder[MOST_PATH];
  snprintf(folder, sizeof folder, "%s", path);
  char *slash = strrchr(folder, '/');
  if (slash) slash[slash == folder] = 0;
  int file = open(slash ? folder : ".", O_RDONLY | O_DIRECTORY | O_CLOEXEC);
  if (file < 0) return;
  fsync(file);
  close(file);
}

/* ---- A memory in a new file. */

/* Whether this process may have a file of so many bytes. One that may not is told so, and not ended
 * by SIGXFSZ. */
static int may_have(size_t size) {
  struct rlimit most;
  if (getrlimit(RLIMIT_FSIZE, &most) != 0 || size <= most.rlim_cur) return 1;
  errno = EFBIG;
  return 0;
}

/* Makes the file with all its blocks, so that a full disk is told now and not by a signal later,
 * and maps it. What a process that was killed has left there goes. */
static uint32_t make_file(birth *born, table *one) {
  one->size = size_for(&born->head);
  if (!may_have(one->size)) return mapped_refusal();
  if (ftruncate(one->file, 0) != 0 || fchmod(one->file, born->mode) != 0) return mapped_refusal();
  do errno = posix_fallocate(one->file, 0, (off_t)one->size);
  while (errno == EINTR);
  if (errno != 0) return mapped_refusal();
  void *map = mmap(NULL, one->size, PROT_READ | PROT_WRITE, MAP_SHARED, one->file, 0);
  if (map == MAP_FAILED) return mapped_refusal();
  one->map = map;
  if (madvise(map, one->size, MADV_DONTFORK) != 0) return mapped_refusal();
  /* Words that no table may start from, until the table is there. */
  memset((char *)map + PAGE, 0xff, one->size - PAGE);
  memcpy(map, &born->head, sizeof born->head);
  return ONEFILE_DONE;
}

uint32_t mapped_mistaken(void) {
  errno = ENOTSUP;
  return ONEFILE_SYSTEM;
}

/* Whether the memory that was opened has its table in the file: a memory can start from what is
 * there, and knows the same calls. */
static uint32_t read_back(birth *born, const table *one) {
  const header *head = &born->head;
  const uint64_t *durable = (const uint64_t *)atomic_load(&one->words) + head->table.first;
  onefile_slot there = {0};
  uint32_t answer = of_c_from_words(head->callers, head->blocks, ONEFILE_GREATEST_LIMIT, durable,
                                    head->table.durable, &there);
  if (answer == ONEFILE_BAD_FILE || answer == ONEFILE_RANGE) answer = mapped_mistaken();
  for (uint32_t i = 0; answer == ONEFILE_DONE && i < head->callers; i++) {
    uint32_t held = 0, wanted = 0;
    of_c_ticket(&there, i, &held);
    of_c_ticket(&born->start, i, &wanted);
    if (held != wanted) answer = mapped_mistaken();
  }
  of_c_free(&there);
  return answer;
}

uint32_t mapped_open_at(birth *born, table *one, char *words, onefile_slot *memory) {
  one->spare = born->head.spare;
  one->callers = born->head.callers - one->spare;
  atomic_store(&one->words, (uintptr_t)words);
  awaited.bytes = born->head.table.words * sizeof(uint64_t);
  awaited.count = 0;
  awaited.words = words;
  uint32_t answer = of_c_reopen(&born->start, memory);
  unsigned count = awaited.count;
  awaited.bytes = 0;
  if (answer == ONEFILE_DONE && count != REQUESTS) answer = mapped_mistaken();
  return answer;
}

/* Lets the memory go of a file that processes are to share, which any of them may open now. The
 * words that it has started from are kept behind the table. */
static void keep_start(table *one, onefile_slot *memory) {
  header *head = one->map;
  char *words = (char *)head + PAGE, *start = (char *)head + mapped_start_at(head);
  size_t bytes = head->table.durable * sizeof(uint64_t);
  of_c_free(memory);
  memcpy(start, words + head->table.first * sizeof(uint64_t), bytes);
  head->start_sum = mapped_sum(head->sum, start, bytes);
  head->share_sum = mapped_sum(head->sum, &head->limit, offsetof(header, share_sum) -
                                                            offsetof(header, limit));
}

/* Opens the memory on the words of the file. */
static uint32_t open_there(birth *born, table *one, onefile_slot *memory) {
  uint32_t answer = mapped_open_at(born, one, (char *)one->map + PAGE, memory);
  if (answer == ONEFILE_DONE) answer = read_back(born, one);
  if (answer == ONEFILE_DONE && born->head.version == FOR_MANY) keep_start(one, memory);
  return answer;
}

/* Gives the file its name, once the disk has it. */
static uint32_t name_file(const birth *born, const table *one) {
  if (msync(one->map, one->size, MS_SYNC) != 0 || fsync(one->file) != 0) return mapped_refusal();
  unsigned flags = born->head.lives == 1 ? RENAME_NOREPLACE : 0;
  if (renameat2(AT_FDCWD, born->beside, AT_FDCWD, born->path, flags) != 0) return mapped_refusal();
  sync_name(born->path);
  return ONEFILE_DONE;
}

/* Undoes what has been done of it. */
static void undo(const birth *born, table *one, onefile_slot *memory) {
  int why = errno;
  of_c_free(memory);
  mapped_empty(one);
  if (one->map) munmap(one->map, one->size);
  unlink(born->beside);
  close(one->file);
  errno = why;
}

table *mapped_free_table(void) {
  for (size_t i = 0; i < MOST_FILES; i++) {
    if (atomic_load(&tables[i].words) == 0) return watches_forks() ? &tables[i] : NULL;
  }
  return NULL;
}

uint32_t mapped_make(birth *born, table *one, onefile_slot *memory) {
  if ((size_t)snprintf(born->beside, MOST_PATH, "%s.new", born->path) >= MOST_PATH) {
    mapped_empty(one);
    errno = ENAMETOOLONG;
    return ONEFILE_SYSTEM;
  }
  one->map = NULL;
  one->is_opening = 1;
  one->is_shared = 0;
  uint32_t answer = mapped_open_locked(born->beside, O_CREAT, LOCK_EX, &one->file);
  if (answer != ONEFILE_DONE) {
    mapped_empty(one);
    return answer;
  }
  answer = make_file(born, one);
  if (answer == ONEFILE_DONE) answer = open_there(born, one, memory);
  if (answer == ONEFILE_DONE) answer = name_file(born, one);
  if (answer != ONEFILE_DONE) {
    undo(born, one, memory);
  } else if (born->head.version == FOR_MANY) {
    mapped_empty(one);
    munmap(one->map, one->size);
  }
  one->is_opening = 0;
  return answer;
}

/* Opens the memory in a new file, which then has the name. The caller has the files. */
static uint32_t begin(birth *born, onefile_memory *memory) {
  table *one = mapped_free_table();
  if (!one) return ONEFILE_NO_MEMORY;
  atomic_store(&one->memory, memory);
  return mapped_make(born, one, &memory->memory.slot);
}

/* An empty memory comes from what an empty one leaves, so that there is one way to open a file. */
uint32_t mapped_conceive(birth *born, uint32_t callers, uint32_t blocks, uint32_t limit) {
  onefile_slot empty = {0};
  born->mode = 0600;
  if (access(born->path, F_OK) == 0) return ONEFILE_FILE_EXISTS;
  uint32_t answer = of_c_open(callers, blocks, limit, &empty);
  if (answer == ONEFILE_DONE) answer = of_c_close(&empty, &born->start);
  of_c_free(&empty);
  return answer;
}

int onefile_open_file(onefile_memory *memory, const char *path, uint32_t callers, uint32_t blocks,
                      uint32_t limit) {
  if (!memory || !path) return ONEFILE_NULL;
  if (!claim_all(memory)) return ONEFILE_BUSY;
  uint32_t answer = ONEFILE_FULL;
  if (memory->memory.slot.state == 0 && !has_caller(memory)) {
    birth born = {.path = path};
    int could_be = mapped_take_files();
    answer = mapped_conceive(&born, callers, blocks, limit);
    if (answer == ONEFILE_DONE) answer = mapped_head_for(&born, FOR_ONE, callers, blocks);
    born.head.limit = limit;
    if (answer == ONEFILE_DONE) answer = begin(&born, memory);
    of_c_free(&born.start);
    mapped_let_go_files(could_be);
  }
  release_all(memory);
  return (int)answer;
}

/* ---- A memory that goes on from a file. */

/* What recovery finds in the durable words of a file. */
static uint32_t find(int file, const header *head, onefile_slot *found) {
  size_t bytes = head->table.durable * sizeof(uint64_t);
  off_t from = (off_t)(head->offset + head->table.first * sizeof(uint64_t));
  uint64_t *words = malloc(bytes);
  if (!words) return ONEFILE_NO_MEMORY;
  uint32_t answer = mapped_read_all(file, words, bytes, from);
  if (answer == ONEFILE_DONE) {
    answer = of_c_from_words(head->callers, head->blocks, ONEFILE_GREATEST_LIMIT, words,
                             head->table.durable, found);
    if (answer == ONEFILE_RANGE) answer = ONEFILE_BAD_FILE;
  }
  free(words);
  return answer;
}

uint32_t mapped_look(int file, header *head, mode_t *mode) {
  struct stat about;
  if (fstat(file, &about) != 0) return mapped_refusal();
  if (!S_ISREG(about.st_mode)) return ONEFILE_BAD_FILE;
  *mode = about.st_mode & 0777;
  memset(head, 0, sizeof *head);
  uint32_t answer = mapped_read_all(file, head, sizeof *head, 0);
  if (answer == ONEFILE_DONE) answer = fault_of(head, (uint64_t)about.st_size);
  return answer == ONEFILE_DONE ? is_whole(head) : answer;
}

uint32_t mapped_go_on_from(int file, birth *born, uint32_t limit) {
  uint32_t answer = mapped_look(file, &born->head, &born->mode);
  if (answer == ONEFILE_DONE) answer = find(file, &born->head, &born->start);
  if (answer == ONEFILE_DONE) answer = of_c_renumber(&born->start);
  return answer == ONEFILE_DONE ? of_c_set_limit(&born->start, limit) : answer;
}

/* Fills both slots, or neither. */
static uint32_t reopen(onefile_memory *memory, const char *path, uint32_t limit,
                       onefile_slot *saved) {
  birth born = {.path = path};
  int file = -1, could_be = mapped_take_files();
  uint32_t answer = mapped_open_locked(path, 0, LOCK_EX, &file);
  if (answer == ONEFILE_DONE) {
    answer = mapped_go_on_from(file, &born, limit);
    if (answer == ONEFILE_DONE) {
      answer = mapped_head_for(&born, FOR_ONE, born.head.callers, born.head.blocks);
      born.head.limit = limit;
    }
    if (answer == ONEFILE_DONE) answer = begin(&born, memory);
    int why = errno;
    close(file); /* the new file has been locked since before it had the name */
    errno = why;
  }
  mapped_let_go_files(could_be);
  if (answer == ONEFILE_DONE && saved) *saved = born.start;
  else of_c_free(&born.start);
  return answer;
}

int onefile_reopen_file(onefile_memory *memory, const char *path, uint32_t limit,
                        onefile_saved *saved) {
  if (!memory || !path) return ONEFILE_NULL;
  if (saved && !claim(&saved->saved)) return ONEFILE_BUSY;
  uint32_t answer = ONEFILE_BUSY;
  if (claim_all(memory)) {
    answer = ONEFILE_FULL;
    if (memory->memory.slot.state == 0 && !has_caller(memory) &&
        (!saved || saved->saved.slot.state == 0)) {
      answer = reopen(memory, path, limit, saved ? &saved->saved.slot : NULL);
    }
    release_all(memory);
  }
  if (saved) release(&saved->saved);
  return (int)answer;
}

/* ---- A memory in a file whose sequences begin anew. */

int mapped_has(const onefile_memory *memory) { return mapped_table_of(memory) != NULL; }

/* The path of a file that is open. NO_FILE if another file has its name, SYSTEM. */
static uint32_t path_of(int file, char path[MOST_PATH]) {
  char link[40];
  snprintf(link, sizeof link, "/proc/self/fd/%d", file);
  ssize_t size = readlink(link, path, MOST_PATH - 1);
  if (size < 0) return ONEFILE_SYSTEM;
  path[size] = 0;
  return mapped_is_named(file, path) ? ONEFILE_DONE : ONEFILE_NO_FILE;
}

uint32_t mapped_renumber(onefile_memory *memory, onefile_slot *saved) {
  char path[MOST_PATH];
  const table *one = mapped_table_of(memory);
  uint32_t limit = one->map->limit;
  uint32_t answer = path_of(one->file, path);
  if (answer == ONEFILE_DONE) answer = of_c_close(&memory->memory.slot, saved);
  if (answer == ONEFILE_DONE) answer = of_c_renumber(saved);
  return answer == ONEFILE_DONE ? reopen(memory, path, limit, NULL) : answer;
}
