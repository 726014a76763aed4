/* midway.c: opening and closing a memory in a file goes wrong midway: midway [FOLDER]. Each request
 * to malloc and to the system is refused in turn: nothing has changed then, and nothing is left
 * open. And the process is killed at each of them: the next one goes on from the same. To be linked
 * with --wrap for each function that is wrapped here. */
#define _GNU_SOURCE
#include "onefile.h"

#include <dirent.h>
#include <errno.h>
#include <fcntl.h>
#include <signal.h>
#include <stdarg.h>
#include <stdio.h>
#include <stdlib.h>
#include <string.h>
#include <sys/file.h>
#include <sys/mman.h>
#include <sys/stat.h>
#include <sys/wait.h>
#include <unistd.h>

enum { CALLERS = 2, BLOCKS = 4, LIMIT = 1000, MOST = 1 << 17, MOST_WRAPS = 14 };

#define HOLDS(condition) holds((condition), __LINE__, #condition)
#define MUST(call) holds((call) == ONEFILE_DONE, __LINE__, #call)

static void holds(int is_so, int line, const char *what) {
  if (is_so) return;
  printf("line %d: not %s (%s)\n", line, what, strerror(errno));
  fflush(stdout);
  _exit(1);
}

/* ---- Requests that are refused. */

/* The request that is refused or kills, counted from 1; 0 for none. */
static long refused_at, killed_at, count;

/* The functions that were called, each once. */
static const char *seen[MOST_WRAPS];

static void see(const char *name) {
  size_t i = 0;
  while (seen[i] && seen[i] != name) i++;
  seen[i] = name;
}

/* What happens just before such a function is called for the next time. */
static struct {
  const char *name;
  void (*act)(void);
} meanwhile;

static int is_refused(const char *name, int why) {
  see(name);
  if (meanwhile.name && strcmp(name, meanwhile.name) == 0) {
    meanwhile.name = NULL;
    meanwhile.act();
  }
  count++;
  if (count == killed_at) raise(SIGKILL);
  if (count != refused_at) return 0;
  errno = why;
  return 1;
}

/* A function that is refused with an error, or else called. */
#define WRAP(type, name, takes, gives, fails, why)                 \
  type __real_##name takes;                                        \
  type __wrap_##name takes {                                       \
    static const char own[] = #name;                               \
    return is_refused(own, why) ? (fails) : __real_##name gives;   \
  }

WRAP(void *, malloc, (size_t size), (size), NULL, ENOMEM)
WRAP(void *, realloc, (void *block, size_t size), (block, size), NULL, ENOMEM)
WRAP(int, flock, (int file, int how), (file, how), -1, EIO)
WRAP(int, fstat, (int file, struct stat *about), (file, about), -1, EIO)
WRAP(int, ftruncate, (int file, off_t size), (file, size), -1, EIO)
WRAP(int, fchmod, (int file, mode_t mode), (file, mode), -1, EPERM)
WRAP(int, posix_fallocate, (int file, off_t at, off_t size), (file, at, size), ENOSPC, ENOSPC)
WRAP(void *, mmap, (void *at, size_t size, int may, int how, int file, off_t from),
     (at, size, may, how, file, from), MAP_FAILED, ENOMEM)
WRAP(int, madvise, (void *at, size_t size, int what), (at, size, what), -1, EIO)
WRAP(int, msync, (void *at, size_t size, int how), (at, size, how), -1, EIO)
WRAP(int, fsync, (int file), (file), -1, EIO)
WRAP(int, renameat2, (int in, const char *from, int to_in, const char *to, unsigned how),
     (in, from, to_in, to, how), -1, EIO)
WRAP(ssize_t, pread, (int file, void *bytes, size_t size, off_t at), (file, bytes, size, at), -1,
     EIO)

int __real_open(const char *path, int flags, ...);
int __wrap_open(const char *path, int flags, ...) {
  va_list rest;
  va_start(rest, flags);
  int mode = flags & O_CREAT ? va_arg(rest, int) : 0;
  va_end(rest);
  return is_refused("open", EIO) ? -1 : __real_open(path, flags, mode);
}

/* ---- The file. */

static char folder[200], path[220], beside[240];
static unsigned char before[MOST], after[MOST];
static size_t size;

static size_t read_file(unsigned char *bytes) {
  int file = open(path, O_RDONLY);
  if (file < 0) return 0;
  ssize_t length = read(file, bytes, MOST);
  close(file);
  return length < 0 ? 0 : (size_t)length;
}

static void write_file(const unsigned char *bytes, size_t length) {
  int file = open(path, O_WRONLY | O_CREAT | O_TRUNC, 0600);
  HOLDS(write(file, bytes, length) == (ssize_t)length);
  close(file);
}

static int is_as_before(void) { return read_file(after) == size && !memcmp(before, after, size); }

/* Whether there is such a file. One that was made and could not be locked is left, and is empty. */
static int is_file(const char *name) {
  struct stat about;
  return stat(name, &about) == 0 && about.st_size > 0;
}

static int open_files(void) {
  int files = 0;
  DIR *all = opendir("/proc/self/fd");
  while (readdir(all)) files++;
  closedir(all);
  return files;
}

/* What the file has, as the image of what a memory that goes on from it starts from. */
static size_t image_of_file(char *text, size_t room) {
  onefile_memory memory = ONEFILE_NONE;
  onefile_saved saved = ONEFILE_NONE;
  size_t length = 0;
  MUST(onefile_reopen_file(&memory, path, LIMIT, &saved));
  MUST(onefile_free(&memory));
  MUST(onefile_image(&saved, text, room, &length));
  MUST(onefile_free_saved(&saved));
  return length;
}

static char wanted[MOST], found[MOST];
static size_t wanted_length;

static int has_wanted(void) {
  return image_of_file(found, sizeof found) == wanted_length &&
         memcmp(wanted, found, wanted_length) == 0;
}

/* A life that ends in the middle of a call, after so many steps, as a process that is killed. */
static void make_file(uint64_t steps) {
  static const char first[] = "add 0 5; put 3 4; push 1 6", second[] = "add 0 2; put 3 5; pop 1";
  unlink(path);
  pid_t child = fork();
  if (child == 0) {
    static onefile_memory memory = ONEFILE_NONE;
    onefile_reply reply;
    MUST(onefile_open_file(&memory, path, CALLERS, BLOCKS, LIMIT));
    MUST(onefile_enrol(&memory, 1));
    MUST(onefile_call_text(&memory, 1, first, sizeof first - 1, &reply));
    onefile_call_text_within(&memory, 1, second, sizeof second - 1, steps, &reply);
    _exit(0);
  }
  int status = 1;
  HOLDS(waitpid(child, &status, 0) == child && status == 0);
  size = read_file(before);
  wanted_length = image_of_file(wanted, sizeof wanted);
  write_file(before, size);
}

typedef int trial(onefile_memory *memory);

/* What is wanted of a first file is what an empty memory has that is made so. */
static void make_empty(trial *call) {
  onefile_memory memory = ONEFILE_NONE;
  unlink(path);
  MUST(call(&memory));
  MUST(onefile_free(&memory));
  wanted_length = image_of_file(wanted, sizeof wanted);
  MUST(unlink(path));
  size = 0;
}

/* ---- What goes wrong. A child says by its status whether the request was reached. */

enum { REACHED = 0, NOT_REACHED = 7 };

static int opens(onefile_memory *memory) {
  return onefile_open_file(memory, path, CALLERS, BLOCKS, LIMIT);
}

static int reopens(onefile_memory *memory) {
  return onefile_reopen_file(memory, path, LIMIT, NULL);
}

/* A process that shares the file: it is made, or recovered, and let go. */
static int shares(onefile_memory *memory) {
  return onefile_share_file(memory, path, CALLERS, BLOCKS, LIMIT);
}

static int shares_and_closes(onefile_memory *memory) {
  int answer = shares(memory);
  return answer == ONEFILE_DONE ? onefile_close(memory, NULL) : answer;
}

static int reopens_and_closes(onefile_memory *memory) {
  int answer = reopens(memory);
  return answer == ONEFILE_DONE ? onefile_free(memory) : answer;
}

/* A request is refused: the call says so and has changed nothing, or it can do without. */
static int refuse(trial *call, long at) {
  static onefile_memory memory = ONEFILE_NONE;
  int files = open_files();
  count = 0;
  refused_at = at;
  int answer = call(&memory);
  refused_at = 0;
  if (count < at) return NOT_REACHED;
  if (answer != ONEFILE_DONE) {
    HOLDS(answer == ONEFILE_NO_MEMORY || answer == ONEFILE_NO_SPACE || answer == ONEFILE_SYSTEM);
    HOLDS(open_files() == files);
    /* A shared file may have come to a new life, which has the same. */
    HOLDS(is_as_before() || (call == shares && is_file(path) && has_wanted()));
    HOLDS(!is_file(beside));
    MUST(call(&memory));
  }
  MUST(onefile_free(&memory));
  HOLDS(open_files() == files);
  return REACHED;
}

static int killed(trial *call, long at) {
  static onefile_memory memory = ONEFILE_NONE;
  count = 0;
  killed_at = at;
  call(&memory);
  return NOT_REACHED;
}

/* Tries it at each request in turn. After each, the file has what is wanted, if it is there. */
static int try_all(trial *call, int (*wrong)(trial *, long)) {
  for (long at = 1;; at++) {
    int status = 0;
    pid_t child = fork();
    if (child == 0) _exit(wrong(call, at));
    HOLDS(waitpid(child, &status, 0) == child);
    if (WIFEXITED(status) && WEXITSTATUS(status) == NOT_REACHED) return (int)at - 1;
    HOLDS(wrong == killed ? WIFSIGNALED(status) && WTERMSIG(status) == SIGKILL : status == 0);
    if (access(path, F_OK) == 0) HOLDS(has_wanted());
    if (size > 0) write_file(before, size);
    else unlink(path);
  }
}

/* Closing needs memory: if that is refused, the memory is as it was, and can be closed again. */
static int refused_closings(void) {
  for (long at = 1;; at++) {
    onefile_memory memory = ONEFILE_NONE;
    onefile_saved saved = ONEFILE_NONE;
    uint32_t value = 0;
    MUST(reopens(&memory));
    count = 0;
    refused_at = at;
    int answer = onefile_close(&memory, &saved);
    refused_at = 0;
    if (answer == ONEFILE_NO_MEMORY) answer = onefile_close(&memory, &saved);
    MUST(answer);
    MUST(onefile_register(&saved, 0, &value));
    HOLDS(value >= 5 && has_wanted());
    MUST(onefile_free_saved(&saved));
    if (count < at) return (int)at - 1;
  }
}

/* ---- What others do meanwhile. */

static char aside[240];

static void rename_aside(void) { HOLDS(rename(aside, path) == 0); }

/* Makes a file whose memory has this in its first register. */
static void make_with(uint32_t value) {
  onefile_memory memory = ONEFILE_NONE;
  onefile_reply reply;
  uint64_t store[] = {onefile_store(0, value)};
  unlink(path);
  MUST(opens(&memory));
  MUST(onefile_enrol(&memory, 0));
  MUST(onefile_call(&memory, 0, store, 1, &reply));
  MUST(onefile_free(&memory));
}

/* Another file gets the name after the first one was opened, and before it is locked. */
static void renamed_meanwhile(void) {
  onefile_memory memory = ONEFILE_NONE;
  onefile_saved saved = ONEFILE_NONE;
  uint32_t value = 0;
  snprintf(aside, sizeof aside, "%s.aside", path);
  make_with(5);
  HOLDS(rename(path, aside) == 0);
  make_with(9);
  meanwhile.name = "flock";
  meanwhile.act = rename_aside;
  MUST(onefile_reopen_file(&memory, path, LIMIT, &saved));
  MUST(onefile_register(&saved, 0, &value));
  HOLDS(value == 5);
  MUST(onefile_free(&memory));
  MUST(onefile_free_saved(&saved));
}

static void make_other(void) { write_file((const unsigned char *)"mine", 4); }

/* Another file is made with the name of a first file. */
static void made_meanwhile(void) {
  onefile_memory memory = ONEFILE_NONE;
  HOLDS(unlink(path) == 0);
  meanwhile.name = "renameat2";
  meanwhile.act = make_other;
  HOLDS(opens(&memory) == ONEFILE_FILE_EXISTS);
  HOLDS(read_file(after) == 4 && memcmp(after, "mine", 4) == 0 && !is_file(beside));
  HOLDS(onefile_free(&memory) == ONEFILE_EMPTY);
}

int main(int argc, char **argv) {
  static const uint64_t steps[] = {12, 40, 60};
  size_t reached = 0;
  snprintf(folder, sizeof folder, "%s/onefile-midway.XXXXXX", argc > 1 ? argv[1] : "/tmp");
  HOLDS(mkdtemp(folder) != NULL);
  snprintf(path, sizeof path, "%s/memory", folder);
  snprintf(beside, sizeof beside, "%s.new", path);
  make_empty(opens);
  int tried = try_all(opens, refuse) + try_all(opens, killed);
  make_empty(shares);
  tried += try_all(shares, refuse) + try_all(shares_and_closes, killed);
  for (size_t i = 0; i < sizeof steps / sizeof *steps; i++) {
    make_file(steps[i]);
    tried += try_all(reopens, refuse) + try_all(reopens_and_closes, killed);
    tried += try_all(shares, refuse) + try_all(shares_and_closes, killed);
    tried += refused_closings();
  }
  renamed_meanwhile();
  made_meanwhile();
  while (reached < MOST_WRAPS && seen[reached]) reached++;
  HOLDS(reached == MOST_WRAPS);
  unlink(beside); /* of one that was killed */
  HOLDS(unlink(path) == 0 && rmdir(folder) == 0);
  printf("each request was refused, and each killed the process: %s\n",
         tried > 200 ? "done" : "too few");
  return 0;
}
