/* files.c: memories in files: what each misuse and each spoilt file is answered, two processes on
 * one file, and forked children: files [FOLDER]. It prints what is answered otherwise, and how many
 * answers there were. */
#define _GNU_SOURCE
#include "onefile.h"

#include <errno.h>
#include <fcntl.h>
#include <pthread.h>
#include <signal.h>
#include <stdio.h>
#include <stdlib.h>
#include <string.h>
#include <sys/resource.h>
#include <sys/stat.h>
#include <sys/syscall.h>
#include <sys/wait.h>
#include <unistd.h>

enum { LIMIT = 1000, HEADER = 120, SUM_AT = 104, BOOT_AT = 64, CLOSED_AT = 112, MOST = 1 << 17 };
enum { RACERS = 4 };

static int tried, wrong;

static void expect(int line, int answer, int wanted) {
  tried++;
  if (answer == wanted) return;
  wrong++;
  printf("line %d: %s, not %s (%s)\n", line, onefile_name(answer), onefile_name(wanted),
         strerror(errno));
}

#define EXPECT(call, wanted) expect(__LINE__, (call), (wanted))
#define HOLDS(condition) expect(__LINE__, (condition) ? 0 : -1, 0)

static char folder[200], path[220], beside[240];
static onefile_memory memory = ONEFILE_NONE, other = ONEFILE_NONE;
static onefile_saved saved = ONEFILE_NONE;
static onefile_reply reply;
static uint32_t value;
static unsigned char whole[MOST], changed[MOST];
static size_t size;

static int reopen(onefile_memory *one) { return onefile_reopen_file(one, path, LIMIT, NULL); }

static size_t read_file(unsigned char *bytes) {
  int file = open(path, O_RDONLY);
  ssize_t count = read(file, bytes, MOST);
  close(file);
  return count < 0 ? 0 : (size_t)count;
}

/* Writes another file of this name. */
static void write_named(const char *name, const unsigned char *bytes, size_t count) {
  unlink(name);
  int file = open(name, O_WRONLY | O_CREAT | O_TRUNC, 0640);
  HOLDS(write(file, bytes, count) == (ssize_t)count);
  close(file);
}

static void write_file(const unsigned char *bytes, size_t count) {
  write_named(path, bytes, count);
}

/* The word at this byte of the file that was read. */
static uint64_t number_at(size_t at) {
  uint64_t number;
  memcpy(&number, whole + at, sizeof number);
  return number;
}

static int is_there(const char *name) { return access(name, F_OK) == 0; }

static int text(onefile_memory *one, const char *script) {
  return onefile_call_text(one, 0, script, strlen(script), &reply);
}

/* Enrols caller 0, which runs this and leaves. */
static void run(onefile_memory *one, const char *script) {
  EXPECT(onefile_enrol(one, 0), ONEFILE_DONE);
  EXPECT(text(one, script), ONEFILE_DONE);
  EXPECT(onefile_leave(one, 0), ONEFILE_DONE);
}

/* ---- Misuse. */

static void arguments(void) {
  EXPECT(onefile_open_file(NULL, path, 1, 0, 1), ONEFILE_NULL);
  EXPECT(onefile_open_file(&memory, NULL, 1, 0, 1), ONEFILE_NULL);
  EXPECT(onefile_reopen_file(NULL, path, 1, NULL), ONEFILE_NULL);
  EXPECT(onefile_reopen_file(&memory, NULL, 1, NULL), ONEFILE_NULL);
  EXPECT(onefile_open_file(&memory, path, 0, 0, 1), ONEFILE_RANGE);
  EXPECT(onefile_open_file(&memory, path, 17, 0, 1), ONEFILE_RANGE);
  EXPECT(onefile_open_file(&memory, path, 1, 16777217, 1), ONEFILE_RANGE);
  EXPECT(onefile_open_file(&memory, path, 1, 0, 0), ONEFILE_RANGE);
  EXPECT(onefile_open_file(&memory, path, 1, 0, UINT32_MAX), ONEFILE_RANGE);
  EXPECT(reopen(&memory), ONEFILE_NO_FILE);
  EXPECT(onefile_open_file(&memory, "/no/such/folder", 1, 0, 1), ONEFILE_NO_FILE);
  EXPECT(onefile_reopen_file(&memory, folder, 1, NULL), ONEFILE_SYSTEM);
  static char longest[5000];
  memset(longest, 'a', sizeof longest - 1);
  EXPECT(onefile_open_file(&memory, longest, 1, 0, 1), ONEFILE_SYSTEM);
  HOLDS(!is_there(path) && !is_there(beside));
  EXPECT(onefile_free(&memory), ONEFILE_EMPTY);
}

/* A second memory, a second file and a link. */
static void twice(void) {
  char link[240];
  EXPECT(onefile_open_file(&memory, path, 2, 4, LIMIT), ONEFILE_DONE);
  HOLDS(is_there(path) && !is_there(beside) && read_file(whole) > 0);
  HOLDS(number_at(CLOSED_AT) == 0);
  EXPECT(onefile_open_file(&memory, beside, 2, 4, LIMIT), ONEFILE_FULL);
  EXPECT(reopen(&memory), ONEFILE_FULL);
  EXPECT(onefile_open_file(&other, path, 2, 4, LIMIT), ONEFILE_FILE_EXISTS);
  EXPECT(reopen(&other), ONEFILE_FILE_IN_USE);
  run(&memory, "add 0 5; put 1 2");
  EXPECT(onefile_enrol(&memory, 0), ONEFILE_DONE);
  EXPECT(onefile_close(&memory, &saved), ONEFILE_IN_USE);
  EXPECT(onefile_leave(&memory, 0), ONEFILE_DONE);
  EXPECT(onefile_close(&memory, &saved), ONEFILE_DONE);
  EXPECT(reopen(&other), ONEFILE_DONE); /* what was saved is not in the file */
  EXPECT(onefile_free(&other), ONEFILE_DONE);
  EXPECT(onefile_register(&saved, 0, &value), ONEFILE_DONE);
  HOLDS(value == 5);
  EXPECT(onefile_reopen_file(&memory, path, LIMIT, &saved), ONEFILE_FULL);
  EXPECT(onefile_reopen_file(&memory, path, 0, NULL), ONEFILE_RANGE);
  EXPECT(onefile_reopen_file(&memory, path, UINT32_MAX, NULL), ONEFILE_RANGE);
  snprintf(link, sizeof link, "%s.link", path);
  HOLDS(symlink(path, link) == 0);
  EXPECT(onefile_reopen_file(&memory, link, LIMIT, NULL), ONEFILE_SYSTEM);
  HOLDS(errno == ELOOP && unlink(link) == 0 && !is_there(beside));
  EXPECT(onefile_free_saved(&saved), ONEFILE_DONE);
}

/* ---- Lives. What was found says what the last call came to, and each life has all sequences. */

static void lives(void) {
  EXPECT(onefile_reopen_file(&memory, path, 1, &saved), ONEFILE_DONE);
  EXPECT(onefile_key(&saved, 1, &value), ONEFILE_DONE);
  EXPECT(onefile_last_reply(&saved, 0, &reply), ONEFILE_DONE);
  HOLDS(value == 2 && reply.ticket == 1 && reply.values[0] == 5);
  EXPECT(onefile_free_saved(&saved), ONEFILE_DONE);
  run(&memory, "add 0 1");
  HOLDS(reply.seq == 1 && reply.values[0] == 6);
  EXPECT(onefile_enrol(&memory, 0), ONEFILE_DONE);
  EXPECT(text(&memory, "add 0 1"), ONEFILE_SPENT);
  EXPECT(onefile_free(&memory), ONEFILE_DONE); /* with a caller that has not left */
  HOLDS(chmod(path, 0640) == 0);
  EXPECT(onefile_reopen_file(&memory, path, 1, &saved), ONEFILE_DONE);
  EXPECT(onefile_ticket(&saved, 0, &value), ONEFILE_DONE);
  struct stat about;
  HOLDS(value >= 2 && stat(path, &about) == 0 && (about.st_mode & 0777) == 0640);
  EXPECT(onefile_free_saved(&saved), ONEFILE_DONE);
  run(&memory, "add 0 1");
  HOLDS(reply.seq == 1 && reply.values[0] == 7);
  EXPECT(onefile_free(&memory), ONEFILE_DONE);
}

/* What a process that was killed has left beside the file goes. */
static void rubbish(void) {
  memset(changed, 0x5a, MOST);
  write_named(beside, changed, MOST);
  for (int i = 0; i < 2; i++) {
    EXPECT(reopen(&memory), ONEFILE_DONE);
    EXPECT(onefile_free(&memory), ONEFILE_DONE);
  }
}

/* Memories of all sizes, and their last callers. */
static void shapes(void) {
  static const uint32_t counts[][2] = {{1, 0}, {16, 0}, {1, 512}, {16, 512}, {3, 7}};
  char name[240];
  snprintf(name, sizeof name, "%s.shape", path);
  for (size_t i = 0; i < sizeof counts / sizeof *counts; i++) {
    uint32_t last = counts[i][0] - 1;
    const char *script = counts[i][1] ? "add 15 3; put 2147483647 4" : "add 15 3";
    EXPECT(onefile_open_file(&memory, name, last + 1, counts[i][1], LIMIT), ONEFILE_DONE);
    EXPECT(onefile_enrol(&memory, last), ONEFILE_DONE);
    EXPECT(onefile_call_text(&memory, last, script, strlen(script), &reply), ONEFILE_DONE);
    EXPECT(onefile_free(&memory), ONEFILE_DONE);
    EXPECT(onefile_reopen_file(&memory, name, LIMIT, &saved), ONEFILE_DONE);
    EXPECT(onefile_enrol(&memory, last + 1), ONEFILE_RANGE);
    EXPECT(onefile_free(&memory), ONEFILE_DONE);
    EXPECT(onefile_register(&saved, 15, &value), ONEFILE_DONE);
    HOLDS(value == 3);
    int answer = onefile_key(&saved, 2147483647, &value);
    EXPECT(answer, counts[i][1] ? ONEFILE_DONE : ONEFILE_ABSENT);
    EXPECT(onefile_last_reply(&saved, last, &reply), ONEFILE_DONE);
    HOLDS(reply.ticket == 1 && reply.values[0] == 3);
    EXPECT(onefile_free_saved(&saved), ONEFILE_DONE);
    HOLDS(unlink(name) == 0);
  }
}

/* A process opens 64 files at most. */
static void many(void) {
  static onefile_memory all[65];
  char name[240];
  for (int i = 0; i < 65; i++) {
    snprintf(name, sizeof name, "%s.%d", path, i);
    EXPECT(onefile_open_file(&all[i], name, 1, 0, 1), i < 64 ? ONEFILE_DONE : ONEFILE_NO_MEMORY);
    HOLDS(is_there(name) == (i < 64));
  }
  for (int i = 0; i < 64; i++) {
    snprintf(name, sizeof name, "%s.%d", path, i);
    EXPECT(onefile_free(&all[i]), ONEFILE_DONE);
    HOLDS(unlink(name) == 0);
  }
}

/* A process that may have no file of this size is told so, and is not ended by a signal. */
static void limited(void) {
  struct rlimit before, small;
  HOLDS(getrlimit(RLIMIT_FSIZE, &before) == 0);
  small = (struct rlimit){.rlim_cur = 4096, .rlim_max = before.rlim_max};
  HOLDS(setrlimit(RLIMIT_FSIZE, &small) == 0);
  int answer = reopen(&other);
  HOLDS(setrlimit(RLIMIT_FSIZE, &before) == 0);
  EXPECT(answer, ONEFILE_NO_SPACE);
  HOLDS(!is_there(beside));
}

/* ---- Spoilt files. */

/* A file that is refused is left as it is. */
static void refuses(int line, const unsigned char *bytes, size_t count, int wanted) {
  static unsigned char left[MOST];
  write_file(bytes, count);
  expect(line, reopen(&memory), wanted);
  expect(line, read_file(left) == count && memcmp(left, bytes, count) == 0, 1);
  expect(line, is_there(beside), 0);
}

static void headers(void) {
  size = read_file(whole);
  for (size_t bit = 0; bit < 8 * HEADER; bit++) {
    memcpy(changed, whole, size);
    changed[bit / 8] ^= (unsigned char)(1 << bit % 8);
    refuses(__LINE__, changed, size, ONEFILE_BAD_FILE);
  }
  size_t sizes[] = {0, 1, HEADER - 1, HEADER, 4096, size / 2, size - 1, size + 1};
  memcpy(changed, whole, size);
  for (size_t i = 0; i < sizeof sizes / sizeof *sizes; i++) {
    refuses(__LINE__, changed, sizes[i], ONEFILE_BAD_FILE);
  }
  static const unsigned char zeros[MOST];
  refuses(__LINE__, zeros, size, ONEFILE_BAD_FILE);
}

/* Words that no memory could have left are refused. Others are what they say. */
static void words(void) {
  size_t first = 4096 + 8 * number_at(32), durable = 8 * number_at(40);
  int opened = 0, refused = 0;
  memcpy(changed, whole, size);
  memset(changed + first, 0xff, 8);
  refuses(__LINE__, changed, size, ONEFILE_BAD_FILE);
  for (int i = 0; i < 500; i++) {
    memcpy(changed, whole, size);
    for (long bits = 1 + random() % 5; bits > 0; bits--) {
      changed[first + (size_t)random() % durable] ^= (unsigned char)(1 << random() % 8);
    }
    write_file(changed, size);
    int answer = reopen(&memory);
    if (answer == ONEFILE_DONE) {
      opened++;
      EXPECT(onefile_free(&memory), ONEFILE_DONE);
    } else {
      refused++;
      EXPECT(answer, ONEFILE_BAD_FILE);
    }
  }
  HOLDS(opened > 0 && refused > 0);
  memcpy(changed, whole, size); /* what is not durable is not read */
  memset(changed + 4096, 0x5a, first - 4096);
  memset(changed + first + durable, 0x5a, size - first - durable);
  write_file(changed, size);
  EXPECT(reopen(&memory), ONEFILE_DONE);
  run(&memory, "load 0");
  HOLDS(reply.values[0] == 7);
  EXPECT(onefile_free(&memory), ONEFILE_DONE);
}

/* A file of another run of the machine. */
static void boots(void) {
  uint64_t sum = 14695981039346656037u;
  memcpy(changed, whole, size);
  changed[BOOT_AT] ^= 1;
  for (size_t i = 0; i < SUM_AT; i++) sum = (sum ^ changed[i]) * 1099511628211u;
  memcpy(changed + SUM_AT, &sum, sizeof sum);
  write_file(changed, size);
  EXPECT(reopen(&memory), ONEFILE_DONE); /* it was closed */
  EXPECT(onefile_free(&memory), ONEFILE_DONE);
  memset(changed + CLOSED_AT, 0, 8);
  refuses(__LINE__, changed, size, ONEFILE_TORN);
  write_file(whole, size);
}

/* ---- Processes. */

/* A process that has the file until it is killed. */
static void killed(void) {
  int ends[2];
  char byte = 0;
  HOLDS(pipe2(ends, O_CLOEXEC) == 0);
  pid_t child = fork();
  if (child == 0) {
    byte = reopen(&memory) == ONEFILE_DONE ? 'y' : 'n';
    if (write(ends[1], &byte, 1) == 1) pause();
    _exit(1);
  }
  close(ends[1]);
  HOLDS(read(ends[0], &byte, 1) == 1 && byte == 'y');
  close(ends[0]);
  EXPECT(reopen(&memory), ONEFILE_FILE_IN_USE);
  HOLDS(kill(child, SIGKILL) == 0 && waitpid(child, NULL, 0) == child);
  EXPECT(reopen(&memory), ONEFILE_DONE);
  EXPECT(onefile_free(&memory), ONEFILE_DONE);
}

/* Whether the file is mapped in this process. */
static int is_mapped(void) {
  char line[512];
  int found = 0;
  FILE *maps = fopen("/proc/self/maps", "r");
  while (maps && fgets(line, sizeof line, maps)) found |= strstr(line, path) != NULL;
  if (maps) fclose(maps);
  return found;
}

/* A child is told that its parent has the memory, and can let it go. Then it has one of its own. */
static int closes_in_child(void) {
  onefile_saved own = ONEFILE_NONE;
  char name[240];
  snprintf(name, sizeof name, "%s.child", path);
  if (onefile_close(&memory, &own) != ONEFILE_FILE_IN_USE) return 1;
  if (onefile_close(&memory, &own) != ONEFILE_FILE_IN_USE) return 2;
  if (onefile_free(&memory) != ONEFILE_DONE) return 3;
  if (onefile_open_file(&memory, name, 1, 0, LIMIT) != ONEFILE_DONE) return 4;
  if (onefile_close(&memory, &own) != ONEFILE_DONE || unlink(name) != 0) return 5;
  return onefile_free_saved(&own);
}

/* A child that is forked has neither the table nor the lock, and leaves both to its parent. */
static void forked(void) {
  int status = 0;
  EXPECT(reopen(&memory), ONEFILE_DONE);
  HOLDS(is_mapped());
  pid_t sleeper = (pid_t)syscall(SYS_fork); /* no handler runs: it has the descriptor */
  if (sleeper == 0) {
    pause();
    _exit(1);
  }
  pid_t freer = fork();
  if (freer == 0) _exit(is_mapped() || onefile_free(&memory));
  HOLDS(waitpid(freer, &status, 0) == freer && status == 0);
  pid_t closer = fork();
  if (closer == 0) _exit(closes_in_child());
  HOLDS(waitpid(closer, &status, 0) == closer && status == 0);
  EXPECT(reopen(&other), ONEFILE_FILE_IN_USE);
  run(&memory, "load 0");
  HOLDS(reply.values[0] == 7);
  EXPECT(onefile_free(&memory), ONEFILE_DONE);
  EXPECT(reopen(&memory), ONEFILE_DONE); /* while the sleeper is there */
  EXPECT(onefile_free(&memory), ONEFILE_DONE);
  HOLDS(kill(sleeper, SIGKILL) == 0 && waitpid(sleeper, NULL, 0) == sleeper);
}

/* ---- Cancelled threads. */

static char apart[240];

static int opens(void) { return onefile_open_file(&other, apart, 2, 4, LIMIT); }
static int reopens(void) { return onefile_reopen_file(&other, apart, LIMIT, NULL); }
static int closes(void) { return onefile_close(&other, &saved); }
static int lets_go(void) { return onefile_free(&other); }

/* What a thread does that has been cancelled, and what it was answered; -1 if it never was. */
static int (*task)(void);
static int answer_of_task;

static void *cancelled_task(void *unused) {
  pthread_cancel(pthread_self());
  answer_of_task = task();
  pthread_testcancel();
  return unused;
}

/* A thread that is cancelled ends after the call, and leaves nothing taken. Gives whether it may go
 * on: if not, the next call with a file would have no end. */
static int cancelled(void) {
  static int (*const tasks[])(void) = {opens, closes, reopens, lets_go, reopens, closes};
  snprintf(apart, sizeof apart, "%s.apart", path);
  for (size_t i = 0; i < sizeof tasks / sizeof *tasks; i++) {
    pthread_t thread;
    void *end = NULL;
    task = tasks[i];
    answer_of_task = -1;
    pthread_create(&thread, NULL, cancelled_task, NULL);
    pthread_join(thread, &end);
    HOLDS(end == PTHREAD_CANCELED);
    EXPECT(answer_of_task, ONEFILE_DONE);
    if (answer_of_task < 0) return 0;
    if (task == closes) EXPECT(onefile_free_saved(&saved), ONEFILE_DONE);
  }
  EXPECT(unlink(apart), 0);
  return 1;
}

/* ---- Races. */

/* Opens the file often, and adds 1 each time that it has it. Gives how often, or -1. */
static int race(void) {
  onefile_memory own = ONEFILE_NONE;
  onefile_reply answers;
  int won = 0;
  for (int i = 0; i < 100; i++) {
    int answer = i % 2 ? reopen(&own) : onefile_open_file(&own, path, 2, 4, LIMIT);
    if (answer == ONEFILE_DONE) {
      won++;
      if (onefile_enrol(&own, 0) || onefile_call_text(&own, 0, "add 3 1", 7, &answers)) return -1;
      if (onefile_free(&own)) return -1;
    } else if (answer != ONEFILE_FILE_IN_USE && answer != ONEFILE_FILE_EXISTS &&
               answer != ONEFILE_NO_FILE) {
      return -1;
    }
  }
  return won;
}

static void *race_in_thread(void *won) {
  *(int *)won = race();
  return NULL;
}

/* Threads race for the file, and then processes. */
static int race_in_threads(void) {
  pthread_t threads[RACERS];
  int won[RACERS], all = 0;
  for (int i = 0; i < RACERS; i++) pthread_create(&threads[i], NULL, race_in_thread, &won[i]);
  for (int i = 0; i < RACERS; i++) {
    pthread_join(threads[i], NULL);
    HOLDS(won[i] >= 0);
    all += won[i];
  }
  return all;
}

static int race_in_processes(void) {
  int ends[2], all = 0, one = 0;
  HOLDS(pipe2(ends, O_CLOEXEC) == 0);
  for (int i = 0; i < RACERS; i++) {
    if (fork() != 0) continue;
    one = race();
    _exit(write(ends[1], &one, sizeof one) != sizeof one);
  }
  for (int i = 0; i < RACERS; i++) {
    HOLDS(read(ends[0], &one, sizeof one) == sizeof one && one >= 0);
    all += one;
  }
  while (wait(NULL) > 0) continue;
  close(ends[0]);
  close(ends[1]);
  return all;
}

static void races(void) {
  HOLDS(unlink(path) == 0);
  int won = race_in_processes();
  won += race_in_threads();
  EXPECT(onefile_reopen_file(&memory, path, LIMIT, &saved), ONEFILE_DONE);
  EXPECT(onefile_register(&saved, 3, &value), ONEFILE_DONE);
  HOLDS(won > 0 && value == (uint32_t)won);
  EXPECT(onefile_free_saved(&saved), ONEFILE_DONE);
  EXPECT(onefile_free(&memory), ONEFILE_DONE);
}

int main(int argc, char **argv) {
  snprintf(folder, sizeof folder, "%s/onefile-files.XXXXXX", argc > 1 ? argv[1] : "/tmp");
  HOLDS(mkdtemp(folder) != NULL);
  snprintf(path, sizeof path, "%s/memory", folder);
  snprintf(beside, sizeof beside, "%s.new", path);
  arguments();
  twice();
  lives();
  rubbish();
  shapes();
  many();
  limited();
  headers();
  words();
  boots();
  killed();
  forked();
  if (cancelled()) {
    races();
    HOLDS(unlink(path) == 0 && rmdir(folder) == 0);
  }
  printf("%d answers, %d wrong\n", tried, wrong);
  return wrong != 0;
}
