/* shares.c: memories that processes share: what each misuse and each spoilt file is answered,
 * lives, numbers, a process that is killed or stopped in the middle of a call, forked children:
 * shares [FOLDER]. It prints what is answered otherwise, and how many answers there were. */
#define _GNU_SOURCE
#include "onefile.h"

#include <errno.h>
#include <fcntl.h>
#include <pthread.h>
#include <signal.h>
#include <stdio.h>
#include <stdlib.h>
#include <string.h>
#include <sys/resource.h>
#include <sys/syscall.h>
#include <sys/wait.h>
#include <unistd.h>

enum { CALLERS = 4, BLOCKS = 4, LIMIT = 100000, MOST = 1 << 17, STEPS = 100 };
enum { MOST_SHARED = ONEFILE_MOST_CALLERS - ONEFILE_SPARE_CALLERS };
enum { VERSION_AT = 8, SPARE_AT = 52, BOOT_AT = 64, SUM_AT = 104, CLOSED_AT = 112, LIMIT_AT = 120 };
enum { RACERS = 4, TURNS = 60, PAGE = 4096 };

static int tried, wrong;

static void expect(int line, int answer, int wanted) {
  tried++;
  if (answer == wanted) return;
  wrong++;
  printf("line %d: %s, not %s (%s)\n", line, onefile_name(answer), onefile_name(wanted),
         strerror(errno));
}

#define EXPECT(call, wanted) expect(__LINE__, (call), (wanted))
#define HOLDS(condition) expect(__LINE__, (condition) ? 0 : -1, 0)

static char folder[200], path[220], beside[240];
static onefile_memory memory = ONEFILE_NONE, other = ONEFILE_NONE;
static onefile_saved saved = ONEFILE_NONE;
static onefile_reply reply;
static uint32_t value;
static unsigned char whole[MOST], changed[MOST];

static int share_with(onefile_memory *one, uint32_t limit) {
  return onefile_share_file(one, path, CALLERS, BLOCKS, limit);
}

static int share(onefile_memory *one) { return share_with(one, LIMIT); }

static int reopen(onefile_memory *one) { return onefile_reopen_file(one, path, LIMIT, NULL); }

static int close_shared(onefile_memory *one) { return onefile_close(one, NULL); }

static int text(onefile_memory *one, uint32_t number, const char *script) {
  return onefile_call_text(one, number, script, strlen(script), &reply);
}

static int is_there(const char *name) { return access(name, F_OK) == 0; }

static size_t read_file(unsigned char *bytes) {
  int file = open(path, O_RDONLY);
  ssize_t count = read(file, bytes, MOST);
  close(file);
  return count < 0 ? 0 : (size_t)count;
}

/* Writes into the file that is there. */
static void write_at(size_t at, const void *bytes, size_t count) {
  int file = open(path, O_WRONLY);
  HOLDS(pwrite(file, bytes, count, (off_t)at) == (ssize_t)count);
  close(file);
}

static uint64_t number_in(const unsigned char *bytes, size_t at) {
  uint64_t number;
  memcpy(&number, bytes + at, sizeof number);
  return number;
}

static int is_closed(void) { return read_file(changed) && number_in(changed, CLOSED_AT) != 0; }

/* ---- Misuse. */

static void arguments(void) {
  EXPECT(onefile_share_file(NULL, path, 1, 0, 1), ONEFILE_NULL);
  EXPECT(onefile_share_file(&memory, NULL, 1, 0, 1), ONEFILE_NULL);
  EXPECT(onefile_share_file(&memory, path, 0, 0, 1), ONEFILE_RANGE);
  EXPECT(onefile_share_file(&memory, path, MOST_SHARED + 1, 0, 1), ONEFILE_RANGE);
  EXPECT(onefile_share_file(&memory, path, ONEFILE_MOST_CALLERS + 1, 0, 1), ONEFILE_RANGE);
  EXPECT(onefile_share_file(&memory, path, UINT32_MAX, 0, 1), ONEFILE_RANGE);
  EXPECT(onefile_share_file(&memory, path, 1, 16777217, 1), ONEFILE_RANGE);
  EXPECT(onefile_share_file(&memory, path, 1, 0, 0), ONEFILE_RANGE);
  EXPECT(onefile_share_file(&memory, path, 1, 0, UINT32_MAX), ONEFILE_RANGE);
  EXPECT(onefile_share_file(&memory, "/no/such/folder", 1, 0, 1), ONEFILE_NO_FILE);
  EXPECT(onefile_share_file(&memory, folder, 1, 0, 1), ONEFILE_SYSTEM);
  static char longest[5000];
  memset(longest, 'a', sizeof longest - 1);
  EXPECT(onefile_share_file(&memory, longest, 1, 0, 1), ONEFILE_SYSTEM);
  EXPECT(onefile_enrol_any(NULL, &value), ONEFILE_NULL);
  EXPECT(onefile_enrol_any(&memory, NULL), ONEFILE_NULL);
  EXPECT(onefile_enrol_any(&memory, &value), ONEFILE_EMPTY);
  HOLDS(!is_there(path) && !is_there(beside));
}

/* Two memories of one file, as two processes have them, and others that come. */
static void two(void) {
  EXPECT(share(&memory), ONEFILE_DONE);
  HOLDS(is_there(path) && !is_there(beside));
  EXPECT(share(&memory), ONEFILE_FULL);
  EXPECT(share(&other), ONEFILE_DONE);
  EXPECT(onefile_enrol(&memory, 0), ONEFILE_DONE);
  EXPECT(onefile_enrol(&other, 1), ONEFILE_DONE);
  EXPECT(text(&memory, 0, "add 0 5; put 1 2"), ONEFILE_DONE);
  EXPECT(text(&other, 1, "add 0 6; get 1"), ONEFILE_DONE);
  HOLDS(reply.values[0] == 11 && reply.values[1] == 2);
  EXPECT(onefile_last_reply_of(&other, 0, &reply), ONEFILE_DONE);
  HOLDS(reply.values[0] == 5 && reply.len == 2 && reply.ticket == 1);
  EXPECT(onefile_last_reply_of(&memory, 1, &reply), ONEFILE_DONE);
  HOLDS(reply.values[0] == 11 && reply.ticket == 1);
  EXPECT(onefile_last_reply_of(&memory, 2, &reply), ONEFILE_ABSENT);
  EXPECT(onefile_last_reply_of(&memory, CALLERS, &reply), ONEFILE_RANGE);
  EXPECT(text(&memory, 0, "load 0"), ONEFILE_DONE);
  HOLDS(reply.values[0] == 11);
  onefile_memory third = ONEFILE_NONE;
  EXPECT(reopen(&third), ONEFILE_FILE_IN_USE);
  EXPECT(onefile_open_file(&third, path, CALLERS, BLOCKS, LIMIT), ONEFILE_FILE_EXISTS);
  EXPECT(onefile_share_file(&third, path, CALLERS - 1, BLOCKS, LIMIT), ONEFILE_OTHER_SIZES);
  EXPECT(onefile_share_file(&third, path, CALLERS + 2, BLOCKS, LIMIT), ONEFILE_OTHER_SIZES);
  EXPECT(onefile_share_file(&third, path, CALLERS, BLOCKS + 1, LIMIT), ONEFILE_OTHER_SIZES);
  EXPECT(share_with(&third, 7), ONEFILE_DONE); /* the limit is that of the life */
  EXPECT(onefile_free(&third), ONEFILE_DONE);
  EXPECT(onefile_free(&third), ONEFILE_EMPTY);
}

/* A number is for one memory at a time. Numbers that nobody has had are the first of any. */
static void numbers(void) {
  EXPECT(onefile_enrol(&other, 0), ONEFILE_TAKEN);
  EXPECT(onefile_enrol(&memory, 0), ONEFILE_TAKEN);
  for (uint32_t i = CALLERS; i <= CALLERS + ONEFILE_SPARE_CALLERS; i++) {
    EXPECT(onefile_enrol(&memory, i), ONEFILE_RANGE);
    EXPECT(text(&memory, i, "load 0"), ONEFILE_EMPTY);
    EXPECT(onefile_leave(&memory, i), ONEFILE_EMPTY);
  }
  EXPECT(onefile_leave(&memory, 0), ONEFILE_DONE);
  EXPECT(onefile_leave(&memory, 0), ONEFILE_EMPTY);
  EXPECT(onefile_enrol(&other, 0), ONEFILE_DONE);
  EXPECT(onefile_enrol(&memory, 0), ONEFILE_TAKEN);
  EXPECT(text(&other, 0, "load 0; put 2 1; del 2"), ONEFILE_DONE);
  HOLDS(reply.values[0] == 11);
  EXPECT(onefile_leave(&other, 0), ONEFILE_DONE);
  EXPECT(onefile_enrol(&memory, 0), ONEFILE_DONE);
  EXPECT(text(&memory, 0, "add 0 1"), ONEFILE_DONE);
  EXPECT(onefile_leave(&memory, 0), ONEFILE_DONE);
  EXPECT(onefile_enrol_any(&memory, &value), ONEFILE_DONE);
  HOLDS(value == 2);
  EXPECT(onefile_enrol_any(&memory, &value), ONEFILE_DONE);
  HOLDS(value == 3);
  EXPECT(onefile_enrol_any(&other, &value), ONEFILE_DONE);
  HOLDS(value == 0);
  EXPECT(onefile_enrol_any(&other, &value), ONEFILE_TAKEN);
  EXPECT(onefile_enrol_any(&memory, &value), ONEFILE_TAKEN);
  HOLDS(value == 0);
}

/* A close lets the file go, and the last one marks it. */
static void closes(void) {
  EXPECT(onefile_close(&memory, &saved), ONEFILE_IN_USE);
  EXPECT(onefile_leave(&memory, 3), ONEFILE_DONE);
  EXPECT(onefile_close(&memory, NULL), ONEFILE_IN_USE);
  EXPECT(onefile_leave(&memory, 2), ONEFILE_DONE);
  EXPECT(onefile_close(&memory, &saved), ONEFILE_DONE);
  EXPECT(onefile_register(&saved, 0, &value), ONEFILE_EMPTY);
  EXPECT(onefile_enrol(&memory, 0), ONEFILE_EMPTY);
  HOLDS(!is_closed());
  EXPECT(reopen(&memory), ONEFILE_FILE_IN_USE);
  EXPECT(text(&other, 1, "add 0 1"), ONEFILE_DONE);
  EXPECT(share(&memory), ONEFILE_DONE); /* the same life */
  EXPECT(onefile_enrol(&memory, 1), ONEFILE_TAKEN);
  EXPECT(onefile_enrol_any(&memory, &value), ONEFILE_DONE);
  HOLDS(value == 2);
  EXPECT(onefile_leave(&memory, 2), ONEFILE_DONE);
  EXPECT(close_shared(&memory), ONEFILE_DONE);
  EXPECT(onefile_free(&other), ONEFILE_DONE); /* with two callers that have not left */
  HOLDS(is_closed());
}

/* ---- Lives. */

/* All numbers are free in the next life, which has all sequences. */
static void lives(void) {
  EXPECT(onefile_share_file(&memory, path, CALLERS, BLOCKS + 1, LIMIT), ONEFILE_OTHER_SIZES);
  EXPECT(share_with(&memory, 2), ONEFILE_DONE);
  EXPECT(share(&other), ONEFILE_DONE);
  EXPECT(onefile_enrol(&memory, 1), ONEFILE_DONE);
  EXPECT(onefile_enrol(&other, 0), ONEFILE_DONE);
  EXPECT(text(&memory, 1, "add 0 1"), ONEFILE_DONE);
  HOLDS(reply.seq == 1 && reply.values[0] == 14);
  EXPECT(text(&other, 0, "add 0 1"), ONEFILE_DONE);
  EXPECT(text(&memory, 1, "add 0 1"), ONEFILE_SPENT); /* all are told */
  EXPECT(text(&other, 0, "add 0 1"), ONEFILE_SPENT);
  EXPECT(onefile_free(&memory), ONEFILE_DONE);
  EXPECT(share(&memory), ONEFILE_DONE); /* the life has not ended */
  EXPECT(onefile_enrol(&memory, 1), ONEFILE_SPENT);
  EXPECT(onefile_enrol(&memory, 2), ONEFILE_DONE);
  EXPECT(text(&memory, 2, "add 0 1"), ONEFILE_SPENT);
  EXPECT(onefile_free(&memory), ONEFILE_DONE);
  EXPECT(onefile_free(&other), ONEFILE_DONE);
  EXPECT(share(&memory), ONEFILE_DONE);
  EXPECT(onefile_enrol(&memory, 2), ONEFILE_DONE);
  EXPECT(text(&memory, 2, "add 0 1"), ONEFILE_DONE);
  HOLDS(reply.seq == 1 && reply.values[0] == 16);
  EXPECT(onefile_free(&memory), ONEFILE_DONE);
}

/* As many numbers as were asked for are to be had, and no spare one. */
static void has_numbers(onefile_memory *one) {
  for (uint32_t i = 0; i < CALLERS; i++) {
    EXPECT(onefile_enrol_any(one, &value), ONEFILE_DONE);
    HOLDS(value == i);
  }
  EXPECT(onefile_enrol_any(one, &value), ONEFILE_TAKEN);
  EXPECT(onefile_enrol(one, CALLERS), ONEFILE_RANGE);
  EXPECT(onefile_enrol(one, CALLERS + ONEFILE_SPARE_CALLERS - 1), ONEFILE_RANGE);
  for (uint32_t i = 0; i < CALLERS; i++) EXPECT(onefile_leave(one, i), ONEFILE_DONE);
}

/* A file at rest goes from many to one and back, with all that it has. */
static void kinds(void) {
  EXPECT(onefile_reopen_file(&memory, path, LIMIT, &saved), ONEFILE_DONE);
  EXPECT(onefile_last_reply(&saved, 2, &reply), ONEFILE_DONE);
  HOLDS(reply.values[0] == 16);
  EXPECT(onefile_ticket(&saved, CALLERS + ONEFILE_SPARE_CALLERS - 1, &value), ONEFILE_DONE);
  EXPECT(onefile_ticket(&saved, CALLERS + ONEFILE_SPARE_CALLERS, &value), ONEFILE_RANGE);
  EXPECT(onefile_free_saved(&saved), ONEFILE_DONE);
  has_numbers(&memory);
  EXPECT(onefile_renumber(&memory, &saved), ONEFILE_DONE);
  EXPECT(onefile_free_saved(&saved), ONEFILE_DONE);
  has_numbers(&memory);
  EXPECT(share(&other), ONEFILE_FILE_IN_USE);
  EXPECT(onefile_close(&memory, NULL), ONEFILE_NULL);
  EXPECT(onefile_free(&memory), ONEFILE_DONE);
  EXPECT(share(&other), ONEFILE_DONE);
  has_numbers(&other);
  EXPECT(onefile_enrol_any(&other, &value), ONEFILE_DONE);
  EXPECT(text(&other, value, "load 0; get 1"), ONEFILE_DONE);
  HOLDS(reply.values[0] == 16 && reply.values[1] == 2);
  EXPECT(onefile_free(&other), ONEFILE_DONE);
  EXPECT(onefile_open(&memory, 2, 0, LIMIT), ONEFILE_DONE); /* one that is in no file */
  EXPECT(onefile_enrol(&memory, 0), ONEFILE_DONE);
  EXPECT(onefile_enrol_any(&memory, &value), ONEFILE_DONE);
  HOLDS(value == 1);
  EXPECT(onefile_enrol_any(&memory, &value), ONEFILE_TAKEN);
  EXPECT(onefile_free(&memory), ONEFILE_DONE);
}

/* A file that one process has made has no spare callers. It is shared with all that it has. */
static void made_by_one(void) {
  char first[240];
  snprintf(first, sizeof first, "%s/first", folder);
  EXPECT(onefile_open_file(&memory, first, CALLERS, BLOCKS, LIMIT), ONEFILE_DONE);
  has_numbers(&memory);
  EXPECT(onefile_free(&memory), ONEFILE_DONE);
  EXPECT(onefile_share_file(&memory, first, CALLERS - 2, BLOCKS, LIMIT), ONEFILE_OTHER_SIZES);
  for (int life = 0; life < 2; life++) {
    EXPECT(onefile_share_file(&memory, first, CALLERS, BLOCKS, LIMIT), ONEFILE_DONE);
    EXPECT(onefile_share_file(&other, first, CALLERS - 2, BLOCKS, LIMIT), ONEFILE_OTHER_SIZES);
    has_numbers(&memory);
    EXPECT(onefile_free(&memory), ONEFILE_DONE);
  }
  EXPECT(onefile_reopen_file(&memory, first, LIMIT, &saved), ONEFILE_DONE);
  EXPECT(onefile_ticket(&saved, CALLERS, &value), ONEFILE_RANGE);
  EXPECT(onefile_free_saved(&saved), ONEFILE_DONE);
  has_numbers(&memory);
  EXPECT(onefile_free(&memory), ONEFILE_DONE);
  HOLDS(unlink(first) == 0);
  EXPECT(onefile_last_reply_of(&memory, 0, &reply), ONEFILE_EMPTY);
  EXPECT(onefile_open_file(&memory, first, MOST_SHARED + 1, 0, LIMIT), ONEFILE_DONE);
  EXPECT(onefile_enrol(&memory, MOST_SHARED), ONEFILE_DONE);
  EXPECT(onefile_free(&memory), ONEFILE_DONE);
  EXPECT(onefile_share_file(&memory, first, MOST_SHARED + 1, 0, LIMIT), ONEFILE_RANGE);
  EXPECT(onefile_share_file(&memory, first, MOST_SHARED, 0, LIMIT), ONEFILE_OTHER_SIZES);
  HOLDS(unlink(first) == 0);
}

/* As many callers as there may be: a number above 31 is kept as any other. */
static void many(void) {
  char all[240];
  snprintf(all, sizeof all, "%s/all", folder);
  EXPECT(onefile_share_file(&memory, all, MOST_SHARED, 0, LIMIT), ONEFILE_DONE);
  EXPECT(onefile_share_file(&other, all, MOST_SHARED, 0, LIMIT), ONEFILE_DONE);
  EXPECT(onefile_enrol(&memory, 32), ONEFILE_DONE);
  EXPECT(onefile_enrol(&other, 32), ONEFILE_TAKEN);
  EXPECT(onefile_enrol_any(&other, &value), ONEFILE_DONE); /* no number shares a bit */
  HOLDS(value == 0);
  EXPECT(onefile_enrol(&other, MOST_SHARED - 1), ONEFILE_DONE);
  EXPECT(onefile_enrol(&memory, MOST_SHARED - 1), ONEFILE_TAKEN);
  EXPECT(onefile_enrol(&memory, MOST_SHARED), ONEFILE_RANGE);
  EXPECT(onefile_enrol(&memory, ONEFILE_MOST_CALLERS - 1), ONEFILE_RANGE);
  EXPECT(text(&memory, 32, "add 0 1"), ONEFILE_DONE);
  EXPECT(text(&other, MOST_SHARED - 1, "add 0 2"), ONEFILE_DONE);
  HOLDS(reply.values[0] == 3);
  EXPECT(onefile_free(&memory), ONEFILE_DONE);
  EXPECT(onefile_free(&other), ONEFILE_DONE);
  HOLDS(unlink(all) == 0);
}

/* A process that may have no file of this size is told so. */
static void limited(void) {
  struct rlimit before, small;
  HOLDS(getrlimit(RLIMIT_FSIZE, &before) == 0);
  small = (struct rlimit){.rlim_cur = 4096, .rlim_max = before.rlim_max};
  HOLDS(setrlimit(RLIMIT_FSIZE, &small) == 0);
  int answer = share(&other);
  HOLDS(setrlimit(RLIMIT_FSIZE, &before) == 0);
  EXPECT(answer, ONEFILE_NO_SPACE);
  HOLDS(!is_there(beside));
}

/* ---- Spoilt files, and other versions. */

static uint64_t sum_of(const unsigned char *bytes) {
  uint64_t sum = 14695981039346656037u;
  for (size_t i = 0; i < SUM_AT; i++) sum = (sum ^ bytes[i]) * 1099511628211u;
  return sum;
}

/* A byte of the file is another one, while a process has it or while none has it. */
static void spoils(size_t at, int wanted) {
  unsigned char byte = whole[at] ^ (unsigned char)(1 << at % 8);
  write_at(at, &byte, 1);
  EXPECT(share(&other), wanted);
  if (wanted == ONEFILE_DONE) EXPECT(onefile_free(&other), ONEFILE_DONE);
  write_at(at, whole + at, 1);
}

static void spoilt(void) {
  EXPECT(share(&memory), ONEFILE_DONE);
  size_t size = read_file(whole), durable = 8 * number_in(whole, 40);
  size_t start = (PAGE + 8 * number_in(whole, 24) + PAGE - 1) / PAGE * PAGE;
  HOLDS(start + durable <= size);
  for (size_t at = 0; at < CLOSED_AT; at++) spoils(at, ONEFILE_BAD_FILE);
  for (size_t at = LIMIT_AT; at < LIMIT_AT + 24; at++) spoils(at, ONEFILE_BAD_FILE);
  for (size_t at = start; at < start + durable; at += 97) spoils(at, ONEFILE_BAD_FILE);
  for (size_t at = start + durable; at < size; at += 997) spoils(at, ONEFILE_DONE);
  EXPECT(onefile_free(&memory), ONEFILE_DONE);
  read_file(whole);
  HOLDS(number_in(whole, CLOSED_AT) != 0);
  for (size_t at = 0; at < SUM_AT + 8; at++) spoils(at, ONEFILE_BAD_FILE);
  HOLDS(!is_there(beside));
}

/* A header with another byte and with its sum. */
static void change_header(size_t at, unsigned char byte) {
  memcpy(changed, whole, PAGE);
  changed[at] = byte;
  uint64_t sum = sum_of(changed);
  memcpy(changed + SUM_AT, &sum, sizeof sum);
  write_at(0, changed, CLOSED_AT);
}

/* The header of another version, with other spare callers, and of another run of the machine. */
static void versions(void) {
  static const unsigned char versions[] = {2, 3, 5};
  uint64_t open = 0;
  read_file(whole);
  for (size_t i = 0; i < sizeof versions; i++) {
    change_header(VERSION_AT, versions[i]);
    EXPECT(share(&memory), ONEFILE_OTHER_VERSION);
    EXPECT(reopen(&memory), ONEFILE_OTHER_VERSION);
  }
  for (unsigned char spare = 1; spare <= 7; spare += 2) {
    change_header(SPARE_AT, spare);
    EXPECT(share(&memory), ONEFILE_BAD_FILE);
    EXPECT(reopen(&memory), ONEFILE_BAD_FILE);
  }
  change_header(BOOT_AT, whole[BOOT_AT] ^ 1);
  write_at(CLOSED_AT, &open, sizeof open);
  EXPECT(share(&memory), ONEFILE_TORN);
  EXPECT(share(&memory), ONEFILE_TORN);
  EXPECT(reopen(&memory), ONEFILE_TORN);
  write_at(0, whole, PAGE);
}

/* Words of another start, with the header of this one. */
static void starts(void) {
  EXPECT(share(&memory), ONEFILE_DONE);
  EXPECT(onefile_enrol(&memory, 0), ONEFILE_DONE);
  read_file(whole);
  EXPECT(text(&memory, 0, "add 7 1"), ONEFILE_DONE);
  size_t durable = 8 * number_in(whole, 40), first = PAGE + 8 * number_in(whole, 32);
  size_t start = (PAGE + 8 * number_in(whole, 24) + PAGE - 1) / PAGE * PAGE;
  read_file(changed);
  write_at(start, changed + first, durable);
  EXPECT(share(&other), ONEFILE_BAD_FILE);
  write_at(start, whole + start, durable);
  EXPECT(share(&other), ONEFILE_DONE);
  EXPECT(onefile_free(&other), ONEFILE_DONE);
  EXPECT(onefile_free(&memory), ONEFILE_DONE);
}

/* ---- Processes that stop or are killed in the middle of a call. */

/* A caller is left in the middle of its call, after so many steps. The others go on at once, and
 * the call takes effect once or not at all. */
static void abandoned(uint64_t steps) {
  static const char script[] = "add 1 1; push 0 7; pop 0", own[] = "add 2 1; load 1";
  EXPECT(share(&memory), ONEFILE_DONE);
  EXPECT(share(&other), ONEFILE_DONE);
  EXPECT(onefile_enrol(&memory, 0), ONEFILE_DONE);
  EXPECT(onefile_enrol(&other, 1), ONEFILE_DONE);
  EXPECT(text(&other, 1, "load 1; load 2"), ONEFILE_DONE);
  uint32_t left = reply.values[0], mine = reply.values[1];
  int answer = onefile_call_text_within(&memory, 0, script, sizeof script - 1, steps, &reply);
  HOLDS(answer == ONEFILE_STOPPED || answer == ONEFILE_DONE);
  EXPECT(onefile_free(&memory), ONEFILE_DONE);
  for (uint32_t i = 1; i <= 5; i++) {
    EXPECT(text(&other, 1, own), ONEFILE_DONE);
    HOLDS(reply.values[0] == mine + i);
    HOLDS(reply.values[1] == left || reply.values[1] == left + 1);
    HOLDS(answer == ONEFILE_STOPPED || reply.values[1] == left + 1);
    if (reply.values[1] != left) answer = ONEFILE_DONE;
  }
  EXPECT(text(&other, 1, "len 0"), ONEFILE_DONE);
  HOLDS(reply.values[0] == 0);
  EXPECT(onefile_free(&other), ONEFILE_DONE);
}

/* What a child does: it says so through a pipe. */
static pid_t child_that(int (*task)(void), int *in) {
  int ends[2];
  HOLDS(pipe2(ends, O_CLOEXEC) == 0);
  pid_t child = fork();
  if (child == 0) {
    char byte = task() == ONEFILE_DONE ? 'y' : 'n';
    if (write(ends[1], &byte, 1) == 1) pause();
    _exit(1);
  }
  close(ends[1]);
  *in = ends[0];
  return child;
}

static int says_yes(int in) {
  char byte = 0;
  return read(in, &byte, 1) == 1 && byte == 'y';
}

static int enrols_and_adds(void) {
  int answer = share(&memory);
  if (answer == ONEFILE_DONE) answer = onefile_enrol(&memory, 2);
  return answer == ONEFILE_DONE ? text(&memory, 2, "add 4 1") : answer;
}

/* The number of a process that was killed is free, while others have the file. */
static void killed(void) {
  int in;
  pid_t child = child_that(enrols_and_adds, &in);
  HOLDS(says_yes(in));
  EXPECT(share(&other), ONEFILE_DONE);
  EXPECT(onefile_enrol(&other, 2), ONEFILE_TAKEN);
  HOLDS(kill(child, SIGKILL) == 0 && waitpid(child, NULL, 0) == child);
  EXPECT(onefile_last_reply_of(&other, 2, &reply), ONEFILE_DONE);
  HOLDS(reply.values[0] == 1);
  EXPECT(onefile_enrol(&other, 2), ONEFILE_DONE);
  EXPECT(text(&other, 2, "add 4 1"), ONEFILE_DONE);
  HOLDS(reply.values[0] == 2);
  EXPECT(onefile_free(&other), ONEFILE_DONE);
  EXPECT(share(&other), ONEFILE_DONE);
  EXPECT(onefile_enrol(&other, 2), ONEFILE_DONE);
  EXPECT(text(&other, 2, "load 4"), ONEFILE_DONE);
  HOLDS(reply.values[0] == 2);
  EXPECT(onefile_free(&other), ONEFILE_DONE);
  close(in);
}

/* Stops itself in the middle of a call, and goes on when it is told to. */
static int stops_midway(void) {
  static const char script[] = "add 5 1; put 3 9; del 3";
  int answer = share(&memory);
  if (answer == ONEFILE_DONE) answer = onefile_enrol(&memory, 0);
  if (answer != ONEFILE_DONE) return answer;
  answer = onefile_call_text_within(&memory, 0, script, sizeof script - 1, 30, &reply);
  if (answer != ONEFILE_STOPPED) return -1;
  raise(SIGSTOP);
  answer = onefile_go_on(&memory, 0, ONEFILE_NO_END, &reply);
  if (answer != ONEFILE_DONE || reply.values[0] != 1) return -1;
  return onefile_leave(&memory, 0) == ONEFILE_DONE ? close_shared(&memory) : -1;
}

static void stopped(void) {
  int in, status = 0;
  pid_t child = child_that(stops_midway, &in);
  HOLDS(waitpid(child, &status, WUNTRACED) == child && WIFSTOPPED(status));
  EXPECT(share(&other), ONEFILE_DONE);
  EXPECT(onefile_enrol(&other, 0), ONEFILE_TAKEN);
  EXPECT(onefile_enrol(&other, 1), ONEFILE_DONE);
  for (uint32_t i = 1; i <= 1000; i++) {
    EXPECT(text(&other, 1, "add 6 1; load 5"), ONEFILE_DONE);
    HOLDS(reply.values[0] == i && reply.values[1] <= 1);
  }
  HOLDS(reply.values[1] == 1); /* the others have made its call */
  HOLDS(kill(child, SIGCONT) == 0 && says_yes(in));
  HOLDS(kill(child, SIGKILL) == 0 && waitpid(child, &status, 0) == child);
  EXPECT(text(&other, 1, "load 5; count"), ONEFILE_DONE);
  HOLDS(reply.values[0] == 1 && reply.values[1] == 1);
  EXPECT(onefile_free(&other), ONEFILE_DONE);
  close(in);
}

/* ---- Forked children. */

static int is_mapped(void) {
  char line[512];
  int found = 0;
  FILE *maps = fopen("/proc/self/maps", "r");
  while (maps && fgets(line, sizeof line, maps)) found |= strstr(line, path) != NULL;
  if (maps) fclose(maps);
  return found;
}

/* A child has nothing of the memory. It may let it go, and share the file on its own. */
static int shares_in_child(void) {
  if (is_mapped()) return 1;
  if (onefile_enrol(&memory, 1) != ONEFILE_FILE_IN_USE) return 2;
  if (onefile_enrol_any(&memory, &value) != ONEFILE_FILE_IN_USE) return 3;
  if (onefile_close(&memory, NULL) != ONEFILE_FILE_IN_USE) return 4;
  if (onefile_last_reply_of(&memory, 0, &reply) != ONEFILE_FILE_IN_USE) return 10;
  if (onefile_free(&memory) != ONEFILE_DONE) return 5;
  if (share(&memory) != ONEFILE_DONE || !is_mapped()) return 6;
  if (onefile_enrol(&memory, 0) != ONEFILE_TAKEN) return 7;
  if (onefile_enrol(&memory, 1) != ONEFILE_DONE) return 8;
  if (text(&memory, 1, "add 8 1") != ONEFILE_DONE) return 9;
  return onefile_free(&memory);
}

static void forked(void) {
  int status = 0;
  EXPECT(share(&memory), ONEFILE_DONE);
  EXPECT(onefile_enrol(&memory, 0), ONEFILE_DONE);
  HOLDS(is_mapped());
  pid_t sleeper = (pid_t)syscall(SYS_fork); /* no handler runs: it has the descriptor */
  if (sleeper == 0) {
    pause();
    _exit(1);
  }
  pid_t child = fork();
  if (child == 0) _exit(shares_in_child());
  HOLDS(waitpid(child, &status, 0) == child && WIFEXITED(status));
  EXPECT(WEXITSTATUS(status), 0);
  EXPECT(reopen(&other), ONEFILE_FILE_IN_USE);
  EXPECT(text(&memory, 0, "add 8 1"), ONEFILE_DONE);
  HOLDS(reply.values[0] == 2);
  EXPECT(onefile_free(&memory), ONEFILE_DONE);
  EXPECT(share(&memory), ONEFILE_DONE); /* while the sleeper is there: a new life */
  EXPECT(onefile_enrol(&memory, 1), ONEFILE_DONE);
  EXPECT(onefile_free(&memory), ONEFILE_DONE);
  HOLDS(kill(sleeper, SIGKILL) == 0 && waitpid(sleeper, NULL, 0) == sleeper);
}

/* ---- Cancelled threads, and races. */

static int shares(void) { return share(&other); }
static int lets_go(void) { return close_shared(&other); }

static int (*task)(void);
static int answer_of_task;

static void *cancelled_task(void *unused) {
  pthread_cancel(pthread_self());
  answer_of_task = task();
  pthread_testcancel();
  return unused;
}

/* A thread that is cancelled ends after the call, and leaves nothing taken. Gives whether it may
 * go on: if not, the next call with a file would have no end. */
static int cancelled(void) {
  static int (*const tasks[])(void) = {shares, lets_go, shares, lets_go};
  for (size_t i = 0; i < sizeof tasks / sizeof *tasks; i++) {
    pthread_t thread;
    void *end = NULL;
    task = tasks[i];
    answer_of_task = -1;
    pthread_create(&thread, NULL, cancelled_task, NULL);
    pthread_join(thread, &end);
    HOLDS(end == PTHREAD_CANCELED);
    EXPECT(answer_of_task, ONEFILE_DONE);
    if (answer_of_task < 0) return 0;
  }
  return 1;
}

/* Has the file often, and adds 1 each time that it gets a number. Gives how often, or a number below
 * 0. It is told seldom that it has waited for too long. */
static int race(void) {
  onefile_memory own = ONEFILE_NONE;
  onefile_reply answers;
  uint32_t number = 0;
  int won = 0, waits = 0;
  for (int i = 0; i < TURNS; i++) {
    int answer = share(&own);
    if (answer == ONEFILE_FILE_IN_USE && waits++ < TURNS / 10) continue;
    if (answer != ONEFILE_DONE) return -1;
    answer = onefile_enrol_any(&own, &number);
    if (answer == ONEFILE_DONE) {
      won++;
      if (onefile_call_text(&own, number, "add 3 1", 7, &answers)) return -2;
    } else if (answer != ONEFILE_TAKEN) {
      return -3;
    }
    if (onefile_free(&own)) return -4;
  }
  return won;
}

static void *race_in_thread(void *won) {
  *(int *)won = race();
  return NULL;
}

static int race_in_threads(void) {
  pthread_t threads[RACERS];
  int won[RACERS], all = 0;
  for (int i = 0; i < RACERS; i++) pthread_create(&threads[i], NULL, race_in_thread, &won[i]);
  for (int i = 0; i < RACERS; i++) {
    pthread_join(threads[i], NULL);
    HOLDS(won[i] >= 0);
    all += won[i];
  }
  return all;
}

static int race_in_processes(void) {
  int ends[2], all = 0, one = 0;
  HOLDS(pipe2(ends, O_CLOEXEC) == 0);
  for (int i = 0; i < RACERS; i++) {
    if (fork() != 0) continue;
    one = race();
    _exit(write(ends[1], &one, sizeof one) != sizeof one);
  }
  for (int i = 0; i < RACERS; i++) {
    HOLDS(read(ends[0], &one, sizeof one) == sizeof one && one >= 0);
    all += one;
  }
  while (wait(NULL) > 0) continue;
  close(ends[0]);
  close(ends[1]);
  return all;
}

static void races(void) {
  HOLDS(unlink(path) == 0);
  int won = race_in_processes();
  won += race_in_threads();
  EXPECT(onefile_reopen_file(&memory, path, LIMIT, &saved), ONEFILE_DONE);
  EXPECT(onefile_register(&saved, 3, &value), ONEFILE_DONE);
  HOLDS(won > 0 && value == (uint32_t)won);
  EXPECT(onefile_free_saved(&saved), ONEFILE_DONE);
  EXPECT(onefile_free(&memory), ONEFILE_DONE);
}

int main(int argc, char **argv) {
  snprintf(folder, sizeof folder, "%s/onefile-shares.XXXXXX", argc > 1 ? argv[1] : "/tmp");
  HOLDS(mkdtemp(folder) != NULL);
  snprintf(path, sizeof path, "%s/memory", folder);
  snprintf(beside, sizeof beside, "%s.new", path);
  arguments();
  two();
  numbers();
  closes();
  lives();
  kinds();
  made_by_one();
  many();
  limited();
  spoilt();
  versions();
  starts();
  for (uint64_t steps = 1; steps <= STEPS; steps++) abandoned(steps);
  killed();
  stopped();
  forked();
  if (cancelled()) {
    races();
    HOLDS(unlink(path) == 0 && rmdir(folder) == 0);
  }
  printf("%d answers, %d wrong\n", tried, wrong);
  return wrong != 0;
}
