/* deaths.c: processes share a bank, and are killed or stopped at random moments while the others
 * go on: deaths [FOLDER [COUNT]], which is how many are killed. Two to eight are there at once,
 * each with a number of its own. After each death the others must make calls, and a new process
 * takes over that number or another one. At last all are killed at once or leave. Then all the
 * money must be there, each answered call once, and of each caller that was killed at most the open
 * one besides. */
#define BANK_CALLERS 8
#include "books.h"

#include <signal.h>
#include <stdatomic.h>
#include <sys/mman.h>
#include <sys/prctl.h>
#include <sys/wait.h>
#include <time.h>

/* The next death comes after so many microseconds at most; the others have so many milliseconds to
 * make a call. */
enum { LONGEST = 12000, SHORT = 800, PATIENCE = 30000, DEATHS = 8 };

/* What all processes see: how many calls of each caller were answered, and whether to leave. */
typedef struct board {
  _Atomic uint32_t answered[CALLERS];
  _Atomic int is_over;
} board;

typedef struct figures {
  unsigned long killed, stopped, lives, calls, untold;
} figures;

static board *seen;
static pid_t process[CALLERS]; /* 0 if there is none with this number */

/* ---- A process, which is killed or told to leave. */

/* Enrols a caller, and ends the open call of the one that had the number before. Gives how many of
 * the number's calls are done. */
static uint32_t take_over(uint32_t number) {
  const uint64_t count[] = {onefile_load(ACCOUNTS + number)};
  uint32_t answered = atomic_load(&seen->answered[number]);
  onefile_reply reply;
  int answer;
  do answer = onefile_enrol(&bank, number);
  while (answer == ONEFILE_NOT_YET); /* two have died in commits of spare callers, or make some */
  MUST(answer == ONEFILE_DONE);
  answer = onefile_call(&bank, number, count, 1, &reply);
  if (answer == ONEFILE_CALL_OPEN) {
    MUST(onefile_go_on(&bank, number, ONEFILE_NO_END, &reply) == ONEFILE_DONE);
    if (reply.len == INSTRS) MUST(is_reply_to(&reply, answered + 1));
    answer = onefile_call(&bank, number, count, 1, &reply);
  }
  MUST(answer == ONEFILE_DONE);
  MUST(reply.values[0] == answered || reply.values[0] == answered + 1);
  atomic_store(&seen->answered[number], reply.values[0]);
  return reply.values[0];
}

static void live(uint32_t number) {
  uint64_t script[INSTRS];
  onefile_reply reply;
  int answer;
  prctl(PR_SET_PDEATHSIG, SIGKILL);
  do answer = onefile_share_file(&bank, path, CALLERS, BLOCKS, ONEFILE_GREATEST_LIMIT);
  while (answer == ONEFILE_FILE_IN_USE); /* the machine is busy */
  MUST(answer == ONEFILE_DONE);
  for (uint32_t call = take_over(number) + 1; !atomic_load(&seen->is_over); call++) {
    write_script(number, call, script);
    MUST(onefile_call(&bank, number, script, INSTRS, &reply) == ONEFILE_DONE);
    MUST(is_reply_to(&reply, call));
    atomic_store(&seen->answered[number], call);
  }
  MUST(onefile_leave(&bank, number) == ONEFILE_DONE);
  MUST(onefile_close(&bank, NULL) == ONEFILE_DONE);
  _exit(0);
}

static void start(uint32_t number) {
  process[number] = fork();
  MUST(process[number] >= 0);
  if (process[number] == 0) live(number);
}

/* ---- Deaths. */

static void pause_for(long most) {
  struct timespec wait = {0, random() % most * 1000};
  nanosleep(&wait, NULL);
}

/* Each process that is there, but for one, makes a call. */
static void others_go_on(uint32_t but) {
  for (uint32_t i = 0; i < CALLERS; i++) {
    if (process[i] == 0 || i == but) continue;
    uint32_t before = atomic_load(&seen->answered[i]);
    struct timespec a_moment = {0, 100000};
    int tries = 0;
    while (atomic_load(&seen->answered[i]) <= before + 1) {
      MUST(tries++ < 10 * PATIENCE && waitpid(process[i], NULL, WNOHANG) == 0);
      nanosleep(&a_moment, NULL);
    }
  }
}

static void end_one(uint32_t number, int must_be_killed) {
  int status = 0;
  MUST(waitpid(process[number], &status, 0) == process[number]);
  if (must_be_killed) MUST(WIFSIGNALED(status) && WTERMSIG(status) == SIGKILL);
  else MUST(WIFEXITED(status) && WEXITSTATUS(status) == 0);
  process[number] = 0;
}

/* A number that a process has, or one that none has. */
static uint32_t one_that(int is_there) {
  uint32_t number;
  do number = (uint32_t)random() % CALLERS;
  while ((process[number] != 0) != is_there);
  return number;
}

/* One is killed, or stopped first, and the others go on meanwhile. None is stopped that has made no
 * call yet: while it begins the life, no other has the file. */
static void kill_one(const books *known, figures *of) {
  uint32_t number = one_that(1);
  int has_begun = atomic_load(&seen->answered[number]) > known->calls[number];
  if (has_begun && random() % 4 == 0) {
    int status = 0;
    MUST(kill(process[number], SIGSTOP) == 0);
    MUST(waitpid(process[number], &status, WUNTRACED) == process[number] && WIFSTOPPED(status));
    others_go_on(number);
    of->stopped++;
    if (random() % 2) MUST(kill(process[number], SIGCONT) == 0);
  }
  MUST(kill(process[number], SIGKILL) == 0);
  end_one(number, 1);
  of->killed++;
  others_go_on(CALLERS);
}

/* All that are left end: killed at once, or they leave. */
static void end_all(figures *of) {
  int must_be_killed = random() % 3 > 0;
  if (!must_be_killed) atomic_store(&seen->is_over, 1);
  for (uint32_t i = 0; i < CALLERS; i++) {
    if (process[i] != 0 && must_be_killed) MUST(kill(process[i], SIGKILL) == 0);
  }
  for (uint32_t i = 0; i < CALLERS; i++) {
    if (process[i] == 0) continue;
    end_one(i, must_be_killed);
    of->killed += (unsigned long)must_be_killed;
  }
  atomic_store(&seen->is_over, 0);
}

/* One life of the file, with so many processes at once. */
static void live_and_look(books *known, figures *of, uint32_t at_once) {
  uint32_t answered[CALLERS], next = 0;
  books before = *known;
  for (uint32_t i = 0; i < CALLERS; i++) atomic_store(&seen->answered[i], known->calls[i]);
  while (next < at_once) start(next++);
  for (int i = 0; i < DEATHS; i++) {
    pause_for(random() % 4 ? LONGEST : SHORT);
    kill_one(known, of);
    start(one_that(0));
  }
  pause_for(LONGEST);
  if (random() % 2) kill_one(known, of);
  end_all(of);
  of->lives++;
  for (uint32_t i = 0; i < CALLERS; i++) answered[i] = atomic_load(&seen->answered[i]);
  look(known, answered);
  for (uint32_t i = 0; i < CALLERS; i++) {
    of->calls += known->calls[i] - before.calls[i];
    of->untold += known->calls[i] - answered[i];
  }
}

/* Fills the accounts, in a first life. */
static void begin_bank(void) {
  int answer = onefile_share_file(&bank, path, CALLERS, BLOCKS, ONEFILE_GREATEST_LIMIT);
  MUST(answer == ONEFILE_DONE);
  enter_bank();
  for (uint32_t i = 0; i < CALLERS; i++) MUST(onefile_leave(&bank, i) == ONEFILE_DONE);
  MUST(onefile_close(&bank, NULL) == ONEFILE_DONE);
}

int main(int argc, char **argv) {
  unsigned long count = argc > 2 ? strtoul(argv[2], NULL, 10) : 200;
  books known = new_books();
  figures of = {0, 0, 0, 0, 0};
  int may = PROT_READ | PROT_WRITE;
  seen = mmap(NULL, sizeof *seen, may, MAP_SHARED | MAP_ANONYMOUS, -1, 0);
  MUST(seen != MAP_FAILED);
  snprintf(path, sizeof path, "%s/onefile-deaths.%d", argc > 1 ? argv[1] : "/tmp", (int)getpid());
  begin_bank();
  while (of.killed < count) live_and_look(&known, &of, 2 + (uint32_t)of.lives % 7);
  unlink(path);
  strcat(path, ".new"); /* of one that was killed while it began a life */
  unlink(path);
  printf("at least %lu killed: all the money is there, and each call once\n", count);
  if (argc > 2) {
    printf("%lu killed in %lu lives, %lu stopped; %lu calls, and %lu of them done but not told\n",
           of.killed, of.lives, of.stopped, of.calls, of.untold);
  }
  return 0;
}
