/* kills.c: a bank in a file, whose process is killed again and again: kills [FOLDER [COUNT]]. Its
 * threads transfer money, and tell each answered call through a pipe. After each kill all the money
 * must be there, and every call that was told once: also after rubbish was written over all that a
 * memory in a file doesn't go on from. At the end it prints what it has seen. */
#include "books.h"

#include <poll.h>
#include <pthread.h>
#include <signal.h>
#include <sys/wait.h>
#include <time.h>

/* A life is killed after so many microseconds at most. One of four may only begin. */
enum { LONGEST = 40000, SHORT = 2000, OPEN = 255 };

/* What a life tells: that a call of a caller was answered, or that the memory is OPEN. */
typedef struct told {
  uint32_t caller, call;
} told;

typedef struct figures {
  unsigned long kills, opening, calls, untold;
} figures;

static int out;

/* ---- A life, which is killed. */

static void tell(uint32_t caller, uint32_t call) {
  told one = {caller, call};
  MUST(write(out, &one, sizeof one) == sizeof one);
}

/* Transfers money for ever. */
static void *work(void *done_of) {
  const told *done = done_of;
  uint64_t script[INSTRS];
  onefile_reply reply;
  for (uint32_t call = done->call + 1;; call++) {
    write_script(done->caller, call, script);
    MUST(onefile_call(&bank, done->caller, script, INSTRS, &reply) == ONEFILE_DONE);
    MUST(is_reply_to(&reply, call));
    tell(done->caller, call);
  }
  return NULL;
}

static void live(const books *known) {
  told done[CALLERS];
  pthread_t thread;
  int answer = onefile_reopen_file(&bank, path, ONEFILE_GREATEST_LIMIT, NULL);
  if (answer == ONEFILE_NO_FILE) {
    answer = onefile_open_file(&bank, path, CALLERS, BLOCKS, ONEFILE_GREATEST_LIMIT);
  }
  MUST(answer == ONEFILE_DONE);
  enter_bank();
  tell(OPEN, 0);
  for (uint32_t i = 0; i < CALLERS; i++) {
    done[i] = (told){i, known->calls[i]};
    pthread_create(&thread, NULL, work, &done[i]);
  }
  for (;;) pause();
}

/* ---- The kill. */

static double now(void) {
  struct timespec time;
  clock_gettime(CLOCK_MONOTONIC, &time);
  return (double)time.tv_sec * 1e6 + (double)time.tv_nsec * 1e-3;
}

/* Takes down what was told, in `calls`. Gives whether there may be more. */
static int hear(int in, uint32_t *calls, int *is_open) {
  told heard[512];
  ssize_t size = read(in, heard, sizeof heard); /* whole ones: each is written at once */
  MUST(size >= 0 && size % (ssize_t)sizeof *heard == 0);
  for (size_t i = 0; i < (size_t)size / sizeof *heard; i++) {
    if (heard[i].caller == OPEN) {
      *is_open = 1;
    } else {
      MUST(heard[i].call == calls[heard[i].caller] + 1);
      calls[heard[i].caller]++;
    }
  }
  return size > 0;
}

/* Kills a life after so many microseconds, and takes down what it has told. */
static void kill_one(const books *known, double after, uint32_t *calls, int *is_open) {
  int ends[2], status = 0, is_killed = 0;
  MUST(pipe2(ends, O_CLOEXEC) == 0);
  pid_t child = fork();
  MUST(child >= 0);
  if (child == 0) {
    out = ends[1];
    live(known);
  }
  close(ends[1]);
  for (double end = now() + after;;) {
    double left = end - now();
    if (left <= 0 && !is_killed) is_killed = kill(child, SIGKILL) == 0;
    struct pollfd in = {ends[0], POLLIN, 0};
    struct timespec wait = {0, left > 0 ? (long)(left * 1e3) : 0};
    if (!is_killed && ppoll(&in, 1, &wait, NULL) <= 0) continue;
    if (!hear(ends[0], calls, is_open)) break;
  }
  close(ends[0]);
  MUST(waitpid(child, &status, 0) == child);
  MUST(WIFSIGNALED(status) && WTERMSIG(status) == SIGKILL);
}

/* One life, and what is found after it. */
static void kill_and_look(books *known, figures *seen) {
  uint32_t heard[CALLERS];
  books before = *known;
  int is_open = 0;
  memcpy(heard, known->calls, sizeof heard);
  kill_one(known, (double)(random() % (seen->kills % 4 ? LONGEST : SHORT)), heard, &is_open);
  seen->kills++;
  seen->opening += !is_open;
  if (access(path, F_OK) == 0) look(known, heard);
  else MUST(!is_open && seen->calls == 0);
  for (int i = 0; i < CALLERS; i++) {
    seen->calls += known->calls[i] - before.calls[i];
    seen->untold += known->calls[i] - heard[i];
  }
}

int main(int argc, char **argv) {
  unsigned long count = argc > 2 ? strtoul(argv[2], NULL, 10) : 20;
  books known = new_books();
  figures seen = {0, 0, 0, 0};
  snprintf(path, sizeof path, "%s/onefile-kills.%d", argc > 1 ? argv[1] : "/tmp", (int)getpid());
  while (seen.kills < count) kill_and_look(&known, &seen);
  unlink(path);
  strcat(path, ".new"); /* of one that was killed while it opened the file */
  unlink(path);
  printf("%lu kills: all the money is there, and each call once\n", seen.kills);
  if (argc > 2) {
    printf("%lu while it was opened; %lu calls, and %lu of them were done but not told\n",
           seen.opening, seen.calls, seen.untold);
  }
  return 0;
}
