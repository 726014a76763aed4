/* takeover.c: processes share a file, die in the middle of a call, and others take their numbers
 * over meanwhile: takeover [FOLDER [COUNT]], which is how many are killed. Each call of a number
 * adds 1 to its own register and to a common one, so each answered call must be there once, and of
 * each process that died at most the open one. What is told of its last call that took effect is
 * the same. Each call keeps to the step bound. First a process
 * dies after each number of steps of its call, then many at random moments. A file that was made by
 * a process of its own has no spare callers: some numbers wait for a commit there. */
#define _GNU_SOURCE
#include "onefile.h"

#include <errno.h>
#include <signal.h>
#include <stdatomic.h>
#include <stdio.h>
#include <stdlib.h>
#include <string.h>
#include <sys/mman.h>
#include <sys/prctl.h>
#include <sys/syscall.h>
#include <sys/wait.h>
#include <time.h>
#include <unistd.h>

/* The workers have the numbers below WORKERS: 3 to 13 of them. This process has NEIGHBOUR, and adds
 * to COMMON. */
#ifndef WORKERS
#define WORKERS 4
#endif
enum { NEIGHBOUR = WORKERS, CALLERS, COMMON = 15, BLOCKS = 6, INSTRS = 6 };
enum { ALL = CALLERS + ONEFILE_SPARE_CALLERS };
/* The most steps of a call: `step_bound` of of_cell, with the data cells of such a store. */
enum { CELLS = 18 * ALL + 63 + 3 * BLOCKS, BOUND = 90 + 73 * CELLS + 51 * ALL };
/* Which instruction of a call answers the number's own register. */
enum { OWN = 1 };
/* The next death comes after so many microseconds at most. One call of SELDOM stops midway. */
enum { LONGEST = 3000, SHORT = 300, SELDOM = 40, MOST_STEPS = 300 };
/* A number is free after so many tries at most, in a minute or more. */
enum { PATIENCE = 1000000, A_TRY = 10 };

/* What all processes see. */
typedef struct board {
  _Atomic uint32_t answered[CALLERS]; /* how many calls that add were answered, or found done */
  _Atomic uint32_t begun[CALLERS];    /* of all calls */
  _Atomic uint64_t told[CALLERS];     /* which call was told as the last one, and its ticket */
  _Atomic uint32_t resumed, untold, waits, nudges, asked, unasked;
  _Atomic int grandchild, must_commit;
} board;

static board *seen;
static pid_t process[WORKERS]; /* 0 if there is none with this number */
static onefile_memory memory = ONEFILE_NONE, own = ONEFILE_NONE;
static onefile_reply reply;
static char path[220];

#define MUST(holds) must((holds), __LINE__, #holds)

static void must(int holds, int line, const char *what) {
  if (holds) return;
  printf("line %d: not %s (%s)\n", line, what, strerror(errno));
  fflush(stdout);
  int grandchild = atomic_load(&seen->grandchild);
  if (grandchild != 0) kill(grandchild, SIGKILL);
  _exit(1);
}

static void share(onefile_memory *one) {
  int answer = onefile_share_file(one, path, CALLERS, BLOCKS, ONEFILE_GREATEST_LIMIT);
  MUST(answer == ONEFILE_DONE);
}

/* A child ends at the latest when its parent does. */
static void die_with(pid_t parent) {
  prctl(PR_SET_PDEATHSIG, SIGKILL);
  if (getppid() != parent) _exit(1);
}

static void pause_for(long microseconds) {
  struct timespec wait = {0, microseconds * 1000};
  nanosleep(&wait, NULL);
}

/* ---- Calls. */

/* What a call is answered. If it has ended, it has kept to the bound. */
static int kept(int answer) {
  MUST(answer != ONEFILE_DONE || reply.steps <= BOUND);
  return answer;
}

static int add_within(onefile_memory *one, uint32_t number, uint64_t steps) {
  const uint64_t script[INSTRS] = {onefile_push(0, 7),         onefile_add(number, 1),
                                   onefile_add(COMMON, 1),     onefile_put(number, 9),
                                   onefile_del(number),        onefile_pop(0)};
  return kept(onefile_call_within(one, number, script, INSTRS, steps, &reply));
}

static int read_within(onefile_memory *one, uint32_t number, uint64_t steps) {
  const uint64_t script[] = {onefile_load(COMMON), onefile_load(number)};
  return kept(onefile_call_within(one, number, script, 2, steps, &reply));
}

/* A call that is answered, whose number had so many in its register before. */
static void add(onefile_memory *one, uint32_t number, uint32_t before) {
  atomic_fetch_add(&seen->begun[number], 1);
  MUST(add_within(one, number, ONEFILE_NO_END) == ONEFILE_DONE);
  MUST(reply.cause == 0 && reply.values[OWN] == before + 1);
  atomic_store(&seen->answered[number], before + 1);
}

/* What is told of the number's last call that took effect: how many are in its register then. The
 * ticket rises with that. A call that read may be told too, if it was open at a death. */
static uint32_t told(onefile_memory *one, uint32_t number) {
  onefile_reply last = {0};
  int answer, tries = 0;
  while ((answer = onefile_last_reply_of(one, number, &last)) == ONEFILE_NOT_YET) {
    MUST(tries++ < PATIENCE);
    pause_for(A_TRY);
  }
  if (answer == ONEFILE_ABSENT) return 0;
  MUST(answer == ONEFILE_DONE && last.cause == 0 && (last.len == INSTRS || last.len == 2));
  uint64_t before = atomic_load(&seen->told[number]), now = last.values[OWN];
  now = now << 32 | last.ticket;
  MUST(now == before || (now > before && last.ticket > (uint32_t)before));
  atomic_store(&seen->told[number], now);
  return last.values[OWN];
}

/* A commit of this process, which frees numbers that are not free yet. */
static void commit(void) { add(&memory, NEIGHBOUR, atomic_load(&seen->answered[NEIGHBOUR])); }

/* What is in the number's register, once it has been taken over: the answered calls, and at most
 * the open one of the dead besides. An open call is ended. */
static void look(onefile_memory *one, uint32_t number) {
  uint32_t answered = atomic_load(&seen->answered[number]), last = told(one, number);
  int answer = read_within(one, number, ONEFILE_NO_END), was_open = answer == ONEFILE_CALL_OPEN;
  if (was_open) {
    MUST(last == answered || last == answered + 1); /* others may have ended it meanwhile */
    MUST(kept(onefile_go_on(one, number, ONEFILE_NO_END, &reply)) == ONEFILE_DONE);
    MUST(reply.cause == 0);
    if (reply.len == INSTRS) MUST(reply.values[OWN] == answered + 1);
    last = told(one, number);
    answer = read_within(one, number, ONEFILE_NO_END);
    atomic_fetch_add(&seen->resumed, 1);
  }
  atomic_fetch_add(&seen->begun[number], 1);
  MUST(answer == ONEFILE_DONE && reply.given[1]);
  uint32_t there = reply.values[1];
  MUST(there == last && (there == answered || there == answered + 1));
  if (there != answered && !was_open) atomic_fetch_add(&seen->untold, 1);
  atomic_store(&seen->answered[number], there);
}

/* ---- A process that dies after so many steps of a call. */

/* A child does this, and ends at once with what is answered. */
static int in_child(int (*task)(uint64_t), uint64_t steps) {
  int status = 0;
  fflush(stdout);
  pid_t child = fork();
  MUST(child >= 0);
  if (child == 0) _exit(task(steps));
  MUST(waitpid(child, &status, 0) == child && WIFEXITED(status));
  return WEXITSTATUS(status);
}

/* The number was left before, and makes some calls that only read. One that is refused is none. */
static int dies_adding(uint64_t steps) {
  share(&own);
  MUST(onefile_enrol(&own, 0) == ONEFILE_DONE);
  look(&own, 0);
  add(&own, 0, atomic_load(&seen->answered[0]));
  look(&own, 0);
  atomic_fetch_add(&seen->begun[0], 1);
  int answer = add_within(&own, 0, steps);
  if (answer == ONEFILE_DONE) atomic_fetch_add(&seen->answered[0], 1);
  else MUST(add_within(&own, 0, ONEFILE_NO_END) == ONEFILE_CALL_OPEN);
  onefile_call(&own, 0, NULL, 0, &reply);
  return answer;
}

static int dies_reading(uint64_t steps) {
  share(&own);
  MUST(onefile_enrol(&own, 0) == ONEFILE_DONE);
  look(&own, 0);
  atomic_fetch_add(&seen->begun[0], 1);
  return read_within(&own, 0, steps);
}

/* Dies in the call that is open, if one is. */
static int dies_going_on(uint64_t steps) {
  share(&own);
  int answer = onefile_enrol(&own, 0);
  if (answer == ONEFILE_NOT_YET) return answer;
  MUST(answer == ONEFILE_DONE);
  answer = onefile_go_on(&own, 0, steps, &reply);
  return answer == ONEFILE_NO_CALL ? ONEFILE_DONE : answer;
}

/* This process takes the number over. If there are no spare callers, one commit of another caller
 * frees it, if it is not free. */
static void take_over(int has_spare) {
  int answer = onefile_enrol(&memory, 0);
  if (answer == ONEFILE_NOT_YET && !has_spare) {
    atomic_fetch_add(&seen->waits, 1);
    MUST(add_within(&memory, 0, ONEFILE_NO_END) == ONEFILE_EMPTY);
    MUST(onefile_go_on(&memory, 0, ONEFILE_NO_END, &reply) == ONEFILE_EMPTY);
    MUST(onefile_leave(&memory, 0) == ONEFILE_EMPTY);
    MUST(onefile_enrol(&memory, 0) == ONEFILE_NOT_YET);
    share(&own);
    MUST(onefile_enrol(&own, 0) == ONEFILE_TAKEN); /* this process has it */
    MUST(onefile_close(&own, NULL) == ONEFILE_DONE);
    commit();
    answer = onefile_enrol(&memory, 0);
  }
  MUST(answer == ONEFILE_DONE);
  look(&memory, 0);
  add(&memory, 0, atomic_load(&seen->answered[0]));
  MUST(told(&memory, 0) == atomic_load(&seen->answered[0]));
  MUST((uint32_t)atomic_load(&seen->told[0]) == atomic_load(&seen->begun[0]));
  MUST(onefile_leave(&memory, 0) == ONEFILE_DONE);
}

/* Others may ask what a number's last call answered. If it is half done and its process has died, a
 * spare caller ends it, if there is one. */
static void ask(uint32_t number, int has_spare) {
  onefile_reply last;
  uint32_t before = atomic_load(&seen->answered[number]);
  int answer = onefile_last_reply_of(&memory, number, &last);
  if (answer == ONEFILE_NOT_YET) {
    MUST(!has_spare);
    atomic_fetch_add(&seen->unasked, 1);
  } else if (answer == ONEFILE_DONE) {
    MUST(last.values[OWN] >= before);
    MUST(last.values[OWN] <= atomic_load(&seen->answered[number]) + 1);
    atomic_fetch_add(&seen->asked, 1);
  } else {
    MUST(answer == ONEFILE_ABSENT && before == 0);
  }
}

/* A process dies after so many steps, and another one may die after it. */
static int die_and_take_over(int (*task)(uint64_t), uint64_t steps, int kind, int has_spare) {
  int commits = kind % 2, others = kind / 2 * 2;
  int answer = in_child(task, steps);
  MUST(answer == ONEFILE_STOPPED || answer == ONEFILE_DONE);
  for (int i = 0; i < commits; i++) commit();
  for (int i = 1; i <= others; i++) in_child(dies_going_on, steps * 7 * (uint64_t)i % MOST_STEPS);
  if (steps % 2) ask(0, has_spare);
  take_over(has_spare);
  return answer == ONEFILE_DONE;
}

/* What a memory that goes on from the file has. Of the first number each call has a ticket, also
 * those that only read. */
static void look_at_rest(int is_exact) {
  onefile_saved saved = ONEFILE_NONE;
  onefile_memory last = ONEFILE_NONE;
  uint32_t all = 0, ticket = 0, there = 0, common = 0;
  MUST(onefile_reopen_file(&last, path, ONEFILE_GREATEST_LIMIT, &saved) == ONEFILE_DONE);
  for (uint32_t i = 0; i < CALLERS; i++) {
    uint32_t answered = atomic_load(&seen->answered[i]);
    MUST(onefile_register(&saved, i, &there) == ONEFILE_DONE);
    MUST(there >= answered && there <= answered + (uint32_t)!is_exact);
    MUST(onefile_key(&saved, i, &ticket) == ONEFILE_ABSENT);
    all += there;
  }
  MUST(onefile_register(&saved, COMMON, &common) == ONEFILE_DONE && common == all);
  MUST(onefile_item(&saved, 0, 0, &ticket) == ONEFILE_ABSENT);
  MUST(onefile_ticket(&saved, 0, &ticket) == ONEFILE_DONE);
  if (is_exact) MUST(ticket == atomic_load(&seen->begun[0]));
  for (uint32_t i = CALLERS; onefile_ticket(&saved, i, &ticket) == ONEFILE_DONE; i++) {
    MUST(i < ALL);
    atomic_fetch_add(&seen->nudges, ticket);
  }
  MUST(onefile_free_saved(&saved) == ONEFILE_DONE && onefile_free(&last) == ONEFILE_DONE);
  MUST(unlink(path) == 0);
}

static void begin(int has_spare) {
  memset(seen, 0, sizeof *seen);
  if (!has_spare) {
    int answer = onefile_open_file(&memory, path, CALLERS, BLOCKS, ONEFILE_GREATEST_LIMIT);
    MUST(answer == ONEFILE_DONE && onefile_free(&memory) == ONEFILE_DONE);
  }
  share(&memory);
  MUST(onefile_enrol(&memory, NEIGHBOUR) == ONEFILE_DONE);
  MUST(onefile_enrol(&memory, 0) == ONEFILE_DONE);
  MUST(onefile_leave(&memory, 0) == ONEFILE_DONE);
}

static void end(int is_exact) {
  MUST(onefile_leave(&memory, NEIGHBOUR) == ONEFILE_DONE);
  MUST(onefile_close(&memory, NULL) == ONEFILE_DONE);
  look_at_rest(is_exact);
}

static void each_step(int has_spare) {
  begin(has_spare);
  for (int kind = 0; kind < 4; kind++) {
    int has_ended = 0;
    for (uint64_t steps = 0; !has_ended && steps < MOST_STEPS; steps++) {
      has_ended = die_and_take_over(dies_adding, steps, kind, has_spare);
    }
    MUST(has_ended);
    for (uint64_t steps = 0; steps < 4; steps++) {
      die_and_take_over(dies_reading, steps, kind, has_spare);
    }
  }
  MUST((atomic_load(&seen->waits) > 0) == !has_spare && atomic_load(&seen->resumed) > 0);
  MUST((atomic_load(&seen->unasked) > 0) == !has_spare && atomic_load(&seen->asked) > 0);
  end(1);
  MUST((atomic_load(&seen->nudges) > 0) == has_spare);
}

/* ---- Numbers that are not free yet, and others. */

/* A process dies where its number is not free yet, since there are no spare callers. */
static void die_in_a_log(void) {
  for (uint64_t steps = 0;; steps++) {
    MUST(steps < MOST_STEPS && in_child(dies_adding, steps) == ONEFILE_STOPPED);
    if (onefile_enrol(&memory, 0) == ONEFILE_NOT_YET) return;
    look(&memory, 0);
    MUST(onefile_leave(&memory, 0) == ONEFILE_DONE);
  }
}

/* Those that nobody has had come first. A memory that waits for a number keeps it for itself, but
 * not if it has asked for any. */
static void any_number(void) {
  uint32_t number = 0;
  begin(0);
  die_in_a_log();
  for (uint32_t i = 1; i < WORKERS; i++) {
    MUST(onefile_enrol_any(&memory, &number) == ONEFILE_DONE && number == i);
  }
  MUST(onefile_enrol_any(&memory, &number) == ONEFILE_NOT_YET && number == WORKERS - 1);
  share(&own);
  MUST(onefile_enrol_any(&own, &number) == ONEFILE_NOT_YET);
  MUST(onefile_enrol(&own, 0) == ONEFILE_NOT_YET);
  MUST(onefile_enrol(&memory, 0) == ONEFILE_TAKEN);
  MUST(onefile_enrol_any(&memory, &number) == ONEFILE_TAKEN);
  MUST(onefile_close(&own, NULL) == ONEFILE_DONE); /* a number that is waited for is let go */
  MUST(onefile_enrol(&memory, 0) == ONEFILE_NOT_YET);
  MUST(onefile_leave(&memory, 3) == ONEFILE_DONE);
  share(&own);
  MUST(onefile_enrol_any(&own, &number) == ONEFILE_DONE && number == 3);
  MUST(onefile_free(&own) == ONEFILE_DONE);
  MUST(onefile_enrol(&memory, 3) == ONEFILE_DONE);
  commit();
  MUST(onefile_enrol_any(&memory, &number) == ONEFILE_DONE && number == 0);
  look(&memory, 0);
  share(&own);
  MUST(onefile_enrol_any(&own, &number) == ONEFILE_TAKEN);
  MUST(onefile_leave(&memory, 2) == ONEFILE_DONE);
  MUST(onefile_enrol_any(&own, &number) == ONEFILE_DONE && number == 2);
  MUST(onefile_free(&own) == ONEFILE_DONE);
  for (uint32_t i = 0; i < WORKERS; i++) {
    if (i != 2) MUST(onefile_leave(&memory, i) == ONEFILE_DONE);
  }
  end(0);
}

/* If no number is free, any is one that a spare caller has freed. */
static void any_freed(void) {
  uint32_t number = 0;
  begin(1);
  for (uint32_t i = 1; i < WORKERS; i++) MUST(onefile_enrol(&memory, i) == ONEFILE_DONE);
  for (uint64_t steps = 0; in_child(dies_adding, steps) == ONEFILE_STOPPED; steps++) {
    MUST(onefile_enrol_any(&memory, &number) == ONEFILE_DONE && number == 0);
    MUST(onefile_enrol_any(&memory, &number) == ONEFILE_TAKEN);
    look(&memory, 0);
    MUST(onefile_leave(&memory, 0) == ONEFILE_DONE);
  }
  for (uint32_t i = 1; i < WORKERS; i++) MUST(onefile_leave(&memory, i) == ONEFILE_DONE);
  end(0);
  MUST(atomic_load(&seen->nudges) > 0);
}

/* Two memories have a number in turn. Each leaves a call open, which the next one ends. */
static void left_open(int has_spare) {
  begin(has_spare);
  share(&own);
  for (uint64_t steps = 1; steps < MOST_STEPS; steps++) {
    onefile_memory *one = steps % 2 ? &memory : &own;
    int answer = onefile_enrol(one, 0);
    if (answer == ONEFILE_NOT_YET && !has_spare) {
      commit();
      answer = onefile_enrol(one, 0);
    }
    MUST(answer == ONEFILE_DONE);
    look(one, 0);
    atomic_fetch_add(&seen->begun[0], 1);
    if (add_within(one, 0, steps) == ONEFILE_DONE) atomic_fetch_add(&seen->answered[0], 1);
    MUST(onefile_leave(one, 0) == ONEFILE_DONE);
  }
  commit();
  MUST(onefile_enrol(&memory, 0) == ONEFILE_DONE);
  look(&memory, 0);
  add(&memory, 0, atomic_load(&seen->answered[0]));
  MUST(onefile_leave(&memory, 0) == ONEFILE_DONE);
  MUST(onefile_close(&own, NULL) == ONEFILE_DONE);
  end(1);
}

/* A process dies, and its child goes on. The child has not the number. */
static int dies_with_a_child(uint64_t unused) {
  (void)unused;
  share(&own);
  MUST(onefile_enrol(&own, 0) == ONEFILE_DONE);
  if (fork() == 0) {
    atomic_store(&seen->grandchild, (int)getpid());
    for (;;) pause();
  }
  while (atomic_load(&seen->grandchild) == 0) pause_for(A_TRY);
  add(&own, 0, 0);
  return ONEFILE_DONE;
}

static void childs(void) {
  begin(1);
  MUST(in_child(dies_with_a_child, 0) == ONEFILE_DONE);
  MUST(onefile_enrol(&memory, 0) == ONEFILE_DONE);
  look(&memory, 0);
  MUST(kill(atomic_load(&seen->grandchild), SIGKILL) == 0);
  MUST(onefile_leave(&memory, 0) == ONEFILE_DONE);
  share(&own);
  MUST(onefile_enrol(&own, 0) == ONEFILE_DONE && onefile_enrol(&own, 1) == ONEFILE_DONE);
  pid_t parent = getpid();
  pid_t sleeper = (pid_t)syscall(SYS_fork); /* no handler runs: it has the descriptor */
  if (sleeper == 0) {
    die_with(parent);
    pause();
    _exit(1);
  }
  MUST(onefile_leave(&own, 0) == ONEFILE_DONE);
  MUST(onefile_enrol(&memory, 0) == ONEFILE_DONE);
  MUST(onefile_free(&own) == ONEFILE_DONE);
  MUST(onefile_enrol(&memory, 1) == ONEFILE_DONE);
  MUST(kill(sleeper, SIGKILL) == 0 && waitpid(sleeper, NULL, 0) == sleeper);
  for (uint32_t i = 0; i < 2; i++) MUST(onefile_leave(&memory, i) == ONEFILE_DONE);
  end(0);
}

/* At the limit no number is taken over. */
static void spent(void) {
  uint32_t number = 0;
  MUST(onefile_share_file(&memory, path, CALLERS, BLOCKS, 2) == ONEFILE_DONE);
  MUST(onefile_enrol(&memory, 0) == ONEFILE_DONE);
  add(&memory, 0, 0);
  add(&memory, 0, 1);
  MUST(onefile_leave(&memory, 0) == ONEFILE_DONE);
  MUST(onefile_enrol(&memory, 0) == ONEFILE_SPENT);
  MUST(add_within(&memory, 0, ONEFILE_NO_END) == ONEFILE_EMPTY);
  for (uint32_t i = 1; i < CALLERS; i++) {
    MUST(onefile_enrol_any(&memory, &number) == ONEFILE_DONE && number == i);
  }
  MUST(add_within(&memory, 1, ONEFILE_NO_END) == ONEFILE_SPENT);
  MUST(onefile_enrol_any(&memory, &number) == ONEFILE_SPENT);
  for (uint32_t i = 1; i < CALLERS; i++) MUST(onefile_leave(&memory, i) == ONEFILE_DONE);
  MUST(onefile_close(&memory, NULL) == ONEFILE_DONE);
  look_at_rest(0);
}

/* ---- Deaths at random moments. */

/* A process that has the number of a dead one. It may kill itself in the middle of a call. */
static void live(uint32_t number, unsigned chance, pid_t parent) {
  die_with(parent);
  MUST(onefile_free(&memory) == ONEFILE_DONE); /* a child has nothing of it */
  srandom(chance);
  share(&own);
  int answer = onefile_enrol(&own, number);
  for (int tries = 0; answer == ONEFILE_NOT_YET && tries < PATIENCE; tries++) {
    if (tries == 0) atomic_fetch_add(&seen->waits, 1);
    atomic_store(&seen->must_commit, 1);
    pause_for(A_TRY);
    answer = onefile_enrol(&own, number);
  }
  MUST(answer == ONEFILE_DONE);
  look(&own, number);
  for (uint32_t there = atomic_load(&seen->answered[number]);; there++) {
    if (random() % SELDOM == 0) {
      answer = add_within(&own, number, (uint64_t)random() % MOST_STEPS);
      if (answer == ONEFILE_STOPPED) kill(getpid(), SIGKILL);
      MUST(answer == ONEFILE_DONE && reply.values[OWN] == there + 1);
      atomic_store(&seen->answered[number], there + 1);
    } else {
      add(&own, number, there);
    }
  }
}

static void start(uint32_t number) {
  unsigned chance = (unsigned)random();
  pid_t parent = getpid();
  process[number] = fork();
  MUST(process[number] >= 0);
  if (process[number] == 0) live(number, chance, parent);
}

/* Takes down that one was killed. */
static void end_one(uint32_t number, int status) {
  MUST(WIFSIGNALED(status) && WTERMSIG(status) == SIGKILL);
  process[number] = 0;
}

/* Each number whose process was killed gets another one. Gives how many were killed. */
static unsigned long restart(void) {
  unsigned long count = 0;
  for (uint32_t i = 0; i < WORKERS; i++) {
    int status = 0;
    if (process[i] == 0 || waitpid(process[i], &status, WNOHANG) != process[i]) continue;
    end_one(i, status);
    start(i);
    count++;
  }
  return count;
}

/* Kills all at once, and gives how many. */
static unsigned long kill_all(void) {
  unsigned long count = 0;
  for (uint32_t i = 0; i < WORKERS; i++) {
    if (process[i] != 0) MUST(kill(process[i], SIGKILL) == 0);
  }
  for (uint32_t i = 0; i < WORKERS; i++) {
    int status = 0;
    if (process[i] == 0) continue;
    MUST(waitpid(process[i], &status, 0) == process[i]);
    end_one(i, status);
    count++;
  }
  return count;
}

/* One or more begin, from any number on. The first ones find things as the dead have left them. */
static void start_some(void) {
  uint32_t first = (uint32_t)random(), count = 1 + (uint32_t)random() % WORKERS;
  for (uint32_t i = 0; i < count; i++) start((first + i) % WORKERS);
}

static void deaths(unsigned long wanted, int is_told) {
  unsigned long killed = 0, calls = 0;
  begin(1);
  start_some();
  while (killed < wanted) {
    pause_for(random() % (random() % 4 ? LONGEST : SHORT));
    uint32_t victim = (uint32_t)random() % WORKERS;
    if (random() % 8 == 0) {
      killed += kill_all();
      start_some();
    } else if (random() % 2 && process[victim] != 0) {
      kill(process[victim], SIGKILL);
    }
    killed += restart();
    if (atomic_exchange(&seen->must_commit, 0)) commit();
    ask(victim, 0);
  }
  killed += kill_all();
  for (uint32_t i = 0; i < CALLERS; i++) calls += atomic_load(&seen->answered[i]);
  if (is_told) {
    printf("%lu killed; %lu calls, %u of them ended by the next owner, %u done but not told\n",
           killed, calls, atomic_load(&seen->resumed), atomic_load(&seen->untold));
  }
  end(0);
  if (is_told) {
    printf("spare callers made %u calls; %u times a number was not free yet; %u last replies were "
           "told to others, and %u times none was yet\n",
           atomic_load(&seen->nudges), atomic_load(&seen->waits), atomic_load(&seen->asked),
           atomic_load(&seen->unasked));
  }
}

int main(int argc, char **argv) {
  unsigned long count = argc > 2 ? strtoul(argv[2], NULL, 10) : 700;
  int may = PROT_READ | PROT_WRITE;
  seen = mmap(NULL, sizeof *seen, may, MAP_SHARED | MAP_ANONYMOUS, -1, 0);
  if (seen == MAP_FAILED) return 1;
  snprintf(path, sizeof path, "%s/onefile-takeover.%d", argc > 1 ? argv[1] : "/tmp", (int)getpid());
  for (int has_spare = 0; has_spare < 2; has_spare++) {
    each_step(has_spare);
    left_open(has_spare);
  }
  any_number();
  any_freed();
  childs();
  spent();
  deaths(count, argc > 2);
  printf("at least %lu killed, and one at each step: each number goes on, and each call is there "
         "once\n",
         count);
  return 0;
}
