/* nudges.c: a number is not free before a commit, and a spare caller makes it: nudges [FOLDER].
 * Processes die or stop after each number of steps of such a commit, die at each request to malloc
 * and fcntl meanwhile, or are refused it. Others take the number over then: they make commits of
 * their own, by the other spare caller if need be. To be linked with --wrap for each function that
 * is wrapped here. */
#define _GNU_SOURCE
#include "must.h"
#include "onefile.h"

#include <errno.h>
#include <fcntl.h>
#include <signal.h>
#include <stdarg.h>
#include <stdio.h>
#include <stdlib.h>
#include <string.h>
#include <sys/prctl.h>
#include <sys/wait.h>
#include <unistd.h>

enum { CALLERS = 4, NEIGHBOUR = CALLERS - 1, COMMON = 15, BLOCKS = 4, LIMIT = 1000000 };
enum { MOST_STEPS = 400, SPARE = CALLERS };

/* ---- What happens to a process in an enrolment, or while it asks for a last reply. */

/* How it goes on, dies or stops after so many steps of a spare caller's calls. */
enum { GOES_ON, DIES, STOPS };
static int is_watched, fate;
static uint64_t fate_after;
/* How many calls spare callers have begun in it, and went on with. */
static unsigned begun, went_on;
/* The request to malloc or fcntl that is refused or kills, from 1; 0 for none. */
static long count, refused_at, killed_at;

/* Why a child has ended: as it should, or its call was shorter, or there were fewer requests. */
enum { ENDED = 40, WAS_SHORTER, NOT_REACHED };

/* The process meets its fate. Gives whether it is to go on. */
static void meet_fate(uint32_t answer) {
  if (answer != ONEFILE_STOPPED) _exit(WAS_SHORTER);
  if (fate == DIES) _exit(ENDED);
  raise(SIGSTOP);
  fate = GOES_ON;
}

uint32_t __real_of_c_go_on(onefile_slot *caller, uint64_t steps, onefile_reply *reply);
uint32_t __wrap_of_c_go_on(onefile_slot *caller, uint64_t steps, onefile_reply *reply) {
  if (!is_watched) return __real_of_c_go_on(caller, steps, reply);
  uint32_t answer = __real_of_c_go_on(caller, fate == GOES_ON ? steps : fate_after, reply);
  if (answer == ONEFILE_NO_CALL) return answer;
  went_on++;
  if (fate == GOES_ON || answer != ONEFILE_STOPPED) return answer;
  meet_fate(answer);
  return __real_of_c_go_on(caller, steps, reply);
}

uint32_t __real_of_c_call(onefile_slot *caller, const uint64_t *words, size_t length,
                          uint64_t steps, onefile_reply *reply);
uint32_t __wrap_of_c_call(onefile_slot *caller, const uint64_t *words, size_t length,
                          uint64_t steps, onefile_reply *reply) {
  begun += is_watched != 0;
  if (!is_watched || fate == GOES_ON) {
    return __real_of_c_call(caller, words, length, steps, reply);
  }
  meet_fate(__real_of_c_call(caller, words, length, fate_after, reply));
  return __real_of_c_go_on(caller, steps, reply);
}

static int is_refused(void) {
  count += is_watched != 0;
  if (!is_watched || (count != refused_at && count != killed_at)) return 0;
  if (count == killed_at) _exit(ENDED);
  return 1;
}

void *__real_malloc(size_t size);
void *__wrap_malloc(size_t size) { return is_refused() ? NULL : __real_malloc(size); }

int __real_fcntl(int file, int what, ...);
int __wrap_fcntl(int file, int what, ...) {
  va_list rest;
  va_start(rest, what);
  void *lock = va_arg(rest, void *);
  va_end(rest);
  errno = ENOLCK;
  return is_refused() ? -1 : __real_fcntl(file, what, lock);
}

/* ---- Calls. */

static char path[220];
static onefile_memory memory = ONEFILE_NONE, own = ONEFILE_NONE;
static onefile_reply reply;
/* How many calls of each number that add were answered, or found done. */
static uint32_t answered[CALLERS];
static unsigned long waits;

static void share(onefile_memory *one) {
  MUST(onefile_share_file(one, path, CALLERS, BLOCKS, LIMIT) == ONEFILE_DONE);
}

static int enrol(onefile_memory *one, uint32_t number) {
  is_watched = 1;
  count = begun = went_on = 0;
  int answer = onefile_enrol(one, number);
  is_watched = 0;
  return answer;
}

static int add_within(onefile_memory *one, uint32_t number, uint64_t steps) {
  const uint64_t script[] = {onefile_add(1 + number, 1), onefile_add(COMMON, 1),
                             onefile_put(number, 9), onefile_del(number)};
  return onefile_call_within(one, number, script, 4, steps, &reply);
}

static void add(onefile_memory *one, uint32_t number) {
  MUST(add_within(one, number, ONEFILE_NO_END) == ONEFILE_DONE);
  MUST(reply.cause == 0 && reply.values[0] == ++answered[number]);
}

static void commit(void) { add(&memory, NEIGHBOUR); }

/* The number was taken over: its answered calls are there, and at most the open one of the dead. */
static void look(onefile_memory *one, uint32_t number) {
  const uint64_t script[] = {onefile_load(1 + number), onefile_load(0)};
  int answer = onefile_call(one, number, script, 2, &reply);
  if (answer == ONEFILE_CALL_OPEN) {
    MUST(onefile_go_on(one, number, ONEFILE_NO_END, &reply) == ONEFILE_DONE && reply.cause == 0);
    answer = onefile_call(one, number, script, 2, &reply);
  }
  MUST(answer == ONEFILE_DONE && reply.values[1] == ONEFILE_GREATEST);
  MUST(reply.values[0] == answered[number] || reply.values[0] == answered[number] + 1);
  answered[number] = reply.values[0];
}

/* ---- Children. */

static uint64_t in_log; /* after so many steps of a call the log is half written */

static int dies_adding(uint32_t number) {
  share(&own);
  int answer = enrol(&own, number);
  if (answer == ONEFILE_DONE) answer = add_within(&own, number, in_log);
  return answer == ONEFILE_STOPPED ? ENDED : answer;
}

/* Takes the number over, and meets its fate. */
static int enrols(uint32_t number) {
  share(&own);
  int answer = enrol(&own, number);
  if (killed_at > 0) return NOT_REACHED;
  if (answer == ONEFILE_DONE) look(&own, number);
  return answer;
}

/* The first request that is refused is said, and then there is no trouble. */
static int is_refused_once(uint32_t number) {
  share(&own);
  int answer = enrol(&own, number);
  if (count < refused_at) return NOT_REACHED;
  MUST(answer == ONEFILE_DONE || answer == ONEFILE_NO_MEMORY || answer == ONEFILE_SYSTEM);
  refused_at = 0;
  if (answer != ONEFILE_DONE) MUST(enrol(&own, number) == ONEFILE_DONE);
  look(&own, number);
  return ENDED;
}

static pid_t start(int (*task)(uint32_t), uint32_t number) {
  fflush(stdout);
  pid_t child = fork();
  MUST(child >= 0);
  if (child != 0) return child;
  prctl(PR_SET_PDEATHSIG, SIGKILL);
  onefile_free(&memory); /* a child has nothing of it */
  _exit(task(number));
}

static int end_of(pid_t child) {
  int status = 0;
  MUST(waitpid(child, &status, 0) == child && WIFEXITED(status));
  return WEXITSTATUS(status);
}

static int in_child(int (*task)(uint32_t), uint32_t number) {
  return end_of(start(task, number));
}

static void die_in_log(uint32_t number) { MUST(in_child(dies_adding, number) == ENDED); }

/* A child takes the number over, and dies after so many steps of its commit. Gives whether it had
 * so many: another one may have made the commit before it died. */
static int dies_after(uint64_t steps) {
  fate = DIES;
  fate_after = steps;
  int why = in_child(enrols, 0);
  fate = GOES_ON;
  MUST(why == ENDED || why == WAS_SHORTER || why == ONEFILE_DONE);
  return why == ENDED;
}

/* ---- Trials. */

/* The number is taken over by this process, and left. NOT_YET only if it may be so. */
static void take_over(onefile_memory *one, uint32_t number, int may_wait) {
  int answer = enrol(one, number);
  if (answer == ONEFILE_NOT_YET) {
    MUST(may_wait);
    waits++;
    commit();
    answer = enrol(one, number);
  }
  MUST(answer == ONEFILE_DONE);
  look(one, number);
  add(one, number);
  MUST(onefile_leave(one, number) == ONEFILE_DONE);
}

/* Finds out after how many steps of a call the number is not free: in the middle of these. A commit
 * is made by then, and no more than one. */
static void find_log(void) {
  uint64_t first = 0, last = 0;
  for (in_log = 0; in_log < MOST_STEPS; in_log++) {
    if (in_child(dies_adding, 0) != ENDED) break;
    MUST(enrol(&memory, 0) == ONEFILE_DONE && begun <= 1 && went_on == 0);
    if (begun == 1 && first == 0) first = in_log;
    if (begun == 1) last = in_log;
    look(&memory, 0);
    MUST(onefile_leave(&memory, 0) == ONEFILE_DONE);
  }
  MUST(first > 0 && first < last);
  take_over(&memory, 0, 0); /* the call that has ended */
  in_log = (first + last) / 2;
}

/* One process dies in its commit, or two do, after each number of steps. */
static void deaths(void) {
  unsigned went = 0;
  for (uint64_t steps = 0, is_reached = 1; is_reached; steps++) {
    die_in_log(0);
    is_reached = (uint64_t)dies_after(steps);
    take_over(&memory, 0, 0);
    went += went_on;
    for (uint64_t more = steps % 7; more < MOST_STEPS; more += 7) {
      die_in_log(0);
      dies_after(steps);
      int is_long = dies_after(more);
      take_over(&memory, 0, 1);
      if (!is_long) break;
    }
  }
  MUST(went > 0 && waits > 0);
}

/* Those that stop in their commits have the spare callers, and nobody waits for them. */
static void stops(void) {
  for (uint64_t steps = 0; steps < 40; steps += 3) {
    pid_t stopped[2];
    int status = 0;
    for (uint32_t i = 0; i < 3; i++) die_in_log(i);
    fate = STOPS;
    fate_after = steps;
    for (uint32_t i = 0; i < 2; i++) {
      stopped[i] = start(enrols, i);
      MUST(waitpid(stopped[i], &status, WUNTRACED) == stopped[i] && WIFSTOPPED(status));
      if (i == 0 && steps % 2) break;
    }
    fate = GOES_ON;
    take_over(&memory, 2, steps % 2 == 0); /* NOT_YET if both are had */
    for (uint32_t i = 0; i < 2; i++) {
      if (i == 1 && steps % 2) take_over(&memory, 1, 0);
      else MUST(kill(stopped[i], SIGCONT) == 0 && end_of(stopped[i]) == ONEFILE_DONE);
      take_over(&memory, i, 0);
    }
  }
}

/* Memories make commits in turn, so each lets the spare callers go. */
static void turns(void) {
  onefile_memory second = ONEFILE_NONE, third = ONEFILE_NONE;
  onefile_memory *const all[] = {&memory, &second, &third};
  share(&second);
  share(&third);
  for (int i = 0; i < 12; i++) {
    onefile_memory *one = all[i % 3];
    die_in_log(0);
    MUST(enrol(one, 0) == ONEFILE_DONE && begun == 1);
    look(one, 0);
    for (uint32_t spare = SPARE; spare < SPARE + 2; spare++) {
      MUST(onefile_go_on(one, spare, 1, &reply) == ONEFILE_EMPTY);
      MUST(onefile_leave(one, spare) == ONEFILE_EMPTY);
      MUST(onefile_enrol(one, spare) == ONEFILE_RANGE);
    }
    MUST(onefile_leave(one, 0) == ONEFILE_DONE);
  }
  MUST(onefile_free(&third) == ONEFILE_DONE && onefile_close(&second, NULL) == ONEFILE_DONE);
}

/* A call that is half done is ended by a commit before the number's last reply is told. */
static void asks(void) {
  uint64_t before = in_log;
  unsigned commits = 0;
  for (in_log = 0; in_child(dies_adding, 0) == ENDED; in_log++) {
    is_watched = 1;
    begun = 0;
    MUST(onefile_last_reply_of(&memory, 0, &reply) == ONEFILE_DONE && begun <= 1);
    is_watched = 0;
    MUST(reply.values[0] - answered[0] <= 1 && reply.cause == 0 && reply.len == 4);
    commits += begun;
    take_over(&memory, 0, 0);
  }
  take_over(&memory, 0, 0); /* the call that has ended */
  MUST(commits > 0 && in_log < MOST_STEPS);
  in_log = before;
}

/* Why a child has ended whose request with this number meets its fate. The number is free then. */
static int with_request(long *fated, long at, int (*task)(uint32_t)) {
  die_in_log(0);
  *fated = at;
  int why = in_child(task, 0);
  *fated = 0;
  MUST(why == ENDED || why == NOT_REACHED);
  take_over(&memory, 0, 0);
  return why;
}

/* Requests are refused, or kill the process. */
static void requests(void) {
  int refused = ENDED, killed = ENDED;
  for (long at = 1; refused == ENDED || killed == ENDED; at++) {
    refused = with_request(&refused_at, at, is_refused_once);
    killed = with_request(&killed_at, at, enrols);
    MUST(at < 200);
  }
}

/* Register 0 has the greatest number, which no commit of a spare caller changes. */
static void begin(void) {
  const uint64_t fill[] = {onefile_store(0, ONEFILE_GREATEST)};
  share(&memory);
  MUST(onefile_enrol(&memory, NEIGHBOUR) == ONEFILE_DONE);
  MUST(onefile_call(&memory, NEIGHBOUR, fill, 1, &reply) == ONEFILE_DONE);
  for (uint32_t i = 0; i < NEIGHBOUR; i++) {
    MUST(enrol(&memory, i) == ONEFILE_DONE && begun == 0);
    MUST(onefile_leave(&memory, i) == ONEFILE_DONE);
  }
}

static void end(void) {
  onefile_saved saved = ONEFILE_NONE;
  uint32_t there = 0, all = 0, tickets[2];
  MUST(onefile_leave(&memory, NEIGHBOUR) == ONEFILE_DONE);
  MUST(onefile_close(&memory, NULL) == ONEFILE_DONE);
  MUST(onefile_reopen_file(&memory, path, LIMIT, &saved) == ONEFILE_DONE);
  for (uint32_t i = 0; i < CALLERS; i++) {
    MUST(onefile_register(&saved, 1 + i, &there) == ONEFILE_DONE && there == answered[i]);
    all += there;
  }
  MUST(onefile_register(&saved, COMMON, &there) == ONEFILE_DONE && there == all);
  MUST(onefile_register(&saved, 0, &there) == ONEFILE_DONE && there == ONEFILE_GREATEST);
  for (uint32_t i = 0; i < 2; i++) {
    MUST(onefile_ticket(&saved, SPARE + i, &tickets[i]) == ONEFILE_DONE && tickets[i] > 0);
  }
  MUST(onefile_ticket(&saved, SPARE + 2, &there) == ONEFILE_RANGE);
  MUST(onefile_free_saved(&saved) == ONEFILE_DONE && onefile_free(&memory) == ONEFILE_DONE);
  MUST(unlink(path) == 0);
}

/* At the limit there is no commit. The last one may be that of a spare caller. */
static void spent(void) {
  MUST(onefile_share_file(&memory, path, CALLERS, BLOCKS, 1) == ONEFILE_DONE);
  MUST(onefile_enrol(&memory, 0) == ONEFILE_DONE);
  MUST(add_within(&memory, 0, in_log) == ONEFILE_STOPPED);
  MUST(onefile_leave(&memory, 0) == ONEFILE_DONE);
  MUST(enrol(&memory, 0) == ONEFILE_SPENT && begun == 1);
  MUST(enrol(&memory, 0) == ONEFILE_SPENT && begun == 0);
  MUST(onefile_enrol(&memory, 1) == ONEFILE_DONE);
  MUST(add_within(&memory, 1, ONEFILE_NO_END) == ONEFILE_SPENT && reply.seq == 1);
  MUST(onefile_free(&memory) == ONEFILE_DONE && unlink(path) == 0);
}

int main(int argc, char **argv) {
  snprintf(path, sizeof path, "%s/onefile-nudges.%d", argc > 1 ? argv[1] : "/tmp", (int)getpid());
  begin();
  find_log();
  deaths();
  stops();
  turns();
  asks();
  requests();
  end();
  spent();
  printf("each number is free after a commit of a spare caller\n");
  return 0;
}
