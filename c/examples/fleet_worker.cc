// fleet_worker.cc: a worker of fleet.c in C++: fleet_worker PATH NUMBER. It may be killed at any
// moment; the next worker of its number goes on.
#include "onefile.hh"

#include <chrono>
#include <string>
#include <thread>

enum : uint32_t { CALLERS = 5, BLOCKS = 440 };
// Values and keys, and registers; of the last two each worker has one.
enum : uint32_t { WAITING = 1, CLAIM = 2000, RESULT = 3000 };
enum : uint32_t { DONE_COUNT = 0, OVER = 1, CAME = 2, DID = 7 };

static void pause_for(int microseconds) {
  std::this_thread::sleep_for(std::chrono::microseconds(microseconds));
}

// What one instruction answers, or 0.
static uint32_t answer_to(onefile::caller &own, uint64_t word) {
  onefile_reply reply = own.call({word});
  return reply.given[0] ? reply.values[0] : 0;
}

// Claims the least job that waits, if there is one.
static uint32_t claim_job(onefile::caller &own) {
  for (;;) {
    uint32_t job = answer_to(own, onefile_first());
    if (job == 0 || job >= CLAIM) return 0;
    onefile_reply reply = own.call({onefile_need(job, WAITING), onefile_del(job),
                                    onefile_put(CLAIM + own.has_number(), job)});
    if (reply.cause == 0) return job;
  }
}

static void do_job(onefile::caller &own, uint32_t job) {
  uint32_t number = own.has_number(), claim = CLAIM + number;
  pause_for(4000);  // the work
  onefile_reply reply = own.call({onefile_need(claim, job), onefile_del(claim),
                                  onefile_add(DONE_COUNT, 1), onefile_add(DID + number, 1),
                                  onefile_put(RESULT + job, job * job + 1)});
  if (reply.cause != 0 || reply.given[4]) throw std::logic_error("the job was done before");
}

static void work(onefile::caller &own) {
  onefile_reply reply;
  own.go_on(reply);
  answer_to(own, onefile_add(CAME + own.has_number(), 1));
  uint32_t job = answer_to(own, onefile_get(CLAIM + own.has_number()));  // that the dead one had
  while (job != 0 || answer_to(own, onefile_load(OVER)) == 0) {
    if (job != 0) do_job(own, job);
    else pause_for(500);
    job = claim_job(own);
  }
}

int main(int, char **argv) {
  onefile::memory memory(onefile::shared{argv[1]}, CALLERS, BLOCKS);
  {
    onefile::caller own(memory, std::stoul(argv[2]));
    work(own);
  }
  memory.detach();
}
