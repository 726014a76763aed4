// jobs.cc: the job queue of jobs.c in C++17. What it prints is the same.
#include "onefile.hh"

#include <cstdio>
#include <deque>
#include <optional>
#include <thread>

namespace {

constexpr uint32_t workers = 4, jobs = 200, each = 30, job_queue = 0;

using job = std::optional<uint32_t>;

uint32_t result_of(uint32_t number) { return number * number + 1; }

// The job that a call took: its last instruction is the `pop`.
job job_of(const onefile_reply &reply) {
  uint32_t last = reply.len - 1;
  return reply.given[last] ? job(reply.values[last]) : std::nullopt;
}

// One call that ends a job and takes the next.
onefile::script next(uint32_t worker, uint32_t done) {
  return {onefile_put(done, result_of(done)), onefile_add(worker, 1), onefile_pop(job_queue)};
}

// Does so many jobs at most, and first the one that the worker has, if any. Gives the one that it
// has then.
job work(onefile::caller &own, uint32_t number, job has, uint32_t most) {
  if (!has) has = job_of(own.call({onefile_pop(job_queue)}));
  for (uint32_t done = 0; has && done < most; done++) {
    onefile_reply reply = own.call(next(number, *has));
    if (reply.cause != 0 || reply.given[0]) throw std::logic_error("the job was done before");
    has = job_of(reply);
  }
  return has;
}

void enrol_all(onefile::memory &memory, std::deque<onefile::caller> &all) {
  for (uint32_t i = 0; i < workers; i++) all.emplace_back(memory, i);
}

// How many jobs have their result.
uint32_t jobs_done(onefile::saved &saved) {
  uint32_t done = 0;
  for (uint32_t one = 1; one <= jobs; one++) done += saved.has(one, result_of(one));
  return done;
}

// How many jobs the workers have counted.
uint32_t jobs_counted(onefile::saved &saved) {
  uint32_t sum = 0;
  for (uint32_t i = 0; i < workers; i++) sum += saved.reg(i);
  return sum;
}

// Some jobs are done, and worker 3 is stopped in its last call. Gives the image of what is left.
std::string first_life() {
  onefile::memory memory(workers, jobs);
  {
    std::deque<onefile::caller> all;
    enrol_all(memory, all);
    for (uint32_t one = 1; one <= jobs; one++) all[0].call({onefile_push(job_queue, one)});
    std::vector<std::thread> threads;
    for (uint32_t i = 0; i < workers; i++) {
      threads.emplace_back([&all, i] {
        job has = work(all[i], i, std::nullopt, i == 3 ? each - 1 : each);
        if (i == 3) all[i].stop_in(next(i, *has), 12);
      });
    }
    for (std::thread &one : threads) one.join();
  }
  onefile::saved left(memory);
  std::printf("%u jobs, and worker 3 was stopped\n", jobs);
  bool once = jobs_done(left) == jobs_counted(left);
  std::printf("those that are done: %s\n", once ? "each once" : "not each once");
  return left.image();
}

// Goes on from the image: each worker asks which job it has.
void second_life(const std::string &image) {
  onefile::saved before(image);
  onefile::memory memory(before);
  {
    std::deque<onefile::caller> all;
    enrol_all(memory, all);
    std::vector<std::thread> threads;
    for (uint32_t i = 0; i < workers; i++) {
      job has = job_of(before.last_reply(i));
      threads.emplace_back([&all, i, has] { work(all[i], i, has, jobs); });
    }
    for (std::thread &one : threads) one.join();
  }
  onefile::saved left(memory);
  std::printf("%u jobs are done, and %u were counted\n", jobs_done(left), jobs_counted(left));
}

}  // namespace

int main() {
  second_life(first_life());
  return 0;
}
