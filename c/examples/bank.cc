// bank.cc: the bank of bank.c in C++17. What it prints is the same.
#include "onefile.hh"

#include <cstdio>
#include <deque>
#include <thread>

namespace {

constexpr uint32_t callers = 4, each = 1000, calls = 2000;

// A caller moves 1 from its register to the next one, again and again.
void work(onefile::caller &own, uint32_t number) {
  const onefile::script move{onefile_sub(number, 1), onefile_add((number + 1) % callers, 1)};
  for (uint32_t i = 0; i < calls; i++) {
    uint32_t cause = own.call(move).cause;
    if (cause != 0 && cause != ONEFILE_CAUSE_SHORT) throw std::logic_error("cause");
  }
}

uint32_t sum_of(onefile::saved &saved) {
  uint32_t sum = 0;
  for (uint32_t i = 0; i < callers; i++) sum += saved.reg(i);
  return sum;
}

void enrol_all(onefile::memory &bank, std::deque<onefile::caller> &all) {
  for (uint32_t i = 0; i < callers; i++) all.emplace_back(bank, i);
}

// Four threads move money, and caller 3 is stopped. Gives the image of what is left.
std::string first_life() {
  onefile::memory bank(callers, 16);
  {
    std::deque<onefile::caller> all;
    enrol_all(bank, all);
    onefile::script fill;
    for (uint32_t i = 0; i < callers; i++) fill.push_back(onefile_store(i, each));
    all[0].call(fill);
    std::vector<std::thread> threads;
    for (uint32_t i = 0; i < callers; i++) threads.emplace_back(work, std::ref(all[i]), i);
    for (std::thread &one : threads) one.join();
    std::printf("%u calls of %u threads\n", callers * calls, callers);
    auto reply = all[3].stop_in({onefile_put(7, 70), onefile_push(2, 5), onefile_len(2)}, 12);
    std::printf("caller 3: ONEFILE_STOPPED at step %u\n", unsigned(reply.steps));
    all[0].call({onefile_add(9, 1)});
  }
  onefile::saved left(bank);
  std::printf("the sum is %u\n", sum_of(left));
  return left.image();
}

// Goes on from the image, and asks what the last call of caller 3 came to.
void second_life(const std::string &image) {
  onefile::saved before(image);
  onefile::memory bank(before);
  onefile_reply last = before.last_reply(3);
  std::printf("caller 3: call %u was answered, and the queue has %u\n", last.ticket,
              last.values[2]);
  {
    std::deque<onefile::caller> all;
    enrol_all(bank, all);
    auto reply = all[3].call({onefile_get(7), onefile_pop(2)});
    std::printf("key 7 has %u, and the queue had %u\n", reply.values[0], reply.values[1]);
  }
  onefile::saved left(bank);
  std::printf("caller 3 has made %u calls\n", left.ticket(3));
  std::printf("the sum is %u\n", sum_of(left));
}

}  // namespace

int main() {
  second_life(first_life());
  return 0;
}
