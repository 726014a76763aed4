// bindings.cc: what onefile.hh adds to onefile.h. A caller leaves at the end of its scope, also if
// another one enrols or leaves at the same moment. A path with a zero byte is refused. Two
// memories share a file, as two processes would: bindings [FOLDER].
#include "onefile.hh"

#include <atomic>
#include <chrono>
#include <cstdio>

using clock_of = std::chrono::steady_clock;

static const clock_of::time_point end = clock_of::now() + std::chrono::seconds(10);
static std::atomic<int> met(0);

// Enrols a caller and lets it leave, until two have met often, or for ten seconds. Says whether it
// was enrolled still when it should have left.
static bool stays(onefile::memory &of, uint32_t number) {
  bool meets = false;
  while (met < 300 && clock_of::now() < end) {
    try {
      onefile::caller own(of, number);
      met += meets;
      meets = false;
    } catch (const onefile::refusal &why) {
      if (why.answer != ONEFILE_BUSY) return true;
      meets = true;
    }
  }
  return false;
}

static bool takes_path(const std::string &path) {
  try {
    onefile::memory in_file(path, 1, 0);
  } catch (const std::invalid_argument &) {
    return false;
  } catch (const onefile::refusal &) {
  }
  return true;
}

// Two memories of one file: what one answers the other adds to, and may ask for.
static std::string shares(const std::string &path) {
  onefile::memory one(onefile::shared{path}, 2, 4), other(onefile::shared{path}, 2, 4);
  onefile::caller first(one), second(other);
  first.call({onefile_add(3, 5)});
  uint32_t sum = second.call({onefile_add(3, 6)}).values[0];
  onefile_reply told{};
  bool is_told = one.last_reply_of(second.has_number(), told);
  sum = sum * 10 + first.has_number() * 2 + second.has_number();
  return std::to_string(sum) + " " + std::to_string(is_told ? told.values[0] : 0);
}

// All have let the file go, so the next life has all numbers, and the sum.
static uint32_t shares_again(const std::string &path) {
  onefile::memory one(onefile::shared{path}, 2, 4);
  uint32_t sum = 0;
  {
    onefile::caller own(one, 1);
    sum = own.call({onefile_load(3)}).values[0];
  }
  one.detach();
  std::remove(path.c_str());
  return sum;
}

// A sum, and how many sequences are left, before they begin anew and after that.
static void renumbers() {
  onefile::memory of(1, 0, 3);
  std::printf("sums, and sequences left:");
  for (int life = 0; life < 2; life++) {
    {
      onefile::caller own(of, 0);
      uint32_t sum = own.call({onefile_add(3, 5)}).values[0];
      std::printf(" %u %u", sum, own.sequences_left());
    }
    of.renumber();
  }
  std::puts("");
}

int main(int argc, char **argv) {
  onefile::memory of(2, 0);
  bool other = false;
  std::thread thread([&of, &other] { other = stays(of, 1); });
  bool one = stays(of, 0);
  thread.join();
  std::puts(one || other ? "a caller has not left" : "each caller has left");
  onefile::saved left(of);
  const char path[] = "/no/such\0folder";
  bool is_taken = takes_path(std::string(path, sizeof path - 1));
  std::printf("a path with a zero byte: %s\n", is_taken ? "taken" : "refused");
  renumbers();
  std::string file = std::string(argc > 1 ? argv[1] : "/tmp") + "/onefile-bindings.cc";
  std::remove(file.c_str());
  std::string sums = shares(file);
  std::printf("two that share a file: %s, and later %u\n", sums.c_str(), shares_again(file));
}
