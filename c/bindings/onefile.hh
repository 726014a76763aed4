// onefile.hh: onefile.h for C++17, as the programs here use it. Memories, callers and what was
// saved let go what they hold when their scope ends. They cannot be copied or moved. An answer that
// is not wanted is thrown.
#ifndef ONEFILE_HH
#define ONEFILE_HH

#include "onefile.h"

#include <chrono>
#include <stdexcept>
#include <string>
#include <thread>
#include <vector>

namespace onefile {

// An answer that is not wanted.
class refusal : public std::runtime_error {
 public:
  explicit refusal(int answer) : std::runtime_error(onefile_name(answer)), answer(answer) {}
  const int answer;
};

inline void expect(int answer, int wanted = ONEFILE_DONE) {
  if (answer != wanted) throw refusal(answer);
}

using script = std::vector<uint64_t>;

class saved;

// A file that processes share: `memory of(onefile::shared{path}, callers, blocks)`.
struct shared {
  std::string path;
};

class memory {
 public:
  memory(uint32_t callers, uint32_t blocks, uint32_t limit = ONEFILE_GREATEST_LIMIT) {
    expect(onefile_open(&held, callers, blocks, limit));
  }
  explicit memory(saved &from);
  // One in a file: it goes on from there, or the file is made. A path has no zero byte.
  memory(const std::string &path, uint32_t callers, uint32_t blocks,
         uint32_t limit = ONEFILE_GREATEST_LIMIT) {
    expect_whole(path);
    int answer = onefile_reopen_file(&held, path.c_str(), limit, nullptr);
    if (answer == ONEFILE_NO_FILE) {
      answer = onefile_open_file(&held, path.c_str(), callers, blocks, limit);
    }
    expect(answer);
  }
  // One that other processes may have too: the file is made, recovered or joined.
  memory(const shared &file, uint32_t callers, uint32_t blocks,
         uint32_t limit = ONEFILE_GREATEST_LIMIT) {
    expect_whole(file.path);
    expect(onefile_share_file(&held, file.path.c_str(), callers, blocks, limit));
  }
  memory(const memory &) = delete;
  memory &operator=(const memory &) = delete;
  ~memory() { onefile_free(&held); }

  // Lets a shared file go, which all callers of this process have left.
  void detach() { expect(onefile_close(&held, nullptr)); }

  // What the last call of a number that is held answered, while others go on, if one is.
  bool last_reply_of(uint32_t number, onefile_reply &reply) {
    int answer;
    while ((answer = onefile_last_reply_of(&held, number, &reply)) == ONEFILE_BUSY) {
      std::this_thread::yield();
    }
    if (answer != ONEFILE_ABSENT) expect(answer);
    return answer == ONEFILE_DONE;
  }

  // Has the sequences of a memory begin anew that all callers have left.
  void renumber() {
    onefile_saved left = ONEFILE_NONE;
    int answer = onefile_renumber(&held, &left);
    onefile_free_saved(&left);
    expect(answer);
  }

  onefile_memory held = ONEFILE_NONE;

 private:
  static void expect_whole(const std::string &path) {
    if (path.find('\0') != std::string::npos) throw std::invalid_argument("a zero byte in a path");
  }
};

// A caller that is enrolled; it leaves when its scope ends. If another one enrols or leaves at that
// moment, it tries again. If its number is not free yet, it tries again for a second.
class caller {
 public:
  caller(memory &of, uint32_t number) : of(of), number(number) {
    int answer = onefile_enrol(&of.held, number);
    for (int tries = 1; answer == ONEFILE_NOT_YET && tries < 1000; tries++) {
      std::this_thread::sleep_for(std::chrono::milliseconds(1));
      answer = onefile_enrol(&of.held, number);
    }
    expect(answer);
  }
  // With the first number that is free.
  explicit caller(memory &of) : of(of), number(0) { expect(onefile_enrol_any(&of.held, &number)); }
  caller(const caller &) = delete;
  caller &operator=(const caller &) = delete;
  ~caller() {
    while (onefile_leave(&of.held, number) == ONEFILE_BUSY) std::this_thread::yield();
  }

  uint32_t has_number() const { return number; }

  onefile_reply call(const script &words) {
    onefile_reply reply{};
    expect(onefile_call(&of.held, number, words.data(), words.size(), &reply));
    return reply;
  }

  // Ends the open call, which a killed owner of the number may have left, if one is.
  bool go_on(onefile_reply &reply) {
    int answer = onefile_go_on(&of.held, number, ONEFILE_NO_END, &reply);
    if (answer != ONEFILE_NO_CALL) expect(answer);
    return answer == ONEFILE_DONE;
  }

  // How many sequences are left at most, as far as this caller knows.
  uint32_t sequences_left() const {
    uint32_t left = 0;
    expect(onefile_sequences_left(&of.held, number, &left));
    return left;
  }

  // Runs a script that is stopped after so many steps.
  onefile_reply stop_in(const script &words, uint64_t steps) {
    onefile_reply reply{};
    expect(onefile_call_within(&of.held, number, words.data(), words.size(), steps, &reply),
           ONEFILE_STOPPED);
    return reply;
  }

 private:
  memory &of;
  uint32_t number;
};

class saved {
 public:
  // What a memory holds that all callers have left. The memory is empty then.
  explicit saved(memory &of) { expect(onefile_close(&of.held, &held)); }
  // What an image holds.
  explicit saved(const std::string &text) {
    expect(onefile_from_image(&held, text.data(), text.size()));
  }
  saved(const saved &) = delete;
  saved &operator=(const saved &) = delete;
  ~saved() { onefile_free_saved(&held); }

  uint32_t reg(uint32_t number) {
    uint32_t value = 0;
    expect(onefile_register(&held, number, &value));
    return value;
  }

  // Whether a key has this value.
  bool has(uint32_t key, uint32_t value) {
    uint32_t found = 0;
    int answer = onefile_key(&held, key, &found);
    if (answer != ONEFILE_ABSENT) expect(answer);
    return answer == ONEFILE_DONE && found == value;
  }

  uint32_t ticket(uint32_t number) {
    uint32_t value = 0;
    expect(onefile_ticket(&held, number, &value));
    return value;
  }

  onefile_reply last_reply(uint32_t number) {
    onefile_reply reply{};
    expect(onefile_last_reply(&held, number, &reply));
    return reply;
  }

  std::string image() {
    size_t length = 0;
    expect(onefile_image(&held, nullptr, 0, &length), ONEFILE_NO_ROOM);
    std::string text(length, ' ');
    expect(onefile_image(&held, text.data(), length, &length));
    return text;
  }

  onefile_saved held = ONEFILE_NONE;
};

inline memory::memory(saved &from) { expect(onefile_reopen(&held, &from.held)); }

}  // namespace onefile
#endif
