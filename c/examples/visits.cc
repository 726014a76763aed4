// visits.cc: visits.c in C++17, on the same file: visits FILE.
#include "onefile.hh"

#include <cstdio>
#include <cstdlib>

int main(int argc, char **argv) {
  if (argc != 2) return 2;
  onefile::memory memory(argv[1], 1, 0);
  onefile::caller own(memory, 0);
  std::printf("visit %u\n", own.call({onefile_add(0, 1)}).values[0]);
  std::fflush(stdout);
  std::_Exit(0);  // as a process that is killed: nothing is closed, and nothing is lost
}
