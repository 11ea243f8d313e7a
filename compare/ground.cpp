// Fences, and the signals that a touch of one gives.
#include "ground.hpp"

#include <setjmp.h>
#include <signal.h>
#include <sys/mman.h>
#include <unistd.h>

#include <cstdio>
#include <cstdlib>

namespace {

constexpr std::size_t ground_size = 8 * 1024 * 1024, fence = 64 * 1024;  // a multiple of every page size in use
constexpr unsigned patience = 10;  // seconds; the largest plan takes a tenth of one under an emulator

sigjmp_buf back;
volatile sig_atomic_t inside = 0;

void stopped(int number) {
  if (!inside) {  // not the library's doing
    signal(number, SIG_DFL);
    raise(number);
    return;
  }
  inside = 0;
  siglongjmp(back, number);
}

void watch() {
  static bool watching = false;
  if (watching) return;
  watching = true;
  static std::uint8_t aside[64 * 1024];  // so that a call that ran out of stack is reported too
  stack_t stack = {};
  stack.ss_sp = aside;
  stack.ss_size = sizeof aside;
  sigaltstack(&stack, nullptr);
  struct sigaction action = {};
  action.sa_handler = stopped;
  action.sa_flags = SA_NODEFER | SA_ONSTACK;
  for (int number : {SIGSEGV, SIGBUS, SIGILL, SIGFPE, SIGABRT, SIGTRAP, SIGALRM}) sigaction(number, &action, nullptr);
}

Ended stopped_by(int number) {
  if (number == SIGALRM) return {0, true, "it did not come back within " + std::to_string(patience) + " seconds"};
  return {0, false, "it was stopped by signal " + std::to_string(number) + ", as a touch outside what it was lent is, or running out of stack"};
}

}  // namespace

Ground::Ground() {
  void *got = mmap(nullptr, ground_size + fence, PROT_READ | PROT_WRITE, MAP_PRIVATE | MAP_ANONYMOUS, -1, 0);
  if (got == MAP_FAILED || mprotect(static_cast<std::uint8_t *>(got) + ground_size, fence, PROT_NONE) != 0) {
    std::perror("memory to lend");
    std::exit(2);
  }
  end = static_cast<std::uint8_t *>(got) + ground_size;
}

Ended run_guarded(const std::function<std::uint64_t()> &call) {
  watch();
  alarm(patience);
  if (const int number = sigsetjmp(back, 0)) {
    alarm(0);
    return stopped_by(number);
  }
  inside = 1;
  const std::uint64_t answer = call();
  inside = 0;
  alarm(0);
  return {answer, false, ""};
}
