// How much stack a call takes.
#pragma once
#include <cstddef>
#include <cstdint>
#include <cstring>
#include <functional>
#include <sys/mman.h>
#include <ucontext.h>

// Bytes of stack that a call touches below its caller, its return address among them: it is run on a painted stack of its own. That is no thread's,
// for a thread's own start and end touch more than a small call does, and would hide it.
inline std::size_t stack_of(const std::function<void()> &call) {
  static const std::function<void()> *running;
  constexpr std::size_t size = 1024 * 1024;
  const auto touched = [&](const std::function<void()> &what) {
    void *stack = mmap(nullptr, size, PROT_READ | PROT_WRITE, MAP_PRIVATE | MAP_ANONYMOUS, -1, 0);
    std::memset(stack, 0xa5, size);
    running = &what;
    ucontext_t here, there;
    getcontext(&there);
    there.uc_stack.ss_sp = stack;
    there.uc_stack.ss_size = size;
    there.uc_link = &here;
    makecontext(&there, [] { (*running)(); }, 0);
    swapcontext(&here, &there);
    const auto *bytes = static_cast<const std::uint8_t *>(stack);
    std::size_t untouched = 0;
    while (untouched < size && bytes[untouched] == 0xa5) ++untouched;
    munmap(stack, size);
    return size - untouched;
  };
  const std::size_t with = touched(call), without = touched([] {});
  return with > without ? with - without : 0;
}
