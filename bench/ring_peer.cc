// Does what `mrpc_bench ring` does, for bench/ring: a thread stores messages of one number and sends a
// descriptor of each through a ring, and another takes the descriptors, copies each message into a tree of its own and
// adds the numbers up. No locks; every atomic step is sequentially consistent, and each end has its own count, as rings
// for one sender and one receiver do.
#include <atomic>
#include <cstdint>
#include <cstdio>
#include <cstdlib>
#include <memory>
#include <thread>
#include <vector>

#include "peer_ring.h"

namespace {

constexpr uint64_t kMessages = 128;
constexpr uint64_t kWords = 258;
constexpr uint64_t kNodeWords = 2;

struct Field {
  uint32_t number;
  uint64_t value;
};

// A message of its own: the fields that aren't 0.
struct Tree {
  std::vector<Field> fields;
};

struct Passed {
  uint64_t count = 0;
  uint64_t sum = 0;
};

// Copies the message at an address: its one field stands in the first of its two words.
std::unique_ptr<Tree> Copy(const std::atomic<uint64_t>* words, uint64_t addr) {
  if (addr < 1 || addr > kWords - kNodeWords) return nullptr;
  auto tree = std::make_unique<Tree>();
  uint64_t value = words[addr].load();
  if (value != 0) tree->fields.push_back({1, value});
  return tree;
}

uint64_t NumberIn(const Tree& tree) {
  return tree.fields.size() == 1 ? tree.fields[0].value : 0;
}

void WriteAll(uint64_t count, std::atomic<uint64_t>* words, Ring* ring) {
  for (uint64_t number = 1; number <= count; ++number) {
    uint64_t place = 2 + kNodeWords * (number % kMessages);
    words[place].store(number);
    Descriptor descriptor{1, 0, 0, place, number};
    while (!ring->Send(descriptor)) std::this_thread::yield();
  }
  while (!ring->Send(kClosing)) std::this_thread::yield();
}

Passed ReadAll(std::atomic<uint64_t>* words, Ring* ring) {
  Passed passed;
  Descriptor descriptor;
  for (;;) {
    if (!ring->Take(&descriptor)) {
      std::this_thread::yield();
      continue;
    }
    if (descriptor.kind == 0) return passed;
    auto tree = Copy(words, descriptor.addr);
    if (tree) passed.sum += NumberIn(*tree);
    passed.count += 1;
  }
}

}  // namespace

int main(int argc, char** argv) {
  if (argc != 2) return 1;
  uint64_t count = std::strtoull(argv[1], nullptr, 10);
  auto words = std::make_unique<std::atomic<uint64_t>[]>(kWords);
  auto ring = std::make_unique<Ring>();
  Passed passed;
  std::thread reader([&] { passed = ReadAll(words.get(), ring.get()); });
  WriteAll(count, words.get(), ring.get());
  reader.join();
  std::printf("%llu %llu\n", static_cast<unsigned long long>(passed.count), static_cast<unsigned long long>(passed.sum));
}
