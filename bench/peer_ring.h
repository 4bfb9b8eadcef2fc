// What the C++ programs beside the benches of rings share: a ring of descriptors for one sender and one receiver. No
// locks; every atomic step is sequentially consistent, and each end has its own count.
#pragma once
#include <atomic>
#include <cstdint>

constexpr uint64_t kCapacity = 64;

struct Descriptor {
  uint8_t kind;
  uint16_t method;
  uint32_t number;
  uint64_t addr;
  uint64_t stores;
};

const Descriptor kClosing{0, 0, 0, 0, 0};

class Ring {
 public:
  bool Send(const Descriptor& descriptor) {
    uint64_t tail = tail_.load();
    if (tail - head_.load() == kCapacity) return false;
    slots_[tail % kCapacity] = descriptor;
    tail_.store(tail + 1);
    return true;
  }

  bool Take(Descriptor* descriptor) {
    uint64_t head = head_.load();
    if (head == tail_.load()) return false;
    *descriptor = slots_[head % kCapacity];
    head_.store(head + 1);
    return true;
  }

 private:
  alignas(128) std::atomic<uint64_t> tail_{0};
  alignas(128) std::atomic<uint64_t> head_{0};
  alignas(128) Descriptor slots_[kCapacity];
};
