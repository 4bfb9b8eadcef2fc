// Does what `mrpc_bench apps` does, for bench/apps: a client stores messages of one number and sends a
// descriptor of each, a service copies each descriptor to a notice, and an echo takes the notices, copies each message
// into a tree of its own, places it into the next slice of its heap and sends a reply, which the service takes. Once its
// calls are done the client is told of the replies. Each of the two has one ring of calls and one of notices. No locks;
// every atomic step is sequentially consistent, and each end of a ring has its own count, as rings for one sender and one
// receiver do.
#include <atomic>
#include <cstdint>
#include <cstdio>
#include <cstdlib>
#include <memory>
#include <thread>
#include <vector>

#include "peer_ring.h"

namespace {

constexpr uint64_t kMessages = 256;
constexpr uint64_t kWords = 1024;
constexpr uint64_t kNodeWords = 2;
constexpr uint64_t kSlices = kCapacity + 2;
constexpr uint64_t kSliceWords = (kWords - 2) / kSlices;

void SendWaiting(Ring* ring, const Descriptor& descriptor) {
  while (!ring->Send(descriptor)) std::this_thread::yield();
}

Descriptor TakeWaiting(Ring* ring) {
  Descriptor descriptor;
  while (!ring->Take(&descriptor)) std::this_thread::yield();
  return descriptor;
}

struct Field {
  uint32_t number;
  uint64_t value;
};

// A message of its own: the fields that aren't 0.
struct Tree {
  std::vector<Field> fields;
};

using Words = std::atomic<uint64_t>;

struct Application {
  std::unique_ptr<Words[]> heap = std::make_unique<Words[]>(kWords);
  Ring calls;
  Ring notices;
};

void RunClient(Application* client, uint64_t count) {
  for (uint64_t number = 1; number <= count; ++number) {
    uint64_t place = 2 + kNodeWords * ((number - 1) % kMessages);
    client->heap[place].store(number);
    SendWaiting(&client->calls, Descriptor{1, 0, 0, place, number});
  }
  SendWaiting(&client->calls, kClosing);
  while (TakeWaiting(&client->notices).kind != 0) {
  }
}

// Copies the message at an address: its one field stands in the first of its two words.
std::unique_ptr<Tree> Copy(const Words* words, uint64_t addr) {
  if (addr < 1 || addr > kWords - kNodeWords) return nullptr;
  auto tree = std::make_unique<Tree>();
  uint64_t value = words[addr].load();
  if (value != 0) tree->fields.push_back({1, value});
  return tree;
}

// Places a message at an address, and says how many words were stored.
uint64_t Place(Words* words, const Tree& tree, uint64_t addr) {
  uint64_t value = tree.fields.size() == 1 ? tree.fields[0].value : 0;
  words[addr].store(value);
  return 1;
}

void RunEcho(Application* echo, const Words* requests) {
  uint64_t stores = 0, replies = 0;
  for (;;) {
    Descriptor notice = TakeWaiting(&echo->notices);
    if (notice.kind == 0) break;
    auto tree = Copy(requests, notice.addr);
    if (!tree) continue;
    uint64_t place = 2 + (replies % kSlices) * kSliceWords;
    stores += Place(echo->heap.get(), *tree, place);
    SendWaiting(&echo->calls, Descriptor{2, notice.method, notice.number, place, stores});
    ++replies;
  }
  SendWaiting(&echo->calls, kClosing);
}

struct Found {
  uint64_t replies = 0;
  uint64_t numbers = 0;
  bool closed = false;
};

// Takes a reply, if one waits.
void TakeReply(Ring* replies, Found* found) {
  Descriptor reply;
  if (!replies->Take(&reply)) {
    std::this_thread::yield();
  } else if (reply.kind == 0) {
    found->closed = true;
  } else {
    ++found->replies;
    found->numbers += reply.number;
  }
}

Found Serve(Application* client, Application* echo) {
  Found found;
  uint32_t number = 0;
  for (;;) {
    Descriptor call;
    if (!client->calls.Take(&call)) {
      TakeReply(&echo->calls, &found);
      continue;
    }
    if (call.kind != 0) call.number = ++number;
    while (!echo->notices.Send(call)) TakeReply(&echo->calls, &found);
    if (call.kind == 0) break;
  }
  while (!found.closed) TakeReply(&echo->calls, &found);
  for (uint64_t k = 0; k < found.replies; ++k) SendWaiting(&client->notices, Descriptor{2, 0, 1, 1, 0});
  SendWaiting(&client->notices, kClosing);
  return found;
}

}  // namespace

int main(int argc, char** argv) {
  if (argc != 2) return 1;
  uint64_t count = std::strtoull(argv[1], nullptr, 10);
  auto client = std::make_unique<Application>();
  auto echo = std::make_unique<Application>();
  std::thread calling([&] { RunClient(client.get(), count); });
  std::thread echoing([&] { RunEcho(echo.get(), client->heap.get()); });
  Found found = Serve(client.get(), echo.get());
  calling.join();
  echoing.join();
  std::printf("%llu %llu\n", static_cast<unsigned long long>(found.replies),
              static_cast<unsigned long long>(found.numbers));
}
