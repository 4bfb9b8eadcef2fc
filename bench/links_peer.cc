// Does what `mrpc_bench links` does, for bench/links: a thread hands frames over to a queue, and another
// passes them on to a list in memory. The queue is a std::deque under a mutex, with a condition variable for either
// side, as libraries for remote calls have it.
#include <condition_variable>
#include <cstdint>
#include <cstdio>
#include <cstdlib>
#include <cstring>
#include <deque>
#include <mutex>
#include <thread>
#include <utility>
#include <vector>

namespace {

constexpr size_t kCapacity = 64;
constexpr size_t kBytes = 64;

using Frame = std::vector<uint8_t>;

class Queue {
 public:
  void Send(const uint8_t* bytes, size_t count) {
    Frame frame(bytes, bytes + count);
    std::unique_lock<std::mutex> lock(mutex_);
    room_.wait(lock, [this] { return frames_.size() < kCapacity; });
    frames_.push_back(std::move(frame));
    waits_.notify_one();
  }

  void Close() {
    std::unique_lock<std::mutex> lock(mutex_);
    closed_ = true;
    waits_.notify_one();
  }

  // False once the queue was closed and is empty.
  bool Take(Frame* frame) {
    std::unique_lock<std::mutex> lock(mutex_);
    waits_.wait(lock, [this] { return closed_ || !frames_.empty(); });
    if (frames_.empty()) return false;
    *frame = std::move(frames_.front());
    frames_.pop_front();
    room_.notify_one();
    return true;
  }

 private:
  std::mutex mutex_;
  std::condition_variable room_;
  std::condition_variable waits_;
  std::deque<Frame> frames_;
  bool closed_ = false;
};

// Keeps a copy of each frame, as the link in memory does.
void PassOn(Queue* queue, std::vector<Frame>* handed) {
  Frame frame;
  while (queue->Take(&frame)) handed->push_back(Frame(frame.begin(), frame.end()));
}

void SendAll(Queue* queue, uint32_t count) {
  uint8_t frame[kBytes] = {0};
  for (uint32_t number = 0; number < count; ++number) {
    std::memcpy(frame, &number, sizeof number);
    queue->Send(frame, kBytes);
  }
  queue->Close();
}

}  // namespace

int main(int argc, char** argv) {
  if (argc != 2) return 1;
  uint32_t count = static_cast<uint32_t>(std::strtoul(argv[1], nullptr, 10));
  Queue queue;
  std::vector<Frame> handed;
  std::thread writer([&] { PassOn(&queue, &handed); });
  SendAll(&queue, count);
  writer.join();
  unsigned long long sum = 0;
  for (const Frame& frame : handed) sum += frame[0];
  std::printf("%zu %llu\n", handed.size(), sum);
}
