// Does over plain sockets what `mrpc run` does with four clients and four echoes, for bench/run: each client and each
// echo is a thread, with a connection over the loopback interface between the two. A client sends so many requests, at
// most so many of them under way at once, and the echo answers each. Frames have the sizes that mRPC's have: 16 bytes
// ahead of a message of one number, which takes two bytes, or none where the number is 0. Each frame is a write of its
// own, as mRPC's are, and goes out at once.
#include <netinet/in.h>
#include <netinet/tcp.h>
#include <sys/socket.h>
#include <unistd.h>

#include <cstdint>
#include <cstdio>
#include <cstdlib>
#include <cstring>
#include <thread>
#include <vector>

namespace {

constexpr int kClients = 4;
constexpr size_t kHeader = 16;
constexpr size_t kMost = kHeader + 2;
constexpr uint8_t kField = 0x08;

void Must(bool done) {
  if (!done) std::exit(1);
}

void WriteFrame(int socket, uint64_t number, uint8_t value) {
  uint8_t frame[kMost] = {};
  const uint64_t size = value == 0 ? 0 : 2;
  std::memcpy(frame, &size, sizeof size);
  std::memcpy(frame + 8, &number, sizeof number);
  frame[kHeader] = kField;
  frame[kHeader + 1] = value;
  const size_t whole = kHeader + size;
  Must(write(socket, frame, whole) == static_cast<ssize_t>(whole));
}

// What comes from a socket, as frames.
class Reader {
 public:
  explicit Reader(int socket) : socket_(socket), bytes_(1 << 16) {}

  // Reads once, and hands over each frame that is whole. False at the end of the stream.
  template <typename Take>
  bool Read(Take take) {
    const ssize_t got = read(socket_, bytes_.data() + held_, bytes_.size() - held_);
    Must(got >= 0);
    held_ += static_cast<size_t>(got);
    size_t at = 0;
    while (held_ - at >= kHeader) {
      uint64_t size, number;
      std::memcpy(&size, &bytes_[at], sizeof size);
      std::memcpy(&number, &bytes_[at + 8], sizeof number);
      if (held_ - at < kHeader + size) break;
      take(number, size == 0 ? uint8_t{0} : bytes_[at + kHeader + 1]);
      at += kHeader + size;
    }
    held_ -= at;
    std::memmove(bytes_.data(), bytes_.data() + at, held_);
    return got > 0;
  }

 private:
  const int socket_;
  std::vector<uint8_t> bytes_;
  size_t held_ = 0;
};

void Echo(int socket) {
  Reader reader(socket);
  while (reader.Read([&](uint64_t number, uint8_t value) { WriteFrame(socket, number, value); })) {
  }
}

void Call(int socket, uint64_t count, uint64_t under_way, uint64_t* sum) {
  Reader reader(socket);
  uint64_t begun = 0, back = 0;
  auto next = [&] {
    if (begun == count) return;
    ++begun;
    WriteFrame(socket, begun, static_cast<uint8_t>(begun % 100));
  };
  for (uint64_t k = 0; k < under_way; ++k) next();
  while (back < count) {
    const bool open = reader.Read([&](uint64_t, uint8_t value) {
      *sum += value;
      ++back;
      next();
    });
    Must(open);
  }
  Must(shutdown(socket, SHUT_WR) == 0);
}

// The two ends of a new connection.
void Connect(int ends[2]) {
  const int listener = socket(AF_INET, SOCK_STREAM, 0);
  sockaddr_in address = {};
  address.sin_family = AF_INET;
  address.sin_addr.s_addr = htonl(INADDR_LOOPBACK);
  socklen_t length = sizeof address;
  auto* name = reinterpret_cast<sockaddr*>(&address);
  Must(bind(listener, name, length) == 0 && listen(listener, 1) == 0 && getsockname(listener, name, &length) == 0);
  ends[0] = socket(AF_INET, SOCK_STREAM, 0);
  Must(connect(ends[0], name, length) == 0);
  ends[1] = accept(listener, nullptr, nullptr);
  Must(ends[1] >= 0);
  close(listener);
  const int on = 1;
  for (int end = 0; end < 2; ++end) Must(setsockopt(ends[end], IPPROTO_TCP, TCP_NODELAY, &on, sizeof on) == 0);
}

}  // namespace

int main(int words, char** word) {
  if (words != 3) return 2;
  const uint64_t count = std::strtoull(word[1], nullptr, 10);
  const uint64_t under_way = std::strtoull(word[2], nullptr, 10);
  uint64_t sums[kClients] = {};
  std::vector<std::thread> threads;
  for (uint64_t& sum : sums) {
    int ends[2];
    Connect(ends);
    threads.emplace_back(Call, ends[0], count, under_way, &sum);
    threads.emplace_back(Echo, ends[1]);
  }
  for (auto& thread : threads) thread.join();
  uint64_t all = 0;
  for (uint64_t sum : sums) all += sum;
  std::printf("%llu\n", static_cast<unsigned long long>(all));
}
