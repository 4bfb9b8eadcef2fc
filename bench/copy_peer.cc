// The whole job of `mrpc replay` with protobuf's DynamicMessage: reads a script from standard input, walks the words of
// each submission into a message by reflection, serializes it deterministically, prints the same audit, and writes the
// frames into `peer.wire`. It expects a script without a fault and graphs that are sound, and stops with status 2
// elsewhere. bench/copy builds it, and compares what the two programs write.
#include "peer_graph.h"

#include <cinttypes>

struct Call {
  uint32_t seq, number;
  unsigned method;
  std::string payload;
};

static uint64_t value_of(const char* word) {
  return word[0] == '-' ? -std::strtoull(word + 1, nullptr, 10)
                        : std::strtoull(word, nullptr, word[0] == '0' && word[1] == 'x' ? 16 : 10);
}

int main() {
  const std::string input = read_input();
  size_t at = 0;
  Heap heap;
  if (next_line(input, at) != "mrpc-replay 1") fault("the head");
  std::string line = next_line(input, at);
  if (line.rfind("loads ", 0) == 0) {
    heap.limit = std::strtoull(line.c_str() + 6, nullptr, 10);
    line = next_line(input, at);
  }
  if (line != "table") fault("the head");
  const Types types(input, at);

  std::string out, wire, bytes;
  std::vector<Call> standing;
  uint32_t conn = 0, taken = 0;
  FILE* frames = std::fopen("peer.wire", "wb");
  if (frames == nullptr) fault("peer.wire");
  char head[160];
  while ((line = next_line(input, at)) != "close") {
    char value[32];
    uint64_t place, load, addr;
    unsigned method, number = 0, words;
    if (std::sscanf(line.c_str(), "store %*u %" SCNu64 " %31s", &place, value) == 2) {
      heap.store(place, value_of(value));
    } else if (std::sscanf(line.c_str(), "race %*u %" SCNu64 " %" SCNu64 " %31s", &load, &place, value) == 3) {
      size_t behind = heap.races.size();
      while (behind > 0 && heap.races[behind - 1].load > load) behind--;
      heap.races.insert(heap.races.begin() + behind, Race{load, place, value_of(value)});
    } else if (std::sscanf(line.c_str(), "submit %*u %u %" SCNu64 " %u", &method, &addr, &number) >= 2) {
      uint64_t after = heap.stores;
      if (method >= types.methods()) fault("a method");
      std::unique_ptr<pb::Message> message = types.message(method, number != 0);
      heap.span(addr, node_words(message->GetDescriptor()));
      node(heap, message.get(), addr, 1);
      uint64_t loads = heap.loads;
      heap.finish();
      serialize(*message, bytes);
      taken++;
      out.append(head, std::snprintf(head, sizeof head, "took %u %u %u %u %" PRIu64 " %" PRIu64 " %" PRIu64 " copy ", conn,
                                     taken, method, number, addr, after, loads));
      append_hex(out, bytes);
      out += '\n';
      standing.push_back(Call{taken, number, method, bytes});
    } else if (std::sscanf(line.c_str(), "conn %u %u", &conn, &words) == 2) {
      heap.words.assign(words, 0);
    } else if (line.rfind("drain ", 0) == 0) {
      for (const Call& call : standing) {
        put_big(wire, static_cast<uint32_t>(call.payload.size()), 4);
        wire += call.number == 0 ? '\1' : '\2';
        wire += '\1';
        put_big(wire, call.method, 2);
        put_big(wire, conn, 4);
        put_big(wire, call.number == 0 ? call.seq : call.number, 4);
        wire += call.payload;
        out.append(head, std::snprintf(head, sizeof head, "sent %u %u %zu\n", conn, call.seq, 16 + call.payload.size()));
      }
      standing.clear();
    } else if (!line.empty() && line[0] != '#') {
      fault("a line");
    }
    if (out.size() >= 65536) flush(out, stdout);
    if (wire.size() >= 65536) flush(wire, frames);
  }
  for (const Call& call : standing) out.append(head, std::snprintf(head, sizeof head, "stands %u %u 0 -\n", conn, call.seq));
  flush(out, stdout);
  flush(wire, frames);
  return 0;
}
