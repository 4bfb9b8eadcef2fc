// The whole job of `mrpc decode` with protobuf's DynamicMessage: reads the table text and the frames from standard
// input, parses each payload, serializes it deterministically, and prints the same lines. It expects input without a
// fault, and stops with status 2 at one. bench/decode builds it, and compares what the two programs print.
#include "decode_lines.h"

int main() {
  const std::string input = read_input();
  size_t at = 0;
  if (next_line(input, at) != "mrpc-decode 1" || next_line(input, at) != "table") fault("the head");
  const Types types(input, at);

  std::string out, bytes;
  while (at < input.size()) {
    const Head head = read_head(input, at, types.methods());
    std::unique_ptr<pb::Message> tree = types.message(head.method, head.kind == 2);
    if (!tree->ParseFromArray(input.data() + at, static_cast<int>(head.length))) fault("a payload");
    at += head.length;
    serialize(*tree, bytes);
    append_head(out, head);
    append_hex(out, bytes.data(), bytes.size());
    out += '\n';
    if (out.size() >= 65536) flush(out, stdout);
  }
  flush(out, stdout);
  return 0;
}
