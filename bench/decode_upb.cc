// The whole job of `mrpc decode` with upb, protobuf's codec over tables: the same as decode_peer.cc, with tables made at
// run time, and each message in an arena whose memory is used again. As there, a message owns its strings. bench/decode
// builds it beside the other, and compares what all print.
#include "decode_lines.h"
#include "ruby-upb.h"

// The message types of a table's file. They last as long as the program.
static upb_DefPool* make_types(const pb::FileDescriptorProto& file) {
  const std::string bytes = file.SerializeAsString();
  google_protobuf_FileDescriptorProto* parsed =
      google_protobuf_FileDescriptorProto_parse(bytes.data(), bytes.size(), upb_Arena_New());
  upb_DefPool* pool = upb_DefPool_New();
  upb_Status status;
  upb_Status_Clear(&status);
  if (!parsed || !upb_DefPool_AddFile(pool, parsed, &status)) fault("the table");
  return pool;
}

int main() {
  const std::string input = read_input();
  size_t at = 0;
  if (next_line(input, at) != "mrpc-decode 1" || next_line(input, at) != "table") fault("the head");
  const TableFile table = read_table(input, at);
  upb_DefPool* pool = make_types(table.file);
  std::vector<const upb_MiniTable*> types[2];
  for (const TableFile::Method& method : table.methods) {
    types[0].push_back(upb_MessageDef_MiniTable(upb_DefPool_FindMessageByName(pool, method.input.c_str())));
    types[1].push_back(upb_MessageDef_MiniTable(upb_DefPool_FindMessageByName(pool, method.output.c_str())));
  }

  std::string out;
  std::vector<char> room(65536);
  while (at < input.size()) {
    const Head head = read_head(input, at, table.methods.size());
    const upb_MiniTable* type = types[head.kind == 2][head.method];
    upb_Arena* arena = upb_Arena_Init(room.data(), room.size(), &upb_alloc_global);
    upb_Message* tree = _upb_Message_New(type, arena);
    if (upb_Decode(input.data() + at, head.length, tree, type, nullptr, 0, arena) !=
        kUpb_DecodeStatus_Ok) {
      fault("a payload");
    }
    at += head.length;
    size_t size;
    const char* bytes = upb_Encode(tree, type, kUpb_Encode_Deterministic | kUpb_Encode_SkipUnknown, arena, &size);
    if (!bytes) fault("an encoding");
    append_head(out, head);
    append_hex(out, bytes, size);
    out += '\n';
    upb_Arena_Free(arena);
    if (out.size() >= 65536) flush(out, stdout);
  }
  flush(out, stdout);
  return 0;
}
