// What the programs over protobuf's DynamicMessage that take messages from the words of heaps share: a heap with stores
// that race with its loads, and a message that is walked into by reflection.
#pragma once
#include "peer_table.h"

using Field = pb::FieldDescriptor;
using Kind = pb::FieldDescriptor::CppType;

struct Race {
  uint64_t load, place, value;
};

// A heap, as one submission after another loads it.
struct Heap {
  std::vector<uint64_t> words;
  std::vector<Race> races;
  uint64_t stores = 0, loads = 0, limit = 1024;
  size_t raced = 0;

  void store(uint64_t place, uint64_t value) {
    words[place] = value;
    stores++;
  }

  uint64_t load(uint64_t place) {
    if (loads == limit) fault("more loads than the limit");
    loads++;
    for (; raced < races.size() && races[raced].load <= loads; raced++) store(races[raced].place, races[raced].value);
    return words[place];
  }

  // A span that lies in the heap, or a fault.
  uint64_t span(uint64_t place, uint64_t length) const {
    if (place < 1 || place >= words.size() || length > words.size() - place) fault("an address");
    return place;
  }

  void finish() {
    for (; raced < races.size(); raced++) store(races[raced].place, races[raced].value);
    races.clear();
    raced = 0;
    loads = 0;
  }
};

static uint64_t node_words(const pb::Descriptor* type) {
  uint64_t words = 3 * static_cast<uint64_t>(type->real_oneof_decl_count());
  for (int i = 0; i < type->field_count(); i++) words += type->field(i)->real_containing_oneof() ? 0 : 2;
  return words;
}

static std::string run(Heap& heap, uint64_t at, uint64_t length) {
  std::string bytes;
  uint64_t words = (length + 7) / 8;
  at = heap.span(at, words);
  bytes.reserve(words * 8);
  for (uint64_t i = 0; i < words; i++) {
    uint64_t word = heap.load(at + i);
    for (int k = 0; k < 64; k += 8) bytes += static_cast<char>(word >> k);
  }
  bytes.resize(length);
  return bytes;
}

static void node(Heap& heap, pb::Message* message, uint64_t at, int depth);

static void set_number(pb::Message* message, const Field* field, uint64_t word, bool add) {
  const pb::Reflection* r = message->GetReflection();
  switch (field->cpp_type()) {
    case Kind::CPPTYPE_INT32: add ? r->AddInt32(message, field, word) : r->SetInt32(message, field, word); break;
    case Kind::CPPTYPE_INT64: add ? r->AddInt64(message, field, word) : r->SetInt64(message, field, word); break;
    case Kind::CPPTYPE_UINT32: add ? r->AddUInt32(message, field, word) : r->SetUInt32(message, field, word); break;
    case Kind::CPPTYPE_UINT64: add ? r->AddUInt64(message, field, word) : r->SetUInt64(message, field, word); break;
    case Kind::CPPTYPE_BOOL: add ? r->AddBool(message, field, word != 0) : r->SetBool(message, field, word != 0); break;
    case Kind::CPPTYPE_ENUM:
      add ? r->AddEnumValue(message, field, word) : r->SetEnumValue(message, field, word);
      break;
    case Kind::CPPTYPE_FLOAT: {
      float number;
      uint32_t bits = static_cast<uint32_t>(word);
      __builtin_memcpy(&number, &bits, sizeof number);
      add ? r->AddFloat(message, field, number) : r->SetFloat(message, field, number);
      break;
    }
    case Kind::CPPTYPE_DOUBLE: {
      double number;
      __builtin_memcpy(&number, &word, sizeof number);
      add ? r->AddDouble(message, field, number) : r->SetDouble(message, field, number);
      break;
    }
    default: fault("a kind");
  }
}

// The value of a plain slot, whose first word stands at a place; `must` where a message must be there.
static void plain(Heap& heap, pb::Message* message, const Field* field, uint64_t at, int depth, bool add, bool must) {
  const pb::Reflection* r = message->GetReflection();
  uint64_t word = heap.load(at);
  if (field->cpp_type() == Kind::CPPTYPE_STRING) {
    std::string bytes = word == 0 ? std::string() : run(heap, heap.load(at + 1), word);
    add ? r->AddString(message, field, std::move(bytes)) : r->SetString(message, field, std::move(bytes));
  } else if (field->cpp_type() == Kind::CPPTYPE_MESSAGE) {
    if (word == 0 && !must) return;
    if (depth == 32) fault("depth");
    heap.span(word, node_words(field->message_type()));
    node(heap, add ? r->AddMessage(message, field) : r->MutableMessage(message, field), word, depth + 1);
  } else {
    set_number(message, field, word, add);
  }
}

static void slot(Heap& heap, pb::Message* message, const Field* field, uint64_t at, int depth) {
  const pb::Reflection* r = message->GetReflection();
  if (field->is_map()) {
    uint64_t count = heap.load(at);
    if (count == 0) return;
    if (count > heap.words.size() / 4) fault("a count");
    uint64_t entry = heap.span(heap.load(at + 1), 4 * count);
    const Field* key = field->message_type()->map_key();
    const Field* value = field->message_type()->map_value();
    for (; count > 0; count--, entry += 4) {
      pb::Message* pair = r->AddMessage(message, field);
      plain(heap, pair, key, entry, depth, false, true);
      plain(heap, pair, value, entry + 2, depth, false, true);
    }
  } else if (field->is_repeated()) {
    uint64_t count = heap.load(at);
    if (count == 0) return;
    uint64_t each = field->cpp_type() == Kind::CPPTYPE_STRING ? 2 : 1;
    if (count > heap.words.size() / each) fault("a count");
    uint64_t element = heap.span(heap.load(at + 1), each * count);
    for (; count > 0; count--, element += each) plain(heap, message, field, element, depth, true, true);
  } else if (field->has_optional_keyword()) {
    uint64_t word = heap.load(at);
    if (word == 0) return;
    if (field->cpp_type() == Kind::CPPTYPE_STRING) {
      r->SetString(message, field, word == 1 ? std::string() : run(heap, heap.load(at + 1), word - 1));
    } else {
      set_number(message, field, heap.load(at + 1), false);
    }
  } else {
    plain(heap, message, field, at, depth, false, false);
  }
}

static void node(Heap& heap, pb::Message* message, uint64_t at, int depth) {
  const pb::Descriptor* type = message->GetDescriptor();
  for (int i = 0; i < type->field_count(); i++) {
    if (type->field(i)->real_containing_oneof()) continue;
    slot(heap, message, type->field(i), at, depth);
    at += 2;
  }
  for (int i = 0; i < type->real_oneof_decl_count(); i++, at += 3) {
    uint64_t number = heap.load(at);
    if (number == 0) continue;
    const Field* member = number < (1u << 29) ? type->FindFieldByNumber(static_cast<int>(number)) : nullptr;
    if (member == nullptr || member->real_containing_oneof() != type->oneof_decl(i)) fault("a case");
    plain(heap, message, member, at + 1, depth, false, true);
  }
}

// Lower-case hexadecimal digits, or `-` where there is no byte.
static void append_hex(std::string& out, const std::string& bytes) {
  static const char digits[] = "0123456789abcdef";
  if (bytes.empty()) out += '-';
  for (char c : bytes) {
    out += digits[static_cast<unsigned char>(c) >> 4];
    out += digits[c & 15];
  }
}

static void put_big(std::string& out, uint32_t number, int count) {
  for (int shift = 8 * (count - 1); shift >= 0; shift -= 8) out += static_cast<char>(number >> shift);
}
