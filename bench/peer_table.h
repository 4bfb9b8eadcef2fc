// What the programs over protobuf's DynamicMessage share: the input read whole, the canonical text of a table made into
// message types, and bytes as hexadecimal digits.
#pragma once
#include <google/protobuf/descriptor.h>
#include <google/protobuf/descriptor.pb.h>
#include <google/protobuf/dynamic_message.h>
#include <google/protobuf/io/coded_stream.h>
#include <google/protobuf/io/zero_copy_stream_impl_lite.h>

#include <unistd.h>

#include <cstdint>
#include <cstdio>
#include <cstdlib>
#include <map>
#include <memory>
#include <sstream>
#include <string>
#include <vector>

namespace pb = google::protobuf;
using Proto = pb::FieldDescriptorProto;

[[noreturn]] static void fault(const char* what) {
  std::fprintf(stderr, "peer: %s\n", what);
  std::exit(2);
}

static const std::map<std::string, Proto::Type> kKinds = {
    {"int32", Proto::TYPE_INT32},       {"int64", Proto::TYPE_INT64},       {"uint32", Proto::TYPE_UINT32},
    {"uint64", Proto::TYPE_UINT64},     {"sint32", Proto::TYPE_SINT32},     {"sint64", Proto::TYPE_SINT64},
    {"bool", Proto::TYPE_BOOL},         {"fixed32", Proto::TYPE_FIXED32},   {"fixed64", Proto::TYPE_FIXED64},
    {"sfixed32", Proto::TYPE_SFIXED32}, {"sfixed64", Proto::TYPE_SFIXED64}, {"float", Proto::TYPE_FLOAT},
    {"double", Proto::TYPE_DOUBLE},     {"string", Proto::TYPE_STRING},     {"bytes", Proto::TYPE_BYTES}};

static void set_kind(Proto* field, const std::string& word) {
  if (word.rfind("message:", 0) == 0) {
    field->set_type(Proto::TYPE_MESSAGE);
    field->set_type_name("." + word.substr(8));
  } else if (word.rfind("enum:", 0) == 0) {
    field->set_type(Proto::TYPE_ENUM);
    field->set_type_name("." + word.substr(5));
  } else {
    field->set_type(kKinds.at(word));
  }
}

// Lays the fields of a canonical table line into a message.
static void add_field(pb::DescriptorProto* message, std::istringstream& words) {
  int number;
  std::string label, kind, name;
  words >> number >> label >> kind >> name;
  Proto* field = message->add_field();
  field->set_name(name);
  field->set_number(number);
  field->set_label(Proto::LABEL_OPTIONAL);
  if (label.rfind("map:", 0) == 0) {
    pb::DescriptorProto* entry = message->add_nested_type();
    std::string entry_name;
    bool upper = true;
    for (char c : name) {
      if (c == '_') { upper = true; continue; }
      entry_name += upper ? static_cast<char>(std::toupper(c)) : c;
      upper = false;
    }
    entry_name += "Entry";
    entry->set_name(entry_name);
    entry->mutable_options()->set_map_entry(true);
    Proto* key = entry->add_field();
    key->set_name("key");
    key->set_number(1);
    key->set_label(Proto::LABEL_OPTIONAL);
    set_kind(key, label.substr(4));
    Proto* value = entry->add_field();
    value->set_name("value");
    value->set_number(2);
    value->set_label(Proto::LABEL_OPTIONAL);
    set_kind(value, kind);
    field->set_label(Proto::LABEL_REPEATED);
    field->set_type(Proto::TYPE_MESSAGE);
    field->set_type_name("." + message->name() + "." + entry_name);
    return;
  }
  set_kind(field, kind);
  if (label == "packed" || label == "repeated") {
    field->set_label(Proto::LABEL_REPEATED);
    field->mutable_options()->set_packed(label == "packed");
  } else if (label == "optional") {
    field->set_proto3_optional(true);
    field->set_oneof_index(message->oneof_decl_size());
    message->add_oneof_decl()->set_name("_" + name);
  } else if (label.rfind("oneof:", 0) == 0) {
    const std::string group = label.substr(6);
    int index = 0;
    while (index < message->oneof_decl_size() && message->oneof_decl(index).name() != group) index++;
    if (index == message->oneof_decl_size()) message->add_oneof_decl()->set_name(group);
    field->set_oneof_index(index);
  } else if (label != "plain") {
    fault("a label");
  }
}


// All of standard input.
static std::string read_input() {
  std::string input;
  char buffer[65536];
  for (ssize_t n; (n = read(0, buffer, sizeof buffer)) > 0;) input.append(buffer, n);
  return input;
}

// The line that begins at a place, which moves behind its line feed.
static std::string next_line(const std::string& input, size_t& at) {
  size_t end = input.find('\n', at);
  if (end == std::string::npos) fault("a line without its line feed");
  std::string line = input.substr(at, end - at);
  at = end + 1;
  return line;
}

// What a table's lines name: message types in a file, and the input and the output of each method.
struct TableFile {
  struct Method {
    std::string input, output;
  };
  pb::FileDescriptorProto file;
  std::vector<Method> methods;
};

// Reads the lines of a table up to `end`.
static TableFile read_table(const std::string& input, size_t& at) {
  TableFile table;
  table.file.set_name("table.proto");
  table.file.set_syntax("proto3");
  pb::DescriptorProto* message = nullptr;
  pb::EnumDescriptorProto* choices = nullptr;
  for (std::string text; (text = next_line(input, at)) != "end";) {
    std::istringstream words(text);
    std::string first, name;
    words >> first;
    if (first == "message") {
      words >> name;
      message = table.file.add_message_type();
      message->set_name(name);
    } else if (first == "field") {
      add_field(message, words);
    } else if (first == "enum") {
      words >> name;
      choices = table.file.add_enum_type();
      choices->set_name(name);
    } else if (first == "value") {
      int number;
      words >> number >> name;
      pb::EnumValueDescriptorProto* value = choices->add_value();
      value->set_number(number);
      value->set_name(name);
    } else if (first == "method") {
      std::string index, service;
      TableFile::Method method;
      words >> index >> service >> name >> method.input >> method.output;
      table.methods.push_back(method);
    } else {
      fault("a line of the table");
    }
  }
  return table;
}

// The message types of a table.
class Types {
 public:
  // Reads the lines of a table up to `end`.
  Types(const std::string& input, size_t& at) : factory_(&pool_) {
    const TableFile table = read_table(input, at);
    if (!pool_.BuildFile(table.file)) fault("the table");
    for (const TableFile::Method& method : table.methods) {
      types_[0].push_back(factory_.GetPrototype(pool_.FindMessageTypeByName(method.input)));
      types_[1].push_back(factory_.GetPrototype(pool_.FindMessageTypeByName(method.output)));
    }
  }

  size_t methods() const { return types_[0].size(); }

  // An empty message of a method: of its input for a request, of its output for a reply.
  std::unique_ptr<pb::Message> message(size_t method, bool reply) const {
    return std::unique_ptr<pb::Message>(types_[reply][method]->New());
  }

 private:
  pb::DescriptorPool pool_;
  pb::DynamicMessageFactory factory_;
  std::vector<const pb::Message*> types_[2];
};

// The deterministic serialization of a message.
static void serialize(const pb::Message& message, std::string& bytes) {
  bytes.clear();
  pb::io::StringOutputStream stream(&bytes);
  pb::io::CodedOutputStream coded(&stream);
  coded.SetSerializationDeterministic(true);
  message.SerializeToCodedStream(&coded);
}

// Writes what was gathered.
static void flush(std::string& out, FILE* file) {
  if (std::fwrite(out.data(), 1, out.size(), file) != out.size() || std::fflush(file) != 0) fault("a write");
  out.clear();
}
