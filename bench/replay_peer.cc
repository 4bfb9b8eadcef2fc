// The whole job of `mrpc replay` with protobuf's DynamicMessage: reads a script from standard input, keeps for each
// connection a heap and a chain of engines with a std::deque of calls for each, takes messages from the words by
// reflection, judges and clears them by reflection, serializes them deterministically, prints the same audit, and
// writes the frames into `peer.wire`. It expects a script without a fault and graphs that are sound, and stops with
// status 2 elsewhere. bench/replay builds it, and compares what the two programs write.
#include "peer_graph.h"

#include <charconv>
#include <cstring>
#include <deque>
#include <string_view>

using View = std::string_view;

// ---- words and numbers

// The words of a line, up to ten; a last one goes on to the end of the line.
struct Words {
  View at[10];
  int count = 0;

  explicit Words(View line) {
    while (count < 10) {
      const size_t end = count < 9 ? line.find(' ') : View::npos;
      at[count++] = line.substr(0, end);
      if (end == View::npos) return;
      line.remove_prefix(end + 1);
    }
  }
};

static uint64_t number_of(View word) {
  const bool minus = !word.empty() && word[0] == '-';
  const bool hex = word.size() > 2 && word[1] == 'x';
  uint64_t number = 0;
  const char* begin = word.data() + (minus ? 1 : hex ? 2 : 0);
  const auto read = std::from_chars(begin, word.data() + word.size(), number, hex ? 16 : 10);
  if (read.ec != std::errc() || read.ptr != word.data() + word.size()) fault("a number");
  return minus ? -number : number;
}

static void put(std::string& out, View word) { out.append(word.data(), word.size()); }

static void put(std::string& out, uint64_t number) {
  char digits[20];
  out.append(digits, std::to_chars(digits, digits + sizeof digits, number).ptr);
}

// A line of words and numbers.
template <typename First, typename... Rest>
static void line(std::string& out, First first, Rest... rest) {
  put(out, first);
  ((out += ' ', put(out, rest)), ...);
  out += '\n';
}

// ---- policies

struct Rule {
  std::string name;
  bool allow;
  int method = -1;
  bool reply = false;
  std::vector<const Field*> path;
  enum Test { kAlways, kEqual, kOther, kLess, kGreater, kStarts, kPresent } test = kAlways;
  uint64_t number = 0;
  std::string text;
};

struct Clear {
  size_t method;
  bool reply;
  std::vector<const Field*> path;
};

struct Policy {
  enum Sort { kAccess, kRate, kQuota, kCount, kRedact } sort;
  std::vector<Rule> rules;
  bool allow = true;
  uint64_t amount = 0, per = 0, burst = 0, cap = 0;
  bool hold = false;
  size_t tenant = 0;
  std::vector<Clear> clears;
};

struct Tenant {
  std::string name;
  uint64_t per;
  std::vector<uint64_t> drawn = std::vector<uint64_t>(1024, 0);
};

static std::vector<const Field*> path_of(const pb::Descriptor* type, View word) {
  std::vector<const Field*> path;
  for (;;) {
    const size_t dot = word.find('.');
    const Field* field = type->FindFieldByNumber(static_cast<int>(number_of(word.substr(0, dot))));
    if (field == nullptr) fault("a path");
    path.push_back(field);
    if (dot == View::npos) return path;
    word.remove_prefix(dot + 1);
    type = field->message_type();
    if (type == nullptr) fault("a path");
  }
}

// The message that has the last field of a path, where all messages on the way are set.
static const pb::Message* holder_of(const pb::Message& root, const std::vector<const Field*>& path) {
  const pb::Message* message = &root;
  for (size_t i = 0; i + 1 < path.size(); i++) {
    const pb::Reflection* r = message->GetReflection();
    if (!r->HasField(*message, path[i])) return nullptr;
    message = &r->GetMessage(*message, path[i]);
  }
  return message;
}

static bool is_set(const pb::Message& message, const Field* field) {
  const pb::Reflection* r = message.GetReflection();
  return field->is_repeated() ? r->FieldSize(message, field) > 0 : r->HasField(message, field);
}

template <typename Number>
static bool compares(Rule::Test test, Number a, Number b) {
  switch (test) {
    case Rule::kEqual: return a == b;
    case Rule::kOther: return a != b;
    case Rule::kLess: return a < b;
    case Rule::kGreater: return a > b;
    default: fault("a test");
  }
}

static bool holds(const Rule& rule, const pb::Message& root) {
  const pb::Message* message = holder_of(root, rule.path);
  if (message == nullptr) return false;
  const pb::Reflection* r = message->GetReflection();
  const Field* field = rule.path.back();
  if (rule.test == Rule::kPresent) return is_set(*message, field);
  if (field->has_presence() && !r->HasField(*message, field)) return false;
  switch (field->cpp_type()) {
    case Kind::CPPTYPE_INT32: return compares<int64_t>(rule.test, r->GetInt32(*message, field), rule.number);
    case Kind::CPPTYPE_INT64: return compares<int64_t>(rule.test, r->GetInt64(*message, field), rule.number);
    case Kind::CPPTYPE_UINT32: return compares<uint64_t>(rule.test, r->GetUInt32(*message, field), rule.number);
    case Kind::CPPTYPE_UINT64: return compares<uint64_t>(rule.test, r->GetUInt64(*message, field), rule.number);
    case Kind::CPPTYPE_BOOL: return compares<uint64_t>(rule.test, r->GetBool(*message, field), rule.number);
    case Kind::CPPTYPE_ENUM: return compares<int64_t>(rule.test, r->GetEnumValue(*message, field), rule.number);
    case Kind::CPPTYPE_STRING: {
      std::string scratch;
      const std::string& text = r->GetStringReference(*message, field, &scratch);
      if (rule.test == Rule::kStarts) return text.compare(0, rule.text.size(), rule.text) == 0;
      return (text == rule.text) == (rule.test == Rule::kEqual);
    }
    default: fault("a kind");
  }
}

// Clears fields of a message. Answers whether one was set.
static bool clears(const Policy& policy, pb::Message& root, size_t method, bool reply) {
  bool changed = false;
  for (const Clear& clear : policy.clears) {
    if (clear.method != method || clear.reply != reply) continue;
    auto* message = const_cast<pb::Message*>(holder_of(root, clear.path));
    if (message == nullptr || !is_set(*message, clear.path.back())) continue;
    message->GetReflection()->ClearField(message, clear.path.back());
    changed = true;
  }
  return changed;
}

// ---- calls and engines

// What a call keeps of an engine that it met: the attachment, the version that allowed it, or its ticket.
struct Mark {
  uint32_t attach;
  uint64_t value;
};

struct Call {
  uint32_t seq, number;
  size_t method;
  std::unique_ptr<pb::Message> form;
  // The serialization of the form.
  std::string payload;
  std::vector<Mark> marks;

  Mark* mark_of(uint32_t attach) {
    for (Mark& mark : marks) {
      if (mark.attach == attach) return &mark;
    }
    return nullptr;
  }

  void mark(uint32_t attach, uint64_t value) {
    if (Mark* mark = mark_of(attach)) {
      mark->value = value;
    } else {
      marks.push_back(Mark{attach, value});
    }
  }
};

using Queue = std::deque<std::unique_ptr<Call>>;

struct Engine {
  std::string name;
  uint32_t attach, version;
  const Policy* policy;
  uint64_t level;
  Queue calls;
};

// ---- connections

// What all connections write to, and draw from.
struct Shared {
  std::string out, wire;
  std::vector<Tenant> tenants;
};

class Connection {
 public:
  Connection(Shared& shared, const Types& types, uint32_t number, uint64_t words, uint64_t limit)
      : shared_(shared), types_(types), conn_(number) {
    heap_.words.assign(words, 0);
    heap_.limit = limit;
  }

  Heap& heap() { return heap_; }

  // ---- steps of an operator

  void attach(size_t at, View name, const Policy* policy, View label) {
    if (at > engines_.size() || engines_.size() == 8) fault("a position");
    auto engine = std::make_unique<Engine>();
    engine->name = name;
    engine->attach = ++attached_;
    engine->version = 1;
    engine->policy = policy;
    engine->level = policy->burst * policy->per;
    engines_.insert(engines_.begin() + at, std::move(engine));
    back_to(at);
    line(shared_.out, "op", conn_, "attach", at, name, label);
  }

  void upgrade(View name, const Policy* policy, View label) {
    const size_t at = place_of(name);
    Engine& engine = *engines_[at];
    if (engine.policy->sort != policy->sort) fault("a policy of another kind");
    if (policy->sort == Policy::kRate) {
      engine.level = std::min(policy->burst * policy->per, engine.level * policy->per / engine.policy->per);
    }
    engine.policy = policy;
    engine.version++;
    back_to(at);
    line(shared_.out, "op", conn_, "upgrade", name, label);
  }

  void detach(View name) {
    const size_t at = place_of(name);
    Queue& next = at + 1 < engines_.size() ? engines_[at + 1]->calls : ready_;
    move_behind(engines_[at]->calls, next);
    engines_.erase(engines_.begin() + at);
    line(shared_.out, "op", conn_, "detach", name);
  }

  void show(uint64_t moment) {
    if (moment <= moment_) return;
    for (auto& engine : engines_) {
      const Policy& policy = *engine->policy;
      if (policy.sort != Policy::kRate) continue;
      engine->level = std::min(policy.burst * policy.per, engine->level + policy.amount * (moment - moment_));
    }
    moment_ = moment;
    line(shared_.out, "moment", conn_, moment);
  }

  // ---- calls

  void submit(size_t method, uint64_t addr, uint32_t number) {
    if (standing_ == 64) {
      heap_.finish();
      line(shared_.out, "away", conn_, method, number, addr);
      return;
    }
    if (method >= types_.methods()) fault("a method");
    const uint64_t after = heap_.stores;
    auto call = std::make_unique<Call>();
    call->seq = ++accepted_;
    call->number = number;
    call->method = method;
    call->form = types_.message(method, number != 0);
    heap_.span(addr, node_words(call->form->GetDescriptor()));
    node(heap_, call->form.get(), addr, 1);
    const uint64_t loads = heap_.loads;
    heap_.finish();
    serialize(*call->form, call->payload);
    std::string& out = shared_.out;
    put(out, "took");
    const uint64_t words[] = {conn_, call->seq, method, number, addr, after, loads};
    for (uint64_t word : words) {
      out += ' ';
      put(out, word);
    }
    put(out, " copy ");
    append_hex(out, call->payload);
    out += '\n';
    (engines_.empty() ? ready_ : engines_[0]->calls).push_back(std::move(call));
    standing_++;
  }

  enum Turned { kIdle, kHeld, kGone, kAgain };

  // The engine at a position has a turn with its first call.
  Turned turn(size_t at) {
    Engine& engine = *engines_[at];
    if (engine.calls.empty()) return kIdle;
    Call& call = *engine.calls.front();
    const Policy& policy = *engine.policy;
    Mark* mark = call.mark_of(engine.attach);
    std::string& out = shared_.out;
    switch (policy.sort) {
      case Policy::kAccess:
        if (mark != nullptr && mark->value == engine.version) break;
        if (const char* rule = denial(policy, call)) {
          line(out, "refused", conn_, call.seq, "access", engine.name, engine.version, rule);
          return drop(engine);
        }
        call.mark(engine.attach, engine.version);
        break;
      case Policy::kRate:
        if (mark != nullptr) break;
        if (engine.level < policy.per) {
          if (policy.hold) return kHeld;
          line(out, "refused", conn_, call.seq, "rate", engine.name, engine.level, policy.per);
          return drop(engine);
        }
        engine.level -= policy.per;
        call.mark(engine.attach, 0);
        line(out, "charged", conn_, call.seq, engine.name, engine.level);
        break;
      case Policy::kQuota: {
        if (mark == nullptr) {
          Tenant& tenant = shared_.tenants[policy.tenant];
          const uint64_t window = std::min<uint64_t>(moment_ / tenant.per, 1023);
          call.mark(engine.attach, tenant.drawn[window]++);
          mark = call.mark_of(engine.attach);
          line(out, "drawn", conn_, call.seq, engine.name, window, mark->value);
        }
        if (mark->value >= policy.cap) {
          line(out, "refused", conn_, call.seq, "quota", engine.name, mark->value, policy.cap);
          return drop(engine);
        }
        break;
      }
      case Policy::kCount:
        if (mark != nullptr) break;
        call.mark(engine.attach, 0);
        line(out, "counted", conn_, call.seq, engine.name);
        break;
      case Policy::kRedact:
        if (!clears(policy, *call.form, call.method, call.number != 0)) break;
        serialize(*call.form, call.payload);
        // What access engines allowed is judged again.
        for (const auto& other : engines_) {
          Mark* allowed = other->policy->sort == Policy::kAccess ? call.mark_of(other->attach) : nullptr;
          if (allowed != nullptr) allowed->value = 0;
        }
        line(out, "redacted", conn_, call.seq, engine.name, engine.version);
        begin_again(at);
        return kAgain;
    }
    Queue& next = at + 1 < engines_.size() ? engines_[at + 1]->calls : ready_;
    next.push_back(std::move(engine.calls.front()));
    engine.calls.pop_front();
    return kGone;
  }

  void send() {
    if (ready_.empty()) return;
    const Call& call = *ready_.front();
    std::string& wire = shared_.wire;
    put_big(wire, static_cast<uint32_t>(call.payload.size()), 4);
    wire += call.number == 0 ? '\1' : '\2';
    wire += '\1';
    put_big(wire, static_cast<uint32_t>(call.method), 2);
    put_big(wire, conn_, 4);
    put_big(wire, call.number == 0 ? call.seq : call.number, 4);
    wire += call.payload;
    line(shared_.out, "sent", conn_, call.seq, 16 + call.payload.size());
    ready_.pop_front();
    standing_--;
  }

  void drain() {
    for (size_t at = 0; at < engines_.size(); at++) {
      Turned turned;
      while ((turned = turn(at)) == kGone) {
      }
      if (turned == kAgain) at = static_cast<size_t>(-1);
    }
    while (!ready_.empty()) send();
  }

  void tell_standing() const {
    std::string& out = shared_.out;
    for (const auto& call : ready_) line(out, "stands", conn_, call->seq, engines_.size(), "-");
    for (size_t at = engines_.size(); at-- > 0;) {
      Engine& engine = *engines_[at];
      const Policy& policy = *engine.policy;
      for (size_t i = 0; i < engine.calls.size(); i++) {
        Call& call = *engine.calls[i];
        const bool held = i == 0 && policy.sort == Policy::kRate && policy.hold && engine.level < policy.per &&
                          call.mark_of(engine.attach) == nullptr;
        if (held) {
          line(out, "stands", conn_, call.seq, at, engine.name, "held", engine.level, policy.per);
        } else {
          line(out, "stands", conn_, call.seq, at, engine.name);
        }
      }
    }
  }

 private:
  size_t place_of(View name) const {
    for (size_t at = 0; at < engines_.size(); at++) {
      if (engines_[at]->name == name) return at;
    }
    fault("no such name");
  }

  // The name of the rule that denies a call, or none.
  static const char* denial(const Policy& policy, const Call& call) {
    for (const Rule& rule : policy.rules) {
      if (rule.method >= 0) {
        if (static_cast<size_t>(rule.method) != call.method || rule.reply != (call.number != 0)) continue;
        if (rule.test != Rule::kAlways && !holds(rule, *call.form)) continue;
      }
      return rule.allow ? nullptr : rule.name.c_str();
    }
    return policy.allow ? nullptr : "default";
  }

  Turned drop(Engine& engine) {
    engine.calls.pop_front();
    standing_--;
    return kGone;
  }

  static void move_behind(Queue& from, Queue& to) {
    for (auto& call : from) to.push_back(std::move(call));
    from.clear();
  }

  // Calls behind a position go back to it, in order: the farther a call has come, the earlier it stands.
  void back_to(size_t at) {
    Queue calls;
    calls.swap(ready_);
    for (size_t i = engines_.size(); i-- > at;) move_behind(engines_[i]->calls, calls);
    engines_[at]->calls.swap(calls);
  }

  // The first call at a position, and those of greater numbers, go back to the first engine.
  void begin_again(size_t at) {
    Queue calls;
    for (size_t i = at + 1; i-- > 0;) move_behind(engines_[i]->calls, calls);
    engines_[0]->calls.swap(calls);
  }

  Shared& shared_;
  const Types& types_;
  const uint32_t conn_;
  Heap heap_;
  std::vector<std::unique_ptr<Engine>> engines_;
  Queue ready_;
  uint32_t attached_ = 0, accepted_ = 0;
  size_t standing_ = 0;
  uint64_t moment_ = 0;
};

// ---- the script

class Script {
 public:
  explicit Script(const std::string& input) : input_(input) {
    if (next() != "mrpc-replay 1") fault("the head");
    View text = next();
    if (text.substr(0, 6) == "loads ") {
      loads_ = number_of(text.substr(6));
      text = next();
    }
    if (text != "table") fault("the head");
    types_ = std::make_unique<Types>(input_, at_);
  }

  void run(FILE* frames) {
    for (View text; (text = next()) != "close";) {
      if (!text.empty() && text[0] != '#') step(Words(text));
      if (shared_.out.size() >= 65536) flush(shared_.out, stdout);
      if (shared_.wire.size() >= 65536) flush(shared_.wire, frames);
    }
    for (const auto& connection : connections_) {
      if (connection) connection->tell_standing();
    }
    flush(shared_.out, stdout);
    flush(shared_.wire, frames);
  }

 private:
  View next() {
    const char* begin = input_.data() + at_;
    const void* end = std::memchr(begin, '\n', input_.size() - at_);
    if (end == nullptr) fault("a line without its line feed");
    const size_t length = static_cast<const char*>(end) - begin;
    at_ += length + 1;
    return View(begin, length);
  }

  Connection& connection(View word) {
    const uint64_t number = number_of(word);
    if (number < 1 || number > 16 || !connections_[number]) fault("a connection");
    return *connections_[number];
  }

  const Policy* policy(View name) const {
    const auto found = policies_.find(name);
    if (found == policies_.end()) fault("a policy");
    return &found->second;
  }

  const pb::Descriptor* type(size_t method, bool reply) const {
    if (method >= types_->methods()) fault("a method");
    return types_->message(method, reply)->GetDescriptor();
  }

  Rule rule_of(View text) const {
    Words words(text);
    Rule rule;
    rule.name = words.at[1];
    rule.allow = words.at[2] == "allow";
    int i = 3;
    if (i < words.count && words.at[i] == "method") {
      rule.method = static_cast<int>(number_of(words.at[i + 1]));
      i += 2;
      if (i < words.count && words.at[i] == "reply") {
        rule.reply = true;
        i++;
      }
    }
    if (i == words.count) return rule;
    if (words.at[i] != "where" || i + 2 >= words.count) fault("a rule");
    rule.path = path_of(type(rule.method, rule.reply), words.at[i + 1]);
    static const std::map<View, Rule::Test> tests = {{"eq", Rule::kEqual},      {"ne", Rule::kOther},
                                                     {"lt", Rule::kLess},       {"gt", Rule::kGreater},
                                                     {"starts", Rule::kStarts}, {"present", Rule::kPresent}};
    rule.test = tests.at(words.at[i + 2]);
    if (rule.test == Rule::kPresent) return rule;
    const View value = text.substr(words.at[i + 3].data() - text.data());
    if (value[0] == '"') {
      rule.text = value.substr(1, value.size() - 2);
    } else {
      rule.number = number_of(value);
    }
    return rule;
  }

  Policy policy_of(const Words& words) {
    Policy policy{};
    policy.allow = true;
    const View sort = words.at[2];
    if (sort == "access") {
      policy.sort = Policy::kAccess;
      for (View text; (text = next()) != "end";) {
        if (text.substr(0, 8) == "default ") {
          policy.allow = text.substr(8) == "allow";
        } else {
          policy.rules.push_back(rule_of(text));
        }
      }
    } else if (sort == "rate") {
      policy.sort = Policy::kRate;
      policy.amount = number_of(words.at[3]);
      policy.per = number_of(words.at[5]);
      policy.burst = number_of(words.at[7]);
      policy.hold = words.at[8] == "hold";
    } else if (sort == "quota") {
      policy.sort = Policy::kQuota;
      const auto& tenants = shared_.tenants;
      while (policy.tenant < tenants.size() && tenants[policy.tenant].name != words.at[3]) policy.tenant++;
      if (policy.tenant == tenants.size()) fault("a tenant");
      policy.cap = number_of(words.at[5]);
    } else if (sort == "count") {
      policy.sort = Policy::kCount;
    } else if (sort == "redact") {
      policy.sort = Policy::kRedact;
      for (View text; (text = next()) != "end";) {
        const Words parts(text);
        const bool reply = parts.at[3] == "reply";
        const size_t method = number_of(parts.at[2]);
        policy.clears.push_back(Clear{method, reply, path_of(type(method, reply), parts.at[reply ? 4 : 3])});
      }
    } else {
      fault("a policy");
    }
    return policy;
  }

  void step(const Words& words) {
    const View first = words.at[0];
    if (first == "store") {
      connection(words.at[1]).heap().store(number_of(words.at[2]), number_of(words.at[3]));
    } else if (first == "submit") {
      connection(words.at[1]).submit(number_of(words.at[2]), number_of(words.at[3]),
                                     words.count > 4 ? static_cast<uint32_t>(number_of(words.at[4])) : 0);
    } else if (first == "drain") {
      connection(words.at[1]).drain();
    } else if (first == "turn") {
      connection(words.at[1]).turn(number_of(words.at[2]));
    } else if (first == "send") {
      connection(words.at[1]).send();
    } else if (first == "moment") {
      connection(words.at[1]).show(number_of(words.at[2]));
    } else if (first == "upgrade") {
      connection(words.at[1]).upgrade(words.at[2], policy(words.at[3]), words.at[3]);
    } else if (first == "attach") {
      connection(words.at[1]).attach(number_of(words.at[2]), words.at[3], policy(words.at[4]), words.at[4]);
    } else if (first == "detach") {
      connection(words.at[1]).detach(words.at[2]);
    } else if (first == "race") {
      Heap& heap = connection(words.at[1]).heap();
      const Race race{number_of(words.at[2]), number_of(words.at[3]), number_of(words.at[4])};
      size_t behind = heap.races.size();
      while (behind > 0 && heap.races[behind - 1].load > race.load) behind--;
      heap.races.insert(heap.races.begin() + behind, race);
    } else if (first == "conn") {
      const uint64_t number = number_of(words.at[1]);
      if (number < 1 || number > 16 || connections_[number]) fault("a connection");
      connections_[number] = std::make_unique<Connection>(shared_, *types_, number, number_of(words.at[2]), loads_);
    } else if (first == "tenant") {
      shared_.tenants.push_back(Tenant{std::string(words.at[1]), number_of(words.at[2])});
    } else if (first == "policy") {
      Policy made = policy_of(words);
      policies_.emplace(std::string(words.at[1]), std::move(made));
    } else {
      fault("a line");
    }
  }

  const std::string& input_;
  size_t at_ = 0;
  uint64_t loads_ = 1024;
  std::unique_ptr<Types> types_;
  Shared shared_;
  std::map<std::string, Policy, std::less<>> policies_;
  std::unique_ptr<Connection> connections_[17];
};

int main() {
  const std::string input = read_input();
  FILE* frames = std::fopen("peer.wire", "wb");
  if (frames == nullptr) fault("peer.wire");
  Script(input).run(frames);
  return 0;
}
