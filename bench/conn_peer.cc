// What `mrpc_bench conn` does, with protobuf's DynamicMessage: a connection whose chain has a std::deque of
// calls for each engine, and one of those that are ready. A message is copied from the words of a heap by reflection,
// judged by reflection, and serialized deterministically. bench/conn builds it, and compares what the two programs
// write.
//
//     conn_peer steps|calls|again|judged|frames CALLS ROUNDS
//
// `judged` does what `again` does, but that every access engine judges a call that comes once more, where in `again` a
// call has marks of the policies that allowed it, and those that are as they were pass it by their marks.
#include "peer_table.h"

#include <deque>
#include <optional>

using Field = pb::FieldDescriptor;
using Kind = pb::FieldDescriptor::CppType;

static const char kTable[] =
    "message M\nfield 1 plain uint64 a\nfield 2 plain uint64 b\nfield 3 plain uint64 c\nfield 4 plain uint64 d\n"
    "field 5 plain uint64 e\nfield 6 plain uint64 f\nfield 7 plain uint64 g\nfield 8 plain uint64 h\n"
    "field 9 plain uint64 i\nfield 10 plain uint64 j\nmethod 0 S Get M M\nend\n";

// ---- policies

// A rule that denies a request of a method where a number equals another one.
struct Rule {
  std::string name;
  bool allow;
  uint16_t method;
  const Field* field;
  uint64_t value;
};

struct Policy {
  enum Sort { kAccess, kRate, kCount } sort;
  std::vector<Rule> rules;
  bool allow = true;
  uint64_t cost = 0, burst = 0;
};

// ---- calls

// What a call keeps of an engine that it met: the attachment, and the version that allowed it.
struct Mark {
  uint32_t attach, version;
};

struct Call {
  uint32_t seq, number;
  uint16_t method;
  std::unique_ptr<pb::Message> form;
  std::vector<Mark> marks;

  const Mark* mark_of(uint32_t attach) const {
    for (const Mark& mark : marks) {
      if (mark.attach == attach) return &mark;
    }
    return nullptr;
  }

  void mark(uint32_t attach, uint32_t version) {
    for (Mark& mark : marks) {
      if (mark.attach == attach) {
        mark.version = version;
        return;
      }
    }
    marks.push_back(Mark{attach, version});
  }
};

using Queue = std::deque<std::unique_ptr<Call>>;

// ---- the history

struct Step {
  enum Sort { kAttach, kDetach, kUpgrade } sort;
  uint32_t at;
  std::string name, label;
  std::optional<Policy> policy;
};

struct Record {
  enum Sort { kTook, kOp, kCharged, kCounted, kSent, kRefused } sort;
  uint32_t seq;
  size_t step;
  uint64_t value;
  // Of a call that was taken.
  uint16_t method;
  uint32_t number;
  uint64_t addr, after, loads;
  std::unique_ptr<pb::Message> copy;
};

static Record record(Record::Sort sort, uint32_t seq, size_t step, uint64_t value) {
  Record record{};
  record.sort = sort;
  record.seq = seq;
  record.step = step;
  record.value = value;
  return record;
}

// ---- the chain

struct Engine {
  std::string name;
  uint32_t attach, version;
  Policy policy;
  uint64_t level;
  // The step that put the policy here.
  size_t step;
  Queue calls;
};

static bool holds(const Rule& rule, const Call& call) {
  if (rule.method != call.method || call.number != 0) return false;
  const pb::Reflection* r = call.form->GetReflection();
  switch (rule.field->cpp_type()) {
    case Kind::CPPTYPE_UINT64: return r->GetUInt64(*call.form, rule.field) == rule.value;
    case Kind::CPPTYPE_INT64: return static_cast<uint64_t>(r->GetInt64(*call.form, rule.field)) == rule.value;
    case Kind::CPPTYPE_UINT32: return r->GetUInt32(*call.form, rule.field) == rule.value;
    case Kind::CPPTYPE_BOOL: return r->GetBool(*call.form, rule.field) == (rule.value != 0);
    default: fault("a kind");
  }
}

static bool allows(const Policy& policy, const Call& call) {
  for (const Rule& rule : policy.rules) {
    if (holds(rule, call)) return rule.allow;
  }
  return policy.allow;
}

class Connection {
 public:
  Connection(const Types& types, bool judges_always) : types_(types), judges_always_(judges_always), heap_(32, 0) {
    loads_.reserve(64);
  }

  void store(uint64_t place, uint64_t value) {
    heap_[place] = value;
    stores_++;
  }

  // ---- steps of an operator

  void attach(uint32_t at, const std::string& name, const Policy& policy) {
    for (const auto& engine : engines_) {
      if (engine->name == name) fault("a name");
    }
    if (at > engines_.size() || engines_.size() == 8) fault("a position");
    auto engine = std::make_unique<Engine>();
    engine->name = name;
    engine->attach = ++attached_;
    engine->version = 1;
    engine->policy = policy;
    engine->level = policy.burst;
    engine->step = steps_.size();
    engines_.insert(engines_.begin() + at, std::move(engine));
    back_to(at);
    note(Step{Step::kAttach, at, name, name, policy});
  }

  void upgrade(const std::string& name, const Policy& policy) {
    const size_t at = place_of(name);
    Engine& engine = *engines_[at];
    if (engine.policy.sort != policy.sort) fault("a policy of another kind");
    engine.policy = policy;
    engine.version++;
    engine.step = steps_.size();
    back_to(at);
    note(Step{Step::kUpgrade, 0, name, name, policy});
  }

  // Calls that stood there stand behind those of the next engine.
  void detach(const std::string& name) {
    const size_t at = place_of(name);
    Queue& next = at + 1 < engines_.size() ? engines_[at + 1]->calls : ready_;
    move_behind(engines_[at]->calls, next);
    engines_.erase(engines_.begin() + at);
    note(Step{Step::kDetach, 0, name, "", std::nullopt});
  }

  // ---- calls

  void accept(uint16_t method, uint32_t number, uint64_t addr) {
    if (standing_ == 64) fault("too many calls");
    if (method >= types_.methods()) fault("a method");
    Record taken = record(Record::kTook, ++accepted_, 0, 0);
    taken.method = method;
    taken.number = number;
    taken.addr = addr;
    taken.after = stores_;
    taken.copy = types_.message(method, number != 0);
    loads_.clear();
    take(taken.copy.get(), addr);
    taken.loads = loads_.size();
    auto call = std::make_unique<Call>();
    call->seq = accepted_;
    call->number = number;
    call->method = method;
    call->form.reset(taken.copy->New());
    call->form->CopyFrom(*taken.copy);
    history_.push_back(std::move(taken));
    (engines_.empty() ? ready_ : engines_[0]->calls).push_back(std::move(call));
    standing_++;
  }

  // The engine at a position has a turn with its first call. Answers whether there was one that it let go.
  bool turn(size_t at) {
    Engine& engine = *engines_[at];
    if (engine.calls.empty()) return false;
    Call& call = *engine.calls.front();
    switch (engine.policy.sort) {
      case Policy::kAccess: {
        const Mark* mark = judges_always_ ? nullptr : call.mark_of(engine.attach);
        if (mark != nullptr && mark->version == engine.version) break;
        if (!allows(engine.policy, call)) {
          history_.push_back(record(Record::kRefused, call.seq, engine.step, engine.version));
          engine.calls.pop_front();
          standing_--;
          return true;
        }
        if (!judges_always_) call.mark(engine.attach, engine.version);
        break;
      }
      case Policy::kRate:
        if (call.mark_of(engine.attach) != nullptr) break;
        if (engine.level < engine.policy.cost) return false;
        engine.level -= engine.policy.cost;
        call.mark(engine.attach, 0);
        history_.push_back(record(Record::kCharged, call.seq, engine.step, engine.level));
        break;
      case Policy::kCount:
        if (call.mark_of(engine.attach) != nullptr) break;
        call.mark(engine.attach, 0);
        history_.push_back(record(Record::kCounted, call.seq, engine.step, 0));
        break;
    }
    Queue& next = at + 1 < engines_.size() ? engines_[at + 1]->calls : ready_;
    next.push_back(std::move(engine.calls.front()));
    engine.calls.pop_front();
    return true;
  }

  void judge() {
    for (size_t at = 0; at < engines_.size(); at++) {
      while (turn(at)) {
      }
    }
  }

  void drain() {
    judge();
    for (; !ready_.empty(); ready_.pop_front(), standing_--) send(*ready_.front());
  }

  // ---- what came of it

  size_t happenings() const { return history_.size(); }
  const std::vector<std::string>& frames() const { return frames_; }
  const pb::Descriptor* message() const { return types_.message(0, false)->GetDescriptor(); }

 private:
  size_t place_of(const std::string& name) const {
    for (size_t at = 0; at < engines_.size(); at++) {
      if (engines_[at]->name == name) return at;
    }
    fault("no such name");
  }

  static void move_behind(Queue& from, Queue& to) {
    for (auto& call : from) to.push_back(std::move(call));
    from.clear();
  }

  // Calls behind a position go back to it, in order: the farther a call has come, the earlier it stands.
  void back_to(size_t at) {
    Queue calls;
    calls.swap(ready_);
    for (size_t i = engines_.size(); i-- > at;) move_behind(engines_[i]->calls, calls);
    engines_[at]->calls.swap(calls);
  }

  void note(Step step) {
    history_.push_back(record(Record::kOp, 0, steps_.size(), 0));
    steps_.push_back(std::move(step));
  }

  uint64_t load(uint64_t place) {
    if (place < 1 || place >= heap_.size()) fault("an address");
    if (loads_.size() == 16384) fault("more loads than the limit");
    loads_.push_back(heap_[place]);
    return heap_[place];
  }

  // A message of plain numbers, two words for each.
  void take(pb::Message* message, uint64_t addr) {
    const pb::Descriptor* type = message->GetDescriptor();
    const pb::Reflection* r = message->GetReflection();
    for (int i = 0; i < type->field_count(); i++, addr += 2) {
      const Field* field = type->field(i);
      const uint64_t word = load(addr);
      switch (field->cpp_type()) {
        case Kind::CPPTYPE_UINT64: r->SetUInt64(message, field, word); break;
        case Kind::CPPTYPE_INT64: r->SetInt64(message, field, static_cast<int64_t>(word)); break;
        case Kind::CPPTYPE_UINT32: r->SetUInt32(message, field, static_cast<uint32_t>(word)); break;
        case Kind::CPPTYPE_BOOL: r->SetBool(message, field, word != 0); break;
        default: fault("a kind");
      }
    }
  }

  static void put_big(std::string& out, uint32_t number, int count) {
    for (int shift = 8 * (count - 1); shift >= 0; shift -= 8) out += static_cast<char>(number >> shift);
  }

  void send(const Call& call) {
    serialize(*call.form, payload_);
    std::string frame;
    frame.reserve(16 + payload_.size());
    put_big(frame, static_cast<uint32_t>(payload_.size()), 4);
    frame += call.number == 0 ? '\1' : '\2';
    frame += '\1';
    put_big(frame, call.method, 2);
    put_big(frame, 1, 4);
    put_big(frame, call.number == 0 ? call.seq : call.number, 4);
    frame += payload_;
    history_.push_back(record(Record::kSent, call.seq, 0, frame.size()));
    frames_.push_back(std::move(frame));
  }

  const Types& types_;
  const bool judges_always_;
  std::vector<uint64_t> heap_, loads_;
  uint64_t stores_ = 0;
  std::vector<std::unique_ptr<Engine>> engines_;
  Queue ready_;
  uint32_t attached_ = 0, accepted_ = 0, standing_ = 0;
  std::vector<Step> steps_;
  std::vector<Record> history_;
  std::vector<std::string> frames_;
  std::string payload_;
};

int main(int count, char** words) {
  if (count != 4) fault("the words");
  const std::string round = words[1];
  const unsigned long calls = std::strtoul(words[2], nullptr, 10), rounds = std::strtoul(words[3], nullptr, 10);
  size_t at = 0;
  const Types types(kTable, at);
  Connection connection(types, round == "judged");
  for (uint64_t field = 0; field < 10; field++) connection.store(2 + 2 * field, 1000 * (field + 1));

  Policy access{Policy::kAccess, {}, true, 0, 0};
  int numbers[] = {1, 5, 10};
  const char* names[] = {"a", "b", "c"};
  for (int i = 0; i < 3; i++) {
    access.rules.push_back(Rule{names[i], false, 0, connection.message()->FindFieldByNumber(numbers[i]), 1});
  }
  const Policy rate{Policy::kRate, {}, true, 1, 1000000}, counting{Policy::kCount, {}, true, 0, 0};
  uint32_t position = 0;
  for (const char* name : {"a", "b", "c", "d"}) connection.attach(position++, name, access);
  connection.attach(4, "rate", rate);
  connection.attach(5, "count", counting);

  const bool stands = round == "steps" || round == "again" || round == "judged";
  if (stands) {
    for (unsigned long i = 0; i < calls; i++) connection.accept(0, 0, 2);
    connection.judge();
  }
  for (unsigned long k = 0; k < rounds; k++) {
    if (round == "steps") {
      connection.attach(3, "middle", counting);
      connection.upgrade("middle", counting);
      connection.detach("middle");
    } else if (stands) {
      connection.upgrade("a", access);
      connection.judge();
    } else {
      for (unsigned long i = 0; i < calls; i++) connection.accept(0, 0, 2);
      connection.drain();
    }
  }
  std::printf("%zu %zu\n", connection.happenings(), connection.frames().size());
  if (round != "frames") return 0;
  for (const std::string& frame : connection.frames()) {
    for (char c : frame) std::printf("%02x", static_cast<unsigned char>(c));
    std::printf("\n");
  }
  return 0;
}
