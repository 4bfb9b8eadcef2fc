// Does by gRPC what `mrpc run` does with four clients and four echoes, for bench/run: each client makes so many calls of
// a message of one number, at most so many of them under way at once, and the service replies to each with its own
// message. Clients and service use the callback interface. Each client has a channel of its own: the third word says
// whether it is one within the process, `memory`, or a connection over the loopback interface, `tcp`.
#include <grpcpp/grpcpp.h>

#include <atomic>
#include <cstdint>
#include <cstdio>
#include <cstdlib>
#include <future>
#include <memory>
#include <string>
#include <vector>

#include "run_peer.grpc.pb.h"

namespace {

constexpr int kClients = 4;

class Echo final : public S::CallbackService {
  grpc::ServerUnaryReactor* Get(grpc::CallbackServerContext* context, const M* asked, M* reply) override {
    reply->set_a(asked->a());
    grpc::ServerUnaryReactor* reactor = context->DefaultReactor();
    reactor->Finish(grpc::Status::OK);
    return reactor;
  }
};

struct Call {
  grpc::ClientContext context;
  M asked;
  M reply;
};

// A client that begins its next call once one has come back.
class Client {
 public:
  Client(std::shared_ptr<grpc::Channel> channel, uint64_t count) : stub_(S::NewStub(channel)), count_(count) {}

  void Begin(uint64_t under_way) {
    for (uint64_t k = 0; k < under_way; ++k) Next();
  }

  uint64_t Wait() {
    done_.get_future().wait();
    return sum_;
  }

 private:
  void Next() {
    uint64_t number = ++begun_;
    if (number > count_) return;
    auto* call = new Call;
    call->asked.set_a(number % 100);
    stub_->async()->Get(&call->context, &call->asked, &call->reply, [this, call](grpc::Status status) {
      if (!status.ok()) std::exit(1);
      sum_ += call->reply.a();
      delete call;
      Next();
      if (++back_ == count_) done_.set_value();
    });
  }

  std::unique_ptr<S::Stub> stub_;
  const uint64_t count_;
  std::atomic<uint64_t> begun_{0};
  std::atomic<uint64_t> back_{0};
  std::atomic<uint64_t> sum_{0};
  std::promise<void> done_;
};

// A connection to a port of the loopback interface that is shared with no other channel.
std::shared_ptr<grpc::Channel> Connect(int port) {
  grpc::ChannelArguments own;
  own.SetInt(GRPC_ARG_USE_LOCAL_SUBCHANNEL_POOL, 1);
  const std::string address = "127.0.0.1:" + std::to_string(port);
  return grpc::CreateCustomChannel(address, grpc::InsecureChannelCredentials(), own);
}

}  // namespace

int main(int count, char** words) {
  if (count != 4) return 2;
  uint64_t calls = std::strtoull(words[1], nullptr, 10);
  uint64_t under_way = std::strtoull(words[2], nullptr, 10);
  const std::string over = words[3];
  if (over != "memory" && over != "tcp") return 2;
  Echo echo;
  grpc::ServerBuilder builder;
  builder.RegisterService(&echo);
  int port = 0;
  if (over == "tcp") builder.AddListeningPort("127.0.0.1:0", grpc::InsecureServerCredentials(), &port);
  std::unique_ptr<grpc::Server> server = builder.BuildAndStart();
  std::vector<std::unique_ptr<Client>> clients;
  for (int k = 0; k < kClients; ++k) {
    auto channel = over == "tcp" ? Connect(port) : server->InProcessChannel({});
    clients.push_back(std::make_unique<Client>(channel, calls));
  }
  for (auto& client : clients) client->Begin(under_way);
  uint64_t sum = 0;
  for (auto& client : clients) sum += client->Wait();
  server->Shutdown();
  std::printf("%llu\n", static_cast<unsigned long long>(sum));
}
