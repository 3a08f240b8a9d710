// Apache's TNonblockingServer with the tutorial's calculator: nonblocking PORT WORKERS
#include <cstdlib>
#include <memory>

#include <thrift/concurrency/ThreadFactory.h>
#include <thrift/concurrency/ThreadManager.h>
#include <thrift/protocol/TBinaryProtocol.h>
#include <thrift/server/TNonblockingServer.h>
#include <thrift/transport/TNonblockingServerSocket.h>

#include "Calculator.h"

using namespace apache::thrift;

class Adder : public CalculatorIf {
 public:
  void ping() override {}
  void zip() override {}
  int32_t add(const int32_t a, const int32_t b) override { return static_cast<int32_t>(static_cast<uint32_t>(a) + static_cast<uint32_t>(b)); }
  int32_t calculate(const int32_t, const Work& w) override { return w.num1 + w.num2; }
  void getStruct(SharedStruct& s, const int32_t key) override { s.key = key; }
};

int main(int count, char** words) {
  if (count != 3) return 2;
  int workers = std::atoi(words[2]);
  auto processor = std::make_shared<CalculatorProcessor>(std::make_shared<Adder>());
  auto protocols = std::make_shared<protocol::TBinaryProtocolFactory>();
  auto socket = std::make_shared<transport::TNonblockingServerSocket>("127.0.0.1", std::atoi(words[1]));
  std::shared_ptr<concurrency::ThreadManager> threads;
  if (workers > 0) {
    threads = concurrency::ThreadManager::newSimpleThreadManager(workers);
    threads->threadFactory(std::make_shared<concurrency::ThreadFactory>());
    threads->start();
  }
  server::TNonblockingServer server(processor, protocols, socket, threads);
  server.serve();
}
