// The tutorial's calculator by Apache's C++ library, in one protocol and framed: server PROTOCOL MULTIPLEXED PORT.
//
// An `add` of 99 ends with an exception that isn't declared.
#include <cstdlib>
#include <iostream>
#include <memory>
#include <stdexcept>
#include <string>

#include <thrift/processor/TMultiplexedProcessor.h>
#include <thrift/protocol/TBinaryProtocol.h>
#include <thrift/protocol/TCompactProtocol.h>
#include <thrift/server/TThreadedServer.h>
#include <thrift/transport/TBufferTransports.h>
#include <thrift/transport/TServerSocket.h>

#include "Calculator.h"

using namespace apache::thrift;

class Calculating : public CalculatorIf {
 public:
  void ping() override {}

  int32_t add(const int32_t one, const int32_t other) override {
    if (one == 99) throw std::runtime_error("no");
    return static_cast<int32_t>(static_cast<uint32_t>(one) + static_cast<uint32_t>(other));
  }

  int32_t calculate(const int32_t, const Work& work) override {
    switch (work.op) {
      case Operation::ADD: return work.num1 + work.num2;
      case Operation::SUBTRACT: return work.num1 - work.num2;
      case Operation::MULTIPLY: return work.num1 * work.num2;
      default: break;
    }
    if (work.num2 == 0) {
      InvalidOperation failure;
      failure.whatOp = work.op;
      failure.why = "Cannot divide by 0";
      throw failure;
    }
    return work.num1 / work.num2;
  }

  void getStruct(SharedStruct& kept, const int32_t key) override {
    kept.key = key;
    kept.value = "kept";
  }

  void zip() override {}
};

int main(int, char** words) {
  const std::string protocol = words[1];
  const bool multiplexed = words[2] == std::string("1");
  std::shared_ptr<TProcessor> processor(new CalculatorProcessor(std::make_shared<Calculating>()));
  if (multiplexed) {
    auto several = std::make_shared<TMultiplexedProcessor>();
    several->registerProcessor("Calculator", processor);
    processor = several;
  }
  std::shared_ptr<protocol::TProtocolFactory> factory;
  if (protocol == "binary") {
    factory = std::make_shared<protocol::TBinaryProtocolFactory>();
  } else {
    factory = std::make_shared<protocol::TCompactProtocolFactory>();
  }
  auto listening = std::make_shared<transport::TServerSocket>("127.0.0.1", std::atoi(words[3]));
  server::TThreadedServer server(processor, listening, std::make_shared<transport::TFramedTransportFactory>(), factory);
  std::cout << "listening" << std::endl;
  server.serve();
}
