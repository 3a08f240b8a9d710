// One client of the tutorial's service over Apache's C++ library: client PORT PROTOCOL NAME ROUNDS FIRST
//
// Opens one connection, makes the session below and then ROUNDS calls in a row, and prints how many calls it made in all, oneways too. NAME is the
// service's name of a multiplexed protocol, or `-`; FIRST is the first of three numbers that results are kept under. Where an answer isn't the calculator's it prints which, and ends with status 1.
#include <cstdlib>
#include <functional>
#include <iostream>
#include <memory>
#include <string>

#include <thrift/protocol/TBinaryProtocol.h>
#include <thrift/protocol/TCompactProtocol.h>
#include <thrift/protocol/TMultiplexedProtocol.h>
#include <thrift/transport/TBufferTransports.h>
#include <thrift/transport/TSocket.h>

#include "Calculator.h"

using namespace apache::thrift;

static int calls = 0;

static void is_so(const std::string& what, const std::string& got, const std::string& wanted) {
  calls++;
  if (got != wanted) {
    std::cout << what << " came to " << got << " and not " << wanted << "\n";
    std::exit(1);
  }
}

static std::string thrown(const std::function<std::string()>& call) {
  try {
    return call();
  } catch (const InvalidOperation& error) {
    return std::to_string(error.whatOp) + " " + error.why;
  } catch (const TApplicationException& error) {
    return "application exception " + std::to_string(error.getType());
  }
}

static Work work(int a, int b, int op) {
  Work w;
  w.__set_num1(a);
  w.__set_num2(b);
  w.__set_op(static_cast<Operation::type>(op));
  return w;
}

static std::string kept(CalculatorClient& c, int key) {
  SharedStruct s;
  c.getStruct(s, key);
  return std::to_string(s.key) + " " + s.value;
}

static void session(CalculatorClient& c, int first) {
  auto calculated = [&](int key, Work w) { return std::to_string(c.calculate(key, w)); };
  c.ping();
  calls++;
  is_so("add", std::to_string(c.add(1, 1)), "2");
  c.zip();
  is_so("add that wraps", std::to_string(c.add(2147483647, 1)), "-2147483648");
  is_so("divide by 0", thrown([&] { return calculated(first, work(1, 0, 4)); }), "4 Cannot divide by 0");
  is_so("nothing kept", thrown([&] { return kept(c, first); }), "application exception 5");
  c.zip();
  c.zip();
  is_so("subtract", calculated(first, work(15, 10, 2)), "5");
  is_so("multiply", calculated(first + 1, work(-3, 4, 3)), "-12");
  is_so("divide", calculated(first + 2, work(-7, 2, 4)), "-3");
  is_so("no such operation", thrown([&] { return calculated(first, work(7, 2, 9)); }), "9 Unknown operation");
  is_so("getStruct", kept(c, first), std::to_string(first) + " 5");
  is_so("getStruct", kept(c, first + 1), std::to_string(first + 1) + " -12");
  is_so("getStruct", kept(c, first + 2), std::to_string(first + 2) + " -3");
  calls += 3;
}

int main(int count, char** words) {
  if (count != 6) return 2;
  auto socket = std::make_shared<transport::TSocket>("127.0.0.1", std::atoi(words[1]));
  socket->setRecvTimeout(20000);
  auto framed = std::make_shared<transport::TFramedTransport>(socket);
  std::shared_ptr<protocol::TProtocol> made;
  if (std::string(words[2]) == "binary")
    made = std::make_shared<protocol::TBinaryProtocol>(framed);
  else
    made = std::make_shared<protocol::TCompactProtocol>(framed);
  if (std::string(words[3]) != "-") made = std::make_shared<protocol::TMultiplexedProtocol>(made, words[3]);
  CalculatorClient c(made);
  framed->open();
  session(c, std::atoi(words[5]));
  for (int k = 0, rounds = std::atoi(words[4]); k < rounds; k++) is_so("add", std::to_string(c.add(k, 7)), std::to_string(k + 7));
  framed->close();
  std::cout << calls << "\n";
}
