"""One client of the tutorial's service over Apache's Python library: client.py GENERATED PORT PROTOCOL NAME ROUNDS FIRST

Opens one connection, makes the session below and then ROUNDS calls in a row, and prints how many calls it made in all, oneways too. NAME is the service's name
of a multiplexed protocol, or `-`; FIRST is the first of three numbers that results are kept under. Where an answer isn't the calculator's it prints which, and ends with status 1."""
import sys

sys.path.insert(0, sys.argv[1])
from thrift.Thrift import TApplicationException
from thrift.protocol import TBinaryProtocol, TCompactProtocol, TMultiplexedProtocol
from thrift.transport import TSocket, TTransport

from tutorial import Calculator
from tutorial.ttypes import InvalidOperation, Operation, Work

calls = 0


def client(port, protocol, name):
    socket = TSocket.TSocket("127.0.0.1", port)
    socket.setTimeout(20000)
    transport = TTransport.TFramedTransport(socket)
    made = (TBinaryProtocol.TBinaryProtocol if protocol == "binary" else TCompactProtocol.TCompactProtocol)(transport)
    if name != "-":
        made = TMultiplexedProtocol.TMultiplexedProtocol(made, name)
    transport.open()
    return Calculator.Client(made), transport


def is_so(what, got, wanted):
    global calls
    calls += 1
    if got != wanted:
        print("%s came to %r and not %r" % (what, got, wanted))
        sys.exit(1)


def thrown(call):
    try:
        return call()
    except InvalidOperation as error:
        return (error.whatOp, error.why)
    except TApplicationException as error:
        return error.type


def session(c, first):
    work = lambda a, b, op, comment=None: Work(num1=a, num2=b, op=op, comment=comment)
    is_so("ping", c.ping(), None)
    is_so("add", c.add(1, 1), 2)
    is_so("zip", c.zip(), None)
    is_so("add that wraps", c.add(2147483647, 1), -2147483648)
    is_so("divide by 0", thrown(lambda: c.calculate(first, work(1, 0, Operation.DIVIDE))), (4, "Cannot divide by 0"))
    is_so("nothing kept", thrown(lambda: c.getStruct(first)), TApplicationException.MISSING_RESULT)
    is_so("zip", c.zip(), None)
    is_so("zip", c.zip(), None)
    is_so("subtract", c.calculate(first, work(15, 10, Operation.SUBTRACT)), 5)
    is_so("multiply", c.calculate(first + 1, work(-3, 4, Operation.MULTIPLY, "a comment")), -12)
    is_so("divide", c.calculate(first + 2, work(-7, 2, Operation.DIVIDE)), -3)
    is_so("no such operation", thrown(lambda: c.calculate(first, work(7, 2, 9))), (9, "Unknown operation"))
    for place, value in enumerate(("5", "-12", "-3")):
        kept = c.getStruct(first + place)
        is_so("getStruct", (kept.key, kept.value), (first + place, value))


def main():
    port, protocol, name, rounds, first = int(sys.argv[2]), sys.argv[3], sys.argv[4], int(sys.argv[5]), int(sys.argv[6])
    c, transport = client(port, protocol, name)
    session(c, first)
    for k in range(rounds):
        is_so("add", c.add(k, 7), k + 7)
    transport.close()
    print(calls)


main()
