"""The tutorial's calculator by Apache's Python library, in one protocol and framed: server.py FOLDER PROTOCOL MULTIPLEXED PORT, where FOLDER has gen-py.

An `add` of 99 ends with an exception that isn't declared."""
import sys
sys.path.insert(0, sys.argv[1] + "/gen-py")
from thrift.TMultiplexedProcessor import TMultiplexedProcessor
from thrift.protocol import TBinaryProtocol, TCompactProtocol
from thrift.server import TServer
from thrift.transport import TSocket, TTransport
from shared.ttypes import SharedStruct
from tutorial import Calculator
from tutorial.ttypes import InvalidOperation, Operation

class Handler:
    def ping(self):
        pass
    def add(self, num1, num2):
        if num1 == 99:
            raise ValueError("no")
        return num1 + num2
    def calculate(self, logid, work):
        if work.op == Operation.DIVIDE and work.num2 == 0:
            raise InvalidOperation(work.op, "Cannot divide by 0")
        return {1: work.num1 + work.num2, 2: work.num1 - work.num2, 3: work.num1 * work.num2}.get(work.op) or work.num1 // work.num2
    def getStruct(self, key):
        return SharedStruct(key, "kept")
    def zip(self):
        pass

def main():
    _, folder, protocol, multiplexed, port = sys.argv
    processor = Calculator.Processor(Handler())
    if multiplexed == "1":
        several = TMultiplexedProcessor()
        several.registerProcessor("Calculator", processor)
        processor = several
    factory = TBinaryProtocol.TBinaryProtocolFactory() if protocol == "binary" else TCompactProtocol.TCompactProtocolFactory()
    listening = TSocket.TServerSocket("127.0.0.1", int(port))
    server = TServer.TThreadedServer(processor, listening, TTransport.TFramedTransportFactory(), factory, daemon=True)
    print("listening", flush=True)
    server.serve()

main()
