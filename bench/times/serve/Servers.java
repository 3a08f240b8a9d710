// Apache's servers in Java with the tutorial's calculator: Servers KIND PORT WORKERS, where KIND is hsha, selector or nonblocking
import java.net.InetSocketAddress;
import org.apache.thrift.server.THsHaServer;
import org.apache.thrift.server.TNonblockingServer;
import org.apache.thrift.server.TServer;
import org.apache.thrift.server.TThreadedSelectorServer;
import org.apache.thrift.transport.TNonblockingServerSocket;

public class Servers {
  static class Adder implements Calculator.Iface {
    public void ping() {}

    public void zip() {}

    public int add(int a, int b) {
      return a + b;
    }

    public int calculate(int key, Work w) {
      return w.num1 + w.num2;
    }

    public SharedStruct getStruct(int key) {
      return new SharedStruct(key, "");
    }
  }

  // a server of this kind; the one without a pool makes the calls in its own thread, and the selectors of the other are one for each two workers
  static TServer made(String kind, TNonblockingServerSocket socket, int workers) throws Exception {
    Calculator.Processor<Adder> processor = new Calculator.Processor<>(new Adder());
    switch (kind) {
      case "hsha":
        return new THsHaServer(new THsHaServer.Args(socket).processor(processor).minWorkerThreads(workers).maxWorkerThreads(workers));
      case "selector":
        return new TThreadedSelectorServer(new TThreadedSelectorServer.Args(socket).processor(processor).workerThreads(workers).selectorThreads(Math.max(1, workers / 2)));
      case "nonblocking":
        return new TNonblockingServer(new TNonblockingServer.Args(socket).processor(processor));
      default:
        throw new IllegalArgumentException(kind);
    }
  }

  public static void main(String[] words) throws Exception {
    made(words[0], new TNonblockingServerSocket(new InetSocketAddress("127.0.0.1", Integer.parseInt(words[1]))), Integer.parseInt(words[2])).serve();
  }
}
