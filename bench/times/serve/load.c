/* Loads a Thrift server on the loopback address with calls of the tutorial's `add` (framed, strict binary): load PORT CONNECTIONS DEPTH SECONDS [PID [POINTS]]
 *
 * Where an `x` stands in front of SECONDS, they are that many calls, and not seconds. With POINTS it calls `same` of the service Points (bench/times/mixes.py), whose argument is a list of so many points, and which a mirror answers. It opens CONNECTIONS
 * connections, keeps DEPTH calls under way on each, and looks at each byte of each reply. It prints one line: calls a second, and with PID the server's processor time
 * for each call in microseconds, and the latency at the half and the 99th of a hundred in microseconds. With SECONDS 0 it opens the connections, lets them be idle
 * for two seconds, and prints the server's memory before and then, in kilobytes, and the milliseconds of a processor that it took meanwhile. It ends with status
 * 1 where an answer isn't right. */
#include <arpa/inet.h>
#include <errno.h>
#include <netinet/in.h>
#include <netinet/tcp.h>
#include <stdint.h>
#include <stdio.h>
#include <stdlib.h>
#include <string.h>
#include <sys/epoll.h>
#include <sys/socket.h>
#include <time.h>
#include <unistd.h>

enum { MOST = 4096, SLOTS = 1 << 20, POINT = 15 };

/* a frame, and where in it stand the call's number and a number that is made of it */
struct frame {
  unsigned char *bytes;
  size_t size, id_at, value_at;
};

struct link {
  int fd;
  uint32_t asked, answered;
  unsigned char *in;
  size_t held;
  uint64_t *began; /* the moment of each call under way, by its number modulo DEPTH */
};

static unsigned char ADD[] = {0, 0, 0, 30, 0x80, 1, 0, 1, 0, 0, 0, 3, 'a', 'd', 'd', 0, 0, 0, 0, 8, 0, 1, 0, 0, 0, 0, 8, 0, 2, 0, 0, 0, 7, 0};
static unsigned char SUM[] = {0, 0, 0, 23, 0x80, 1, 0, 2, 0, 0, 0, 3, 'a', 'd', 'd', 0, 0, 0, 0, 8, 0, 0, 0, 0, 0, 0, 0};

/* what is sent, what has to come back, how much more the number in the reply is, and how much is read at once */
static struct frame call = {ADD, sizeof ADD, 15, 22}, reply = {SUM, sizeof SUM, 15, 22};
static uint32_t more = 7;
static size_t room = 65536;

static uint32_t *times;
static size_t timed;

static uint64_t now(void) {
  struct timespec t;
  clock_gettime(CLOCK_MONOTONIC, &t);
  return (uint64_t)t.tv_sec * 1000000000u + (uint64_t)t.tv_nsec;
}

static void put(unsigned char *at, uint32_t n) {
  at[0] = n >> 24, at[1] = n >> 16, at[2] = n >> 8, at[3] = n;
}

static void stop(const char *why) {
  fprintf(stderr, "load: %s\n", why);
  exit(1);
}

/* a message of `same` of this type, with a list of so many points in this field */
static struct frame same(unsigned char type, unsigned char field, uint32_t points) {
  const unsigned char head[] = {0, 0, 0, 0, 0x80, 1, 0, type, 0, 0, 0, 4, 's', 'a', 'm', 'e', 0, 0, 0, 0, 15, 0, field, 12, 0, 0, 0, 0};
  const unsigned char point[POINT] = {8, 0, 1, 0, 0, 0, 0, 8, 0, 2, 0, 0, 0, 0, 0};
  struct frame made = {NULL, sizeof head + (size_t)points * POINT + 1, 16, sizeof head + 3};
  made.bytes = calloc(1, made.size);
  memcpy(made.bytes, head, sizeof head);
  put(made.bytes, (uint32_t)made.size - 4);
  put(made.bytes + sizeof head - 4, points);
  for (uint32_t k = 0; k < points; k++) {
    unsigned char *at = made.bytes + sizeof head + (size_t)k * POINT;
    memcpy(at, point, POINT);
    put(at + 3, k * 7919);
    put(at + 10, k * 104729);
  }
  return made;
}

/* so many calls more, in one write */
static void ask(struct link *l, uint32_t count, uint32_t depth) {
  static unsigned char *out;
  uint64_t at = now();
  if (!out) out = malloc(call.size * depth);
  for (uint32_t k = 0; k < count; k++) {
    unsigned char *frame = out + k * call.size;
    memcpy(frame, call.bytes, call.size);
    put(frame + call.id_at, l->asked);
    put(frame + call.value_at, l->asked);
    l->began[l->asked % depth] = at;
    l->asked++;
  }
  for (size_t sent = 0, all = count * call.size; sent < all;) {
    ssize_t n = write(l->fd, out + sent, all - sent);
    if (n < 0 && errno != EAGAIN) stop("a connection broke");
    if (n > 0) sent += (size_t)n;
  }
}

/* how many replies have come */
static uint32_t take(struct link *l, uint32_t depth) {
  ssize_t n = read(l->fd, l->in + l->held, room - l->held);
  if (n == 0) stop("a connection was closed");
  if (n < 0 && errno != EAGAIN) stop("a connection broke");
  if (n > 0) l->held += (size_t)n;
  uint32_t count = 0;
  uint64_t at = now();
  size_t place = 0;
  for (; l->held - place >= reply.size; place += reply.size) {
    put(reply.bytes + reply.id_at, l->answered);
    put(reply.bytes + reply.value_at, l->answered + more);
    if (memcmp(l->in + place, reply.bytes, reply.size)) stop("a reply isn't right");
    uint64_t took = (at - l->began[l->answered % depth]) / 1000;
    times[timed++ % SLOTS] = took > UINT32_MAX ? UINT32_MAX : (uint32_t)took;
    l->answered++;
    count++;
  }
  memmove(l->in, l->in + place, l->held - place);
  l->held -= place;
  return count;
}

static int rises(const void *a, const void *b) {
  uint32_t x = *(const uint32_t *)a, y = *(const uint32_t *)b;
  return x < y ? -1 : x > y;
}

/* the microseconds that a process and its threads have run */
static double run_time(const char *pid) {
  char path[64], line[1024];
  unsigned long user, system;
  snprintf(path, sizeof path, "/proc/%s/stat", pid);
  FILE *f = fopen(path, "r");
  if (!f || !fgets(line, sizeof line, f)) stop("there is no such process");
  fclose(f);
  sscanf(strrchr(line, ')') + 1, " %*c %*d %*d %*d %*d %*d %*u %*u %*u %*u %*u %lu %lu", &user, &system);
  return (double)(user + system) * 1e6 / (double)sysconf(_SC_CLK_TCK);
}

static long memory(const char *pid) {
  char path[64], line[256];
  long kilobytes = 0;
  snprintf(path, sizeof path, "/proc/%s/status", pid);
  FILE *f = fopen(path, "r");
  if (!f) stop("there is no such process");
  while (fgets(line, sizeof line, f)) sscanf(line, "VmRSS: %ld", &kilobytes);
  fclose(f);
  return kilobytes;
}

static struct link *dial(uint16_t port, uint32_t depth) {
  struct link *l = calloc(1, sizeof *l);
  struct sockaddr_in to = {.sin_family = AF_INET, .sin_port = htons(port), .sin_addr.s_addr = htonl(INADDR_LOOPBACK)};
  int one = 1;
  l->began = calloc(depth ? depth : 1, sizeof *l->began);
  l->in = malloc(room);
  l->fd = socket(AF_INET, SOCK_STREAM, 0);
  if (l->fd < 0 || connect(l->fd, (struct sockaddr *)&to, sizeof to)) stop("there is no connection to be had");
  setsockopt(l->fd, IPPROTO_TCP, TCP_NODELAY, &one, sizeof one);
  return l;
}

int main(int count, char **words) {
  if (count < 5) stop("load PORT CONNECTIONS DEPTH SECONDS [PID [POINTS]]");
  uint16_t port = (uint16_t)atoi(words[1]);
  int counted = words[4][0] == 'x';
  uint32_t connections = (uint32_t)atoi(words[2]), depth = (uint32_t)atoi(words[3]), seconds = (uint32_t)atoi(words[4] + counted);
  const char *pid = count > 5 ? words[5] : NULL;
  uint32_t points = count > 6 ? (uint32_t)atoi(words[6]) : 0;
  if (connections > MOST || depth > MOST || points > 1000000) stop("too many");
  if (points) call = same(1, 1, points), reply = same(2, 0, points), more = 0;
  if (room < reply.size) room = reply.size;
  times = malloc(SLOTS * sizeof *times);
  struct link *links[MOST];
  long before = pid ? memory(pid) : 0;
  int poll = epoll_create1(0);
  for (uint32_t k = 0; k < connections; k++) {
    links[k] = dial(port, depth);
    struct epoll_event event = {.events = EPOLLIN, .data.u32 = k};
    epoll_ctl(poll, EPOLL_CTL_ADD, links[k]->fd, &event);
  }
  double ran = pid ? run_time(pid) : 0;
  if (seconds == 0) {
    sleep(2);
    printf("%ld %ld %.0f\n", before, pid ? memory(pid) : 0, pid ? (run_time(pid) - ran) / 1e3 : 0.0);
    return 0;
  }
  uint64_t start = now(), end = counted ? UINT64_MAX : start + (uint64_t)seconds * 1000000000u, calls = 0, owed = 0;
  uint64_t most = counted ? seconds : UINT64_MAX;
  for (uint32_t k = 0; k < connections; k++) ask(links[k], depth, depth), owed += depth;
  while (owed) {
    struct epoll_event events[256];
    int n = epoll_wait(poll, events, 256, 20000);
    if (n <= 0) stop("no reply came for 20 seconds");
    int goes_on = now() < end;
    for (int k = 0; k < n; k++) {
      struct link *l = links[events[k].data.u32];
      uint32_t came = take(l, depth);
      calls += came, owed -= came;
      if (most < calls + owed + came) came = most < calls + owed ? 0 : (uint32_t)(most - calls - owed);
      if (goes_on && came) ask(l, came, depth), owed += came;
    }
  }
  double took = (double)(now() - start) / 1e9;
  size_t known = timed < SLOTS ? timed : SLOTS;
  qsort(times, known, sizeof *times, rises);
  printf("%.0f %.2f %u %u\n", (double)calls / took, pid ? (run_time(pid) - ran) / (double)calls : 0.0, times[known / 2], times[known * 99 / 100]);
  return 0;
}
