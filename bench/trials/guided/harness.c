/* Runs the program over and over in one process, on what libFuzzer makes: guided.py builds and starts it.
 *
 * The first byte of an input says what becomes of the rest:
 *   0  an IDL, which is checked
 *   1  a script, which is rehearsed
 *   2  the payload of a frame in the binary protocol to a service with arguments of every kind, behind which comes a good one; it is rehearsed
 *   3  the same in the compact protocol
 *   4  the bytes of a connection to the tutorial's calculator, which is recorded
 * A status that may not be, and a report without an end for its connection, stop it. */
#define _GNU_SOURCE
#include <fcntl.h>
#include <setjmp.h>
#include <stdint.h>
#include <stdio.h>
#include <stdlib.h>
#include <string.h>
#include <sys/mman.h>
#include <unistd.h>

int thriftd_main(int, char **);

enum { MOST = 1 << 16, HEAD = 64 };

static const char *words[8];
static int count, input, output;
static jmp_buf ended;
static char idl[64], given[64];

static const char KINDS[] =
    "enum E { A = 1 B = 2 } union U { 1: i32 a 2: string b } struct P { 1: required i32 x 2: list<P> more }\n"
    "struct S { 1: bool a = 1 2: i8 b 3: i16 c 4: i32 d = 4 5: i64 e 6: double f 7: string g = \"g\" 8: binary h 9: E i 10: U j 11: P k 12: list<i32> l\n"
    "  13: set<string> m 14: map<i32, P> n 15: map<string, list<set<i64>>> o 16: list<bool> p 17: set<P> q 18: map<P, U> r 19: optional S s 200: list<S> t }\n"
    "service K { S f(1: S s 2: i32 n 3: list<U> us) }\n";

/* what the program calls in place of the C library's and the kit's functions */
void thriftd_exit(int status) { longjmp(ended, status + 1); }
int64_t rattle_arg_count(void) { return count; }

int64_t rattle_arg(uint64_t number, char *to, uint64_t room) {
  if (number >= (uint64_t)count) return -1;
  size_t size = strlen(words[number]);
  if (size > room) return -2;
  memcpy(to, words[number], size);
  return (int64_t)size;
}

static void must(int holds) {
  if (!holds) abort();
}

static void put(const char *name, const void *text, size_t size) {
  int file = open(name, O_WRONLY | O_CREAT | O_TRUNC, 0600);
  must(file >= 0 && write(file, text, size) == (ssize_t)size);
  close(file);
}

int LLVMFuzzerInitialize(int *argc, char ***argv) {
  (void)argc, (void)argv;
  snprintf(idl, sizeof idl, "/dev/shm/kinds-%d.thrift", getpid());
  snprintf(given, sizeof given, "/dev/shm/given-%d.thrift", getpid());
  put(idl, KINDS, sizeof KINDS - 1);
  input = memfd_create("input", 0), output = memfd_create("output", 0);
  must(input >= 0 && output >= 0 && dup2(input, 0) == 0 && dup2(output, 1) == 1);
  return 0;
}

/* runs the program of these words, and says its status */
static int run(int n, const char **line) {
  words[0] = "thriftd", count = n + 1;
  memcpy(words + 1, line, (size_t)n * sizeof *line);
  must(lseek(0, 0, SEEK_SET) == 0 && ftruncate(1, 0) == 0 && lseek(1, 0, SEEK_SET) == 0);
  int status = setjmp(ended);
  if (status == 0) return thriftd_main(1, (char **)words);
  return status - 1;
}

/* a script of one connection with these bytes in hexadecimal */
static void give(const uint8_t *bytes, size_t size) {
  static char text[2 * (MOST + 2 * HEAD) + HEAD];
  size_t at = (size_t)sprintf(text, size ? "open\ndata 0 " : "open");
  for (size_t k = 0; k < size; k++) text[at++] = "0123456789abcdef"[bytes[k] >> 4], text[at++] = "0123456789abcdef"[bytes[k] & 15];
  at += (size_t)sprintf(text + at, "\nend 0\n");
  must(ftruncate(0, 0) == 0 && pwrite(0, text, at, 0) == (ssize_t)at);
}

static void framed(const uint8_t *bytes, size_t size, const char *ping, size_t ping_size) {
  static uint8_t all[MOST + 2 * HEAD];
  all[0] = size >> 24, all[1] = size >> 16, all[2] = size >> 8, all[3] = size;
  memcpy(all + 4, bytes, size);
  memcpy(all + 4 + size, ping, ping_size);
  give(all, 4 + size + ping_size);
}

/* whether the report's last but one line is the end of connection 0 */
static void must_report(void) {
  static char end[1 << 20];
  off_t size = lseek(1, 0, SEEK_END), from = size > (off_t)sizeof end - 1 ? size - (off_t)sizeof end + 1 : 0;
  ssize_t got = pread(1, end, sizeof end - 1, from);
  must(got > 0 && end[got - 1] == '\n');
  end[got] = 0;
  must(from > 0 || strstr(end, "\nconn 0 ") != 0);
}

int LLVMFuzzerTestOneInput(const uint8_t *bytes, size_t size) {
  if (size < 1 || size > MOST) return 0;
  uint8_t kind = bytes[0] % 5;
  bytes++, size--;
  int status;
  if (kind == 0) {
    put(given, bytes, size);
    status = run(2, (const char *[]){"check", given});
    must(status == 0 || status == 2 || status == 5);
  } else if (kind == 1) {
    must(ftruncate(0, 0) == 0 && pwrite(0, bytes, size, 0) == (ssize_t)size);
    status = run(5, (const char *[]){"rehearse", "@tutorial", "binary", "2", "Calculator=calculator"});
    must(status == 0 || status == 3);
  } else if (kind == 4) {
    give(bytes, size);
    must(run(5, (const char *[]){"record", "@tutorial", "binary", "0", "Calculator=calculator"}) == 0);
    must_report();
  } else {
    const char *protocol = kind == 2 ? "binary" : "compact";
    if (kind == 2) framed(bytes, size, "\0\0\0\016\x80\1\0\1\0\0\0\1f\0\0\0\1\0", 18);
    else framed(bytes, size, "\0\0\0\006\x82\x21\1\1f\0", 10);
    must(run(5, (const char *[]){"rehearse", idl, protocol, "0", "K=mirror"}) == 0);
    must_report();
  }
  return 0;
}
