#!/usr/bin/env bash
# Times `check` on an IDL of 4 MB (about 1,000 structs, enums, constants and services) and on the hard files of trap_files.py, their schemas
# printed to nowhere. For each it prints the seconds by the clock and of the processor (the least of five runs), the peak memory, its bytes for
# each byte of the text, and how many times the processor's seconds of the file of 4 MB it took. Where Apache's compiler `thrift` is installed,
# the same of it on the file of 4 MB, for its cheapest generators. It ends with status 1 where a hard file takes more than 4 times the time, where
# more than 80 bytes a byte are taken, or where Apache's compiler was faster. check.sh [PROGRAM]: the program, if not the one that ./thriftd runs.
set -euo pipefail
here=$(dirname "$(readlink -f "${BASH_SOURCE[0]}")")
program=${1:-$(THRIFTD_PATH_ONLY=1 "$here/../../thriftd")}
work=$(mktemp -d)
trap 'rm -rf "$work"' EXIT
python3 - > "$work/large.thrift" <<'PY'
kinds = ["required i64", "optional string", "list<map<string, i32>>", "Kind%d", "binary"]
parts, size, k = [], 0, 0
while True:
    lines = ["/** Table number %d. */" % k, "enum Kind%d { OPEN = 1, PAID = 2, SENT = 3, CLOSED }" % k]
    lines.append('const map<string, i32> LIMITS%d = {"lines": %d, "days": 30}' % (k, k))
    lines.append("struct Row%d {" % k)
    for f in range(1, 61):
        kind = kinds[f % 5].replace("%d", str(k))
        lines.append("  %d: %s field_%d%s," % (f, kind, f, ' = "none"' if f % 5 == 1 else ""))
    lines.append("}\nexception NoRow%d { 1: string why }\nservice Table%d {" % (k, k))
    for f in range(20):
        lines.append("  list<Row%d> find_%d(1: set<Kind%d> kinds, 2: i32 most) throws (1: NoRow%d missing), // by number %d" % (k, f, k, k, f))
    lines.append("}")
    part = "\n".join(lines) + "\n"
    if size + len(part) > 4194304:
        break
    parts.append(part)
    size += len(part)
    k += 1
print("".join(parts), end="")
PY
python3 "$here/trap_files.py" "$work" > /dev/null
python3 - "$program" "$work" <<'PY'
import os, shutil, sys, time
program, work = sys.argv[1], sys.argv[2]
HARD = ["typedefs", "empty_structs", "services", "includes", "enum_values", "constants"]

def run(words):
    begin = time.monotonic()
    child = os.fork()
    if child == 0:
        os.chdir(work)
        quiet = os.open(os.devnull, os.O_RDWR)
        for stream in (0, 1, 2):
            os.dup2(quiet, stream)
        os.execvp(words[0], words)
    _, status, usage = os.wait4(child, 0)
    if status != 0:
        sys.exit("%s ended with status %d" % (" ".join(words), os.waitstatus_to_exitcode(status)))
    return time.monotonic() - begin, usage.ru_utime + usage.ru_stime, usage.ru_maxrss * 1024

def measure(name, words, size):
    runs = [run(words) for _ in range(5)]
    clock, processor, peak = min(r[0] for r in runs), min(r[1] for r in runs), max(r[2] for r in runs)
    times = processor / measured["large"][0] if measured else 1.0
    print("%-22s %9d %7.2f %9.2f %9.0f %12.1f %6.1f" % (name, size, clock, processor, peak / 1e6, peak / size, times))
    measured[name] = (processor, peak / size)

measured = {}
print("%-22s %9s %7s %9s %9s %12s %6s" % ("", "bytes", "clock", "processor", "peak MB", "bytes a byte", "times"))
for name in ["large"] + HARD:
    idl = name + ".thrift"
    measure(name, [program, "check", idl], os.path.getsize(os.path.join(work, idl)))
if shutil.which("thrift"):
    for kind in ("json", "gv"):
        idl = os.path.join(work, "large.thrift")
        measure("thrift -gen %s" % kind, ["thrift", "-gen", kind, "-o", work, idl], os.path.getsize(idl))
large = measured["large"]
slow = ["%s is slow" % name for name in HARD if measured[name][0] > 4 * large[0]]
slow += ["%s takes much memory" % name for name in ["large"] + HARD if measured[name][1] > 80]
slow += ["%s is faster" % name for name in measured if name.startswith("thrift") and measured[name][0] < large[0]]
print("\n".join(slow) or "all is within what is asked")
sys.exit(1 if slow else 0)
PY
