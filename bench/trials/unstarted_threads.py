"""`thriftd record` where threads can't be started, for bench/trials/recorded_runs.py: as a user who may have just so many.

The user is one of whom there is no other program, since the limit, RLIMIT_NPROC, counts the threads of all of a user's programs. For each limit the run has to end with status 0 and a right
report. How many threads there were is looked up while it runs, and each number from none to eight has to be seen.
"""
import os
import resource
import shutil
import subprocess
import tempfile

WORKERS, FREE_USERS = 8, range(61_000, 62_000)


def free_user():
    """A user of whom there is no program."""
    owners = set()
    for pid in filter(str.isdigit, os.listdir("/proc")):
        try:
            owners.add(os.stat("/proc/" + pid).st_uid)
        except OSError:
            pass
    return next(user for user in FREE_USERS if user not in owners)


def count_of(pid):
    """How many threads a program has, or 0 where it has ended."""
    try:
        return len(os.listdir("/proc/%d/task" % pid))
    except OSError:
        return 0


def as_user(user, limit):
    """Makes the program that is started then one of this user's, who may have so many threads."""
    def become():
        os.setgroups([])
        os.setgid(user)
        os.setuid(user)
        resource.setrlimit(resource.RLIMIT_NPROC, (limit, limit))
    return become


def record(runs, folder, text, limit):
    """Runs the script, and judges its report; answers how many threads were seen beside the first."""
    script, seen = os.path.join(folder, "script"), 0
    with open(script, "wb") as out:
        out.write(text)
    with open(script, "rb") as given, open(os.path.join(folder, "out"), "w+b") as out, open(os.path.join(folder, "errors"), "w+b") as errors:
        command = [os.path.join(folder, os.path.basename(runs.program))] + runs.command(WORKERS)[1:]
        run = subprocess.Popen(command, stdin=given, stdout=out, stderr=errors, cwd=folder, preexec_fn=as_user(free_user(), limit))
        while run.poll() is None:
            seen = max(seen, count_of(run.pid) - 1)
        out.seek(0)
        errors.seek(0)
        done = subprocess.CompletedProcess(command, run.returncode, out.read(), errors.read())
    runs.judge(done, text, WORKERS)
    return seen


def all_of(runs, text):
    """Records the script with a limit of 1 to 9 threads; answers whether each number of them was seen."""
    if os.getuid() != 0:
        print("threads that can't be started: left out, since only root may become another user")
        return True
    with tempfile.TemporaryDirectory() as folder:
        os.chmod(folder, 0o755)
        shutil.copy(runs.program, folder)
        seen = {record(runs, folder, text, limit) for _ in range(1 if runs.is_quick else 3) for limit in range(1, WORKERS + 2)}
    return seen >= set(range(WORKERS + 1))
