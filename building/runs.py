"""Commands that run beside this script, their logs, and how many there may be."""
import fcntl
import os
import signal
import subprocess
import sys

from building.crates import LOGS, MEMORY, OUT, say, text_of


def start(words, where, log, held):
    """A command in a session of its own, so that Ctrl-C reaches it through this script alone. It has the lock `held`
    too: where this script is killed, the next one waits until the command has ended."""
    how = {"stdin": subprocess.DEVNULL, "stderr": subprocess.STDOUT, "start_new_session": True}
    with open(log, "wb") as file:
        return subprocess.Popen(words, cwd=where, stdout=file, pass_fds=(held.fileno(),), **how)


def log_of(crate):
    return f"{LOGS}/{crate}.log"


def show_log(crate):
    """Shows the lines that tell why a crate was not proved."""
    told = (text_of(log_of(crate)) or "").splitlines()
    for line in [it for it in told if "error" in it][:3] or told[-3:]:
        print(f"    {line[:160]}", file=sys.stderr)


def wait_for(run):
    try:
        run.wait()
    except BaseException:
        end_run(run)
        raise


def end_run(run):
    """Ends a command and all that it started."""
    for number, patience in ((signal.SIGTERM, 10), (signal.SIGKILL, None)):
        try:
            os.killpg(run.pid, number)
        except ProcessLookupError:
            pass
        try:
            run.wait(patience)
            return
        except subprocess.TimeoutExpired:
            pass


def lanes():
    """How many proofs go side by side: as many as there are processors, and memory for."""
    free = 0
    for line in (text_of("/proc/meminfo") or "").splitlines():
        if line.startswith("MemAvailable:"):
            free = int(line.split()[1]) * 1024
    return max(1, min(len(os.sched_getaffinity(0)), free // MEMORY))


def minutes(length):
    if length < 60:
        return f"{int(length)} s"
    return f"{int(length) // 60} min {int(length) % 60} s" if length < 600 else f"{round(length / 60)} min"


def alone(program):
    """Waits until no other build works here; the answer keeps others out until this script ends."""
    os.makedirs(LOGS, exist_ok=True)
    held = open(f"{OUT}/lock", "w")
    try:
        fcntl.flock(held, fcntl.LOCK_EX | fcntl.LOCK_NB)
    except OSError:
        say(program, "waits for another build in this folder")
        fcntl.flock(held, fcntl.LOCK_EX)
    return held
