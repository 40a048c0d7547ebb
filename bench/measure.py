"""One run of a program: its time, its peak memory and what it wrote."""
import os
import subprocess

HERE = os.path.dirname(os.path.realpath(__file__))
MEASURE = os.path.join(HERE, "out", "measure")


def build():
    """Builds the program that measures, and the second program, and answers the path of that."""
    os.makedirs(os.path.dirname(MEASURE), exist_ok=True)
    subprocess.run(["cc", "-O1", os.path.join(HERE, "measure.c"), "-o", MEASURE], check=True)
    built = [os.path.join(HERE, "..", "reference", "build")]
    return subprocess.run(built, stdout=subprocess.PIPE, check=True, text=True).stdout.strip()


def write(folder, files):
    for name, text in files.items():
        with open(os.path.join(folder, name), "w", encoding="utf-8", newline="") as file:
            file.write(text)


def once(program, words, folder, seconds=300, memory=8 << 30):
    """User and system seconds, peak memory in MB, status (below 0 where a signal ended it) and output, within limits of both."""
    path, report = os.path.join(folder, ".output"), os.path.join(folder, ".report")
    with open(path, "wb") as output:
        asked = [MEASURE, report, str(seconds), str(memory), program, *words]
        subprocess.run(asked, cwd=folder, stdin=subprocess.DEVNULL, stdout=output, stderr=subprocess.DEVNULL, check=True)
    with open(path, "rb") as output, open(report, encoding="ascii") as told:
        time, peak, status = told.read().split()
        return float(time), int(peak) / 1024, int(status), output.read()
