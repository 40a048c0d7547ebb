"""The programs that are compared, run in a folder of their own."""
import os
import subprocess

REFERENCE = os.path.join(os.path.dirname(os.path.realpath(__file__)), "..", "..", "reference")


def reference():
    """The second program, which is built where it is not up to date."""
    built = subprocess.run([os.path.join(REFERENCE, "build")], stdout=subprocess.PIPE, check=True, text=True)
    return built.stdout.strip()


def write(files, folder):
    """Leaves these files and no others in a folder."""
    for name in os.listdir(folder):
        os.remove(os.path.join(folder, name))
    for name, text in files.items():
        with open(os.path.join(folder, name), "wb") as file:
            file.write(text)


def run(program, words, files, folder, patience, given=b""):
    """The status, the output and what is written on standard error, over these files."""
    write(files, folder)
    ran = subprocess.run([program, *words], cwd=folder, input=given, capture_output=True, timeout=patience)
    return ran.returncode, ran.stdout, ran.stderr
