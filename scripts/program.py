"""The built program, for the scripts that run it: where it lies, a call of it, and what is wrong with a call's answer."""
import difflib
import os
import shutil
import subprocess

ROOT = os.path.dirname(os.path.dirname(os.path.abspath(__file__)))
BUILDER = os.path.join(ROOT, "logix")
PROGRAM = os.path.join(ROOT, "crates", "logix", "out", "logix")
SMALL = os.path.join(ROOT, "crates", "logix", "data", "first.fcp")
SECONDS = 120
DIFF_LINES = 20
# what ./logix exits with where the tool is missing, and where the build fails
NO_TOOL = 127
NO_BUILD = 125


def built():
    """Has ./logix build the program, which then shows a small module. Gives None, or why there is no program to run."""
    status = subprocess.run([BUILDER, "show", SMALL], stdin=subprocess.DEVNULL, stdout=subprocess.DEVNULL).returncode
    if status == NO_TOOL:
        return "the tool that builds the program is missing"
    if status == NO_BUILD:
        return "the program could not be built"
    return None if os.access(PROGRAM, os.X_OK) else f"there is no program after ./logix, which ended with status {status}"


def not_run(subject, why):
    """Says why nothing was run. Without the tool nothing was tried; a build that fails is a failure. Gives the exit status."""
    failed = int(shutil.which("rt") is not None)
    print(f"{subject}: not run, as {why}")
    return summed(0, failed)


def summed(passed, failed):
    """Prints the last line of a script. Gives its exit status."""
    print(f"{passed} passed, {failed} failed")
    return 1 if failed else 0


def called(words, program=PROGRAM, folder=None):
    """The end of a call of the program with these words, or None where it has none in time."""
    try:
        return subprocess.run([program, *words], cwd=folder, stdin=subprocess.DEVNULL, capture_output=True, timeout=SECONDS)
    except subprocess.TimeoutExpired:
        return None


def ended_otherwise(done, status):
    """What is wrong with the status of a call, or with what stands on standard error: a list of lines."""
    if done is None:
        return [f"  no end after {SECONDS} seconds"]
    wrong = []
    if done.returncode != status:
        wrong.append(f"  exit status {done.returncode}, and {status} is expected")
    if done.stderr:
        wrong.append(f"  on standard error: {done.stderr[-300:].decode('utf-8', 'replace')}")
    return wrong


def differences(wanted, got):
    """The first lines of a diff, and none where both are the same."""
    if wanted == got:
        return []
    old = wanted.decode("utf-8", "replace").splitlines()
    new = got.decode("utf-8", "replace").splitlines()
    lines = list(difflib.unified_diff(old, new, "expected", "printed", lineterm="", n=1))
    if not lines:
        lines = ["the lines are the same, and the bytes are not (a missing or added line feed?)"]
    return [f"  {line[:200]}" for line in lines[:DIFF_LINES]]
