"""What the scripts in Python share that try the program: a line that begins with the script's name, tests that
are counted, the JDK beside `java`, and the built program."""
import os
import pathlib
import shutil
import subprocess
import sys

SCRIPTS = pathlib.Path(__file__).resolve().parent
TOP = SCRIPTS.parent
# The program that is tried: `$JM_TOOL`, or the built one.
PROGRAM = pathlib.Path(os.environ.get("JM_TOOL") or TOP / "crates/jm_tool/out/jm_tool").resolve()
NAME = pathlib.Path(sys.argv[0]).name
judged = {True: 0, False: 0}


def say(text):
    print(f"{NAME}: {text}", flush=True)


def skip(why):
    """Ends with a line that says why nothing is tried, and status 0."""
    say(f"skipped, {why}")
    sys.exit(0)


def judge(passed, text):
    """Counts a test, and puts the text where it failed."""
    judged[bool(passed)] += 1
    if not passed:
        say(text)


def finish():
    """Puts how many tests passed and failed, and gives the status."""
    say(f"{judged[True]} passed, {judged[False]} failed")
    return 1 if judged[False] else 0


def jdk(words):
    """The folder of a JDK, the first word or else that of the JDK beside `java`; None where there is none."""
    if words:
        return pathlib.Path(words[0])
    java = shutil.which("java")
    return pathlib.Path(java).resolve().parent.parent if java else None


def is_built():
    """Whether there is a program: `$JM_TOOL`, or the built one, which is proved and built first where that isn't done
    yet."""
    return bool(os.environ.get("JM_TOOL")) or subprocess.run([SCRIPTS / "jm_tool", "--version"], stdout=subprocess.DEVNULL).returncode == 0


def find_program(path=None):
    """The program at this path, or without it `$JM_TOOL`, or the built one, which is proved and built first where that
    isn't done yet; ends with status 1 where that fails."""
    if not path and not is_built():
        say("the program isn't built")
        sys.exit(1)
    return pathlib.Path(path).resolve() if path else PROGRAM
