"""The steps that relink_jdk and compact_jdk share: all modules of a JDK as folders, and links of them, with what
each says and uses."""
import filecmp
import os
import pathlib
import subprocess
import tempfile
import time

from preamble import PROGRAM, is_built, jdk, judge, say, skip

STRIP, COMPACT = "--strip-java-debug-attributes", "--compact-pool"
# The words with which a link takes the classes of the JDK, once its folders are made.
release = []


def run(*words):
    """Status, output and error text of a command, and milliseconds on the clock, of processors, bytes of memory.

    What this program itself has in memory counts for the command too, so it never holds a whole image.
    """
    with tempfile.TemporaryFile() as out, tempfile.TemporaryFile() as err:
        start = time.monotonic()
        process = subprocess.Popen([str(word) for word in words], stdout=out, stderr=err)
        _, status, used = os.wait4(process.pid, 0)
        process.returncode = os.waitstatus_to_exitcode(status)
        clock = round(1000 * (time.monotonic() - start))
        texts = []
        for file in (out, err):
            file.seek(0)
            texts.append(file.read().decode(errors="replace"))
    processors = round(1000 * (used.ru_utime + used.ru_stime))
    return process.returncode, *texts, clock, processors, used.ru_maxrss * 1024


def link(source, modules, output, *words):
    """What a link says, which must end well, and what it used."""
    status, out, err, *used = run(PROGRAM, "link", *source, "--add-modules", modules, "--output", output, *release, *words)
    judge((status, err) == (0, ""), f"link of {output.name} ends with {status}: {err[:300].rstrip()}")
    return out, used


def least(runs):
    """Of what some runs used the least of each: on the clock, of processors, bytes of memory."""
    return [min(values) for values in zip(*runs)]


def same(one, other):
    return one.exists() and other.exists() and filecmp.cmp(one, other, shallow=False)


def folders(home, room):
    """The folder of all modules of a JDK, and their names as a word of a link."""
    mods = room / "mods"
    subprocess.run([home / "bin/jimage", "extract", "--dir", mods, home / "lib/modules"], check=True)
    # Bytes 6 and 7 of a class are its major version, that of its release of Java SE plus 44.
    major = int.from_bytes((mods / "java.base/module-info.class").read_bytes()[6:8], "big")
    if major > 69:
        skip(f"the classes of {home} are of version {major}")
    release[:] = ["--release", major - 44] if major > 65 else []
    return mods, ",".join(sorted(path.name for path in mods.iterdir()))


def with_jdk(words, commands, work):
    """Does the work with a JDK that has lib/modules and these commands, and a folder of its own; gives the status."""
    home = jdk(words)
    if not home or not all((home / part).exists() for part in ("lib/modules", *(f"bin/{name}" for name in commands))):
        *some, last = commands
        named = f"commands {', '.join(some)} and {last}" if some else f"command {last}"
        skip(f"there is no lib/modules with the {named}")
    if not is_built():
        say("the program isn't built")
        return 1
    with tempfile.TemporaryDirectory() as folder:
        return work(home, pathlib.Path(folder))
