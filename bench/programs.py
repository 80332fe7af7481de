# The two programs that are compared: where they are, how they are built, and how they are run on a day.

import os
import re
import subprocess
import sys

BENCH = os.path.dirname(os.path.abspath(__file__))
ROOT = os.path.dirname(BENCH)
OUT = os.path.join(BENCH, "out")
PROVED_CRATE = os.path.join(ROOT, "crates", "zimuralve")
LIBRARY_CRATE = os.path.join(ROOT, "crates", "playing_library")

RUSTC = ["rustc", "--edition", "2024", "-O", "-C", "target-cpu=x86-64-v2"]
LONGEST_WAIT_SECONDS = 60


def build(command, folder):
    """Runs a command that builds something; what it says is shown only if it fails."""
    told = subprocess.run(command, cwd=folder, stdin=subprocess.DEVNULL,
                          stdout=subprocess.PIPE, stderr=subprocess.STDOUT)
    if told.returncode != 0:
        sys.stdout.buffer.write(told.stdout)
        sys.exit("bench: this failed: " + " ".join(command))


def compile_rust(source, program, units, more):
    """Compiles a Rust program, as one unit or in several; tells where it is."""
    os.makedirs(OUT, exist_ok=True)
    path = os.path.join(OUT, program)
    build(RUSTC + ["-C", "codegen-units=" + str(units)] + more
          + [os.path.join(BENCH, source), "-o", path], BENCH)
    return path


def plain_program(units=1):
    """Builds the program in plain Rust; one unit is what the proved program is compiled as, too."""
    return compile_rust("plain/main.rs", "plain", units, [])


def playing_program():
    """Builds the program that plays days through the proved library and in plain Rust."""
    library = os.path.join(LIBRARY_CRATE, "out")
    if not os.path.exists(os.path.join(library, "libplaying_library.a")):
        build(["rt", "lib"], LIBRARY_CRATE)
    return compile_rust("playing.rs", "playing", 1, ["-L", "native=" + library])


def proved_program(given):
    """The proved program: the one that is given, or the crate's, which is built where it is missing."""
    if given is not None:
        return os.path.abspath(given)
    program = os.path.join(PROVED_CRATE, "out", "zimuralve")
    if not os.path.exists(program):
        build(["rt", "run"], PROVED_CRATE)
    return program


def write_texts(folder, terms, day):
    """Puts the two texts into the folder."""
    for name, text in [("terms.txt", terms), ("day.txt", day)]:
        with open(os.path.join(folder, name), "wb") as file:
            file.write(text)


def answer(program, folder):
    """What the program prints in the folder; it is to end with status 0."""
    ended = subprocess.run([program], cwd=folder, stdin=subprocess.DEVNULL,
                           stdout=subprocess.PIPE, timeout=LONGEST_WAIT_SECONDS)
    if ended.returncode != 0:
        sys.exit("bench: {} ended with status {}".format(program, ended.returncode))
    return ended.stdout


def instructions(program, folder):
    """How many instructions the program takes in the folder, as callgrind counts them."""
    counts = os.path.join(folder, "callgrind.out")
    build(["valgrind", "--tool=callgrind", "--callgrind-out-file=" + counts, program], folder)
    with open(counts) as file:
        found = re.search(r"^(?:summary|totals): (\d+)", file.read(), re.MULTILINE)
    os.remove(counts)
    return int(found.group(1))
