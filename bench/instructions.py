"""Counts the instructions of each call of `measured` in a program: by valgrind's callgrind on x86-64, elsewhere from the log
of the emulator that the program runs on."""
import glob
import os
import subprocess
import sys
import tempfile

NATIVE = os.uname().machine == "x86_64"
EMULATOR = "qemu-x86_64"
# A repeated store costs callgrind and the emulator a step for each byte; without them memset stores in wide steps.
COUNTING = {"LD_BIND_NOW": "1",
            "GLIBC_TUNABLES": "glibc.cpu.x86_rep_stosb_threshold=1000000:glibc.cpu.x86_rep_movsb_threshold=1000000"}
TIMING = {"LD_BIND_NOW": "1"} if NATIVE else COUNTING


def machine():
    """On what the programs run, and how instructions are counted."""
    if NATIVE:
        return "The programs ran on x86-64. Instructions are callgrind's."
    version = subprocess.run([EMULATOR, "--version"], capture_output=True, text=True, check=True).stdout.split()[2]
    return (f"The machine was {os.uname().machine}: the programs, all four x86-64 code, ran on one emulator ({EMULATOR} "
            f"{version}). The ratios of times are worth something, the times are not. Instructions are from its log.")


def of_calls(program, words, questions):
    """The count of each call, in order; questions is an open file."""
    counts = by_callgrind(program, words, questions) if NATIVE else by_log(program, words, questions)
    return [n for n in counts if n]


def of_source(name):
    """The counts of bench/NAME.c, which asks itself, with the static library that bindings/build has made."""
    root = os.path.dirname(os.path.dirname(os.path.abspath(__file__)))
    program = os.path.join(root, "target", name)
    build = f". tools/x86.sh && x86_link gcc {program} -O2 -Iinclude bench/{name}.c target/staticlib/libcapi.a"
    subprocess.run(["bash", "-c", build], cwd=root, check=True)
    with open(os.devnull) as nothing:
        return of_calls(program, [], nothing)


def started(words, questions, **more):
    return subprocess.Popen(words, stdin=questions, stdout=subprocess.DEVNULL, env={**os.environ, **COUNTING}, **more)


def ended(program, process):
    if process.wait():
        sys.exit(f"bench: {program} stopped while its instructions were counted")


def by_callgrind(program, words, questions):
    with tempfile.TemporaryDirectory() as folder:
        out = os.path.join(folder, "out")
        ended(program, started(["valgrind", "--tool=callgrind", "--toggle-collect=measured", "--dump-after=measured",
                                f"--callgrind-out-file={out}", program, *words], questions, stderr=subprocess.DEVNULL))
        dumps = sorted(glob.glob(out + ".*"), key=lambda path: int(path.rsplit(".", 1)[1]))
        return [int(line.split()[1]) for path in dumps for line in open(path) if line.startswith("summary:")]


def by_log(program, words, questions):
    """The log has each block of instructions when it is first met, and a line each time that one is executed. A call lasts
    from the first block of `measured` until more has returned than was called."""
    emulator = started([EMULATOR, "-d", "in_asm,exec,nochain", program + ".x86-64", *words], questions,
                       stderr=subprocess.PIPE)
    sizes, turns = {}, {}  # of a block: its instructions; 1 if it ends in a call, -1 if in a return
    counts, count, depth = [], 0, None
    for line in emulator.stderr:
        if line.startswith(b"Trace"):
            if depth is None and line.endswith(b" measured\n"):
                count = depth = 0
            if depth is not None:
                block = line.split(b"/", 2)[1]
                count += sizes[block]
                depth += turns[block]
                if depth < 0:
                    counts.append(count)
                    depth = None
        elif line.startswith(b"IN:"):
            block = None
        elif line.startswith(b"0x"):
            address, code = line.split(b":", 1)
            if block is None:
                block = b"%016x" % int(address, 16)
                sizes[block] = 0
            # Eight bytes a line; the rest of a longer instruction stands by itself on the next one.
            if len(code) > 27:
                sizes[block] += 1
                turns[block] = (b"callq" in code) - (b"retq" in code)
        elif line.startswith(b"Stopped"):
            sys.exit(f"bench: the emulator left a block of {program} half way")
    ended(program, emulator)
    return counts
