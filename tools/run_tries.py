"""What tools/examples tries of `run` itself: the status that it ends with, input given in hex, the list of programs, and that nothing is done to what a program says.

Each try is a triple, as in tools/examples: what is tried, what came of it, and what is expected.
The programs themselves are run for their statuses. For the rest small shell programs stand in for them, in a folder of their own with a copy of `run`: there a program says whatever a try needs, and runs once
as on x86-64 and once as under the emulator, whichever processor this is.
"""
import glob
import os
import select
import shutil
import signal
import subprocess
import tempfile

REQUEST = bytes.fromhex("01 00 01 61 11 02 00 FF 01 00")
RECORD = bytes.fromhex("01 07 00 06 00 01 E2 40")
OPENED = bytes.fromhex("38 01 00 00")
LISTING = bytes.fromhex("59 02 FF 03 01 11 2F")
TEXT = b"P0301-11 2F\n"
LISTINGS = "crates/listing_changes_cases/data/"
RECORDED = "crates/oracle_answers/data/answers"

# the status, the words after ./run, and the input
STATUSES = [
    (0, "read_request", REQUEST),
    (1, "read_request", b""),
    (1, "read_request", bytes(4_097)),
    (0, "desk", REQUEST),
    (1, "desk", REQUEST + b"Z"),
    (1, "desk", bytes(131_073)),
    (0, "read_message", b"\x38" + REQUEST),
    (0, "read_message", b"\x7f\x38\x31"),
    (1, "read_message", REQUEST),
    (1, "read_message", bytes(4_097)),
    (0, "why_refused request", REQUEST),
    (1, "why_refused request", b""),
    (1, "why_refused response", bytes(131_073)),
    (2, "why_refused", REQUEST),
    (2, "why_refused Request", REQUEST),
    (0, "wrong_loads", b""),
    (0, "wrong_loads", RECORD),
    (1, "wrong_loads", RECORD + b"Z"),
    (1, "wrong_loads", bytes(65_537)),
    (0, "wrong_loads_chart", b""),
    (0, "wrong_loads_chart", RECORD),
    (1, "wrong_loads_chart", RECORD + b"Z"),
    (1, "wrong_loads_chart", bytes(65_537)),
    (0, "replay_log", b""),
    (0, "replay_log", OPENED),
    (1, "replay_log", OPENED * 2),
    (0, "export_listing", LISTING),
    (0, "export_listing", LISTING[:3]),
    (1, "export_listing", LISTING[:2]),
    (1, "export_listing", bytes(65_537)),
    (0, "import_listing FF", TEXT),
    (0, "import_listing FF", b""),
    (1, "import_listing FF", TEXT[:-1]),
    (1, "import_listing FF", bytes(65_537)),
    (2, "import_listing", TEXT),
    (2, "import_listing ff", TEXT),
    (0, f"listing_changes {LISTINGS}old {LISTINGS}new", b""),
    (0, f"listing_changes {LISTINGS}old {LISTINGS}old", b""),
    (1, f"listing_changes {LISTINGS}twice {LISTINGS}old", b""),
    (1, f"listing_changes {LISTINGS}old {LISTINGS}cut", b""),
    (1, f"listing_changes {LISTINGS}old {LISTINGS}of_65537_bytes", b""),
    (2, f"listing_changes {LISTINGS}old", b""),
    (2, f"listing_changes {LISTINGS}old no-such-file", b""),
    (0, "bench_cases", b""),
    (0, f"oracle_answers {RECORDED}", b""),
    (1, "oracle_answers README.md", b""),
    (2, "oracle_answers no-such-file", b""),
    (2, "oracle_answers", b""),
    (2, "", b""),
    (0, "--list", b""),
    (0, "--help", b""),
]

# what a program says, as a shell prints it, and whether that is a refusal
SAYINGS = [
    (1, "echo refused 1 4 3"),
    (1, "echo refused first 17 3 0; echo more"),
    (1, "echo too long"),
    (0, "true"),
    (0, "printf refused"),
    (0, "echo refused"),
    (0, "echo refusedly 1 2 3"),
    (0, "echo Refused 1 2 3"),
    (0, "echo ' refused 1 2 3'"),
    (0, "echo :refused 1 2 3"),
    (0, "echo too longer"),
    (0, "echo too"),
    (0, "echo accepted; echo refused 1 2 3; echo too long"),
    (0, r"printf '\nrefused 1 2 3\n'"),
    (0, r"printf '\0refused 1 2 3\n'"),
    (0, r"printf '\0'"),
    (0, r"printf 'refu\0sed 1 2 3\n'"),
    (0, "echo refused 1 2 3 >&2"),
]

# the same of the programs that have a rule of their own
OWN_SAYINGS = [
    (1, "import_listing", "echo refused 18 0 0 >&2"),
    (1, "import_listing", "echo too long >&2"),
    (2, "import_listing", "echo usage: >&2"),
    (2, "import_listing", r"printf '\0' >&2"),
    (0, "import_listing", "echo refused 1 2 3"),
    (2, "why_refused", "echo usage: >&2"),
    (2, "listing_changes", "echo usage: >&2"),
    (0, "some_cases", "echo refused 1 2 3; echo too long"),
    (2, "some_cases", "echo a: accepted; echo b: No such file or directory >&2; echo c: accepted"),
    (2, "some_cases", "echo 'refused : No such file or directory' >&2"),
    (0, "bench_cases", "echo refused 1 2 3; echo 24 rows, 0 differ"),
    (1, "bench_cases", "echo DIFFERS; echo 24 rows, 1 differ"),
    (1, "bench_cases", "echo 24 rows, 10 differ"),
    (1, "oracle_answers", "echo 24 answers, 0 differ; echo the file goes on"),
    (0, "wrong_loads_chart", "echo refused 1 2 3"),
    (0, "wrong_loads_chart", "echo; echo; echo '<text>refused 1 2 3</text>'"),
]

# what --hex is given, the bytes that it has
GOOD_HEX = [
    ("", b""),
    (" \n", b""),
    ("02 00 01 61", b"\x02\x00\x01a"),
    ("02000161", b"\x02\x00\x01a"),
    ("  0200 01\t61\r\n", b"\x02\x00\x01a"),
    ("fF Ff ff FF", b"\xff" * 4),
    (bytes(range(256)).hex(" "), bytes(range(256))),
    (bytes(range(256)).hex().upper(), bytes(range(256))),
    ("5a" * 60_000, b"Z" * 60_000),
    ("5a " * 40_000, b"Z" * 40_000),
]

# and what it is given that is no bytes, with what is said about it
ALONE = "stands alone; a byte is two hex digits"
BAD_HEX = [
    ("0", f"the digit 0 at place 0, counted from 0, {ALONE}"),
    ("02 00 1", f"the digit 1 at place 6, counted from 0, {ALONE}"),
    ("0 2", f"the digit 0 at place 0, counted from 0, {ALONE}"),
    ("02 0\n0", f"the digit 0 at place 3, counted from 0, {ALONE}"),
    ("02 0g", "the character g at place 4, counted from 0, is no hex digit"),
    ("02 g0 zz", "the character g at place 3, counted from 0, is no hex digit"),
    ("0x02", "the character x at place 1, counted from 0, is no hex digit"),
    ("02,00", r"the character \, at place 2, counted from 0, is no hex digit"),
    ("02 -1", "the character - at place 3, counted from 0, is no hex digit"),
    ("02\v00", r"the character $'\v' at place 2, counted from 0, is no hex digit"),
    ("*", r"the character \* at place 0, counted from 0, is no hex digit"),
]


def ended(folder, words, given=b"", **more):
    """The status that ./run with these words ends with, and what it says to standard output and to standard error."""
    done = subprocess.run(["./run", *words], cwd=folder, input=given, stdout=subprocess.PIPE, stderr=subprocess.PIPE, **more)
    return done.returncode, done.stdout, done.stderr


def statuses(repo):
    for status, words, given in STATUSES:
        yield f"the status of ./run {words}, of {len(given)} bytes", str(ended(repo, words.split(), given)[0]), str(status)
    for args in sorted(glob.glob(os.path.join(repo, "crates", "*_cases", "args"))):
        program = os.path.basename(os.path.dirname(args))
        with open(args, encoding="ascii") as handle:
            words = handle.read().split()
        done = subprocess.run([os.path.join(repo, "run"), program, *words], cwd=os.path.join(os.path.dirname(args), "data"), stdout=subprocess.PIPE)
        with open(os.path.join(os.path.dirname(args), "stdout"), "rb") as handle:
            yield f"{program}, from where its files are", str((done.returncode, done.stdout == handle.read())), "(0, True)"
        yield f"the status of {program} with files that are not there", str(ended(repo, [program, "no-such-file", "no-such-file"])[0]), "2"


def purpose(path):
    """The name of the program that has this main, and the sentence at its top."""
    with open(path, encoding="utf-8") as handle:
        first = handle.readline().rstrip("\n")
    return path.split(os.sep)[-3], first[3:] if first.startswith("// ") and first.endswith(".") else "(its main.rt does not begin with a sentence)"


def lists(repo):
    """Every program, with what it is for: as `run` lists it, and as README.md has it."""
    purposes = sorted(map(purpose, glob.glob(os.path.join(repo, "crates", "*", "src", "main.rt"))))
    yield "./run --list", ended(repo, ["--list"])[1].decode(), "".join(f"{name:<22} {sentence}\n" for name, sentence in purposes)
    with open(os.path.join(repo, "README.md"), encoding="utf-8") as handle:
        table = handle.read().partition("| Program | What it takes, and what it prints |\n|---|---|\n")[2].partition("\n\n")[0]
    yield "README.md's table of programs", table, "\n".join(f"| `{name}` | {sentence} |" for name, sentence in purposes)
    usage = ended(repo, ["--help"])[1]
    yield "./run alone says on standard error what --help says", str(ended(repo, [])[1:] == (b"", usage)), "True"
    yield "the usage names --list", str(b"./run --list" in usage), "True"
    for name in ("no_such_program", "../crates/desk", "--lists"):
        yield f"./run {name}", str(ended(repo, [name])), str((2, b"", f"run: there is no program '{name}'\n".encode() + usage))


def by_hex(repo):
    """A program's answer to bytes in hex is its answer to the bytes."""
    for status, words, given in STATUSES:
        program, *rest = words.split() or [""]
        if program in ("read_request", "desk", "read_message", "why_refused", "wrong_loads", "replay_log", "export_listing", "import_listing") and len(given) < 50_000:
            yield f"./run {words}, of {len(given)} bytes in hex", str(ended(repo, [program, "--hex", given.hex(" "), *rest])), str(ended(repo, [program, *rest], given))


def stand_ins(folder, repo, machine):
    """Makes the folder, with programs that do what their first word tells the shell; what the environment must be, so that `run` takes this for a machine of that sort."""
    shutil.copy(os.path.join(repo, "run"), folder)
    programs = ["any", "cat", "words"] + sorted({name for _, name, _ in OWN_SAYINGS})
    for name in programs:
        os.makedirs(os.path.join(folder, "crates", name, "src"))
        open(os.path.join(folder, "crates", name, "src", "main.rt"), "w", encoding="ascii").close()
    open(os.path.join(folder, "crates.txt"), "w", encoding="ascii").close()
    doing = {"cat": "cat", "words": r"""printf '%s\n' "$#" "$@" """}
    scripts = {f"crates/{name}/out/{name}": doing.get(name, 'eval "$1"') for name in programs}
    scripts["fake/uname"] = f"echo {machine}"
    scripts["fake/rt"] = f"[ $1 = doc ] && echo {folder}/START-HERE.md"
    scripts["fake/qemu-x86_64"] = f'[ "$1 $2 $3" = "{folder}/toolchain/lib/ld-linux-x86-64.so.2 --library-path {folder}/toolchain/lib" ] && shift 3 && machine=emulated exec "$@"'
    for path, text in scripts.items():
        path = os.path.join(folder, path)
        os.makedirs(os.path.dirname(path), exist_ok=True)
        with open(path, "w", encoding="ascii") as handle:
            handle.write(f"#!/usr/bin/env bash\n{text}\n")
        os.chmod(path, 0o755)
    return {**os.environ, "PATH": f"{folder}/fake:{os.environ['PATH']}"}


def said(folder, env):
    for status, doing in SAYINGS:
        yield f"the status of {doing}", str(ended(folder, ["any", doing], env=env)[0]), str(status)
    for status, name, doing in OWN_SAYINGS:
        yield f"the status of {name}: {doing}", str(ended(folder, [name, doing], env=env)[0]), str(status)


def hex_texts(folder, env):
    for text, given in GOOD_HEX:
        yield f"--hex {text[:20]!r}", str(ended(folder, ["cat", "--hex", text], b"not read", env=env) == (0, given, b"")), "True"
    for text, error in BAD_HEX:
        yield f"--hex {text!r}", str(ended(folder, ["any", "--hex", text, "echo it was run"], env=env)), str((2, b"", f"run: --hex: {error}\n".encode()))
    missing = b"run: --hex: the bytes are missing, as in --hex '02 00 01 61'\n"
    yield "--hex and no text", str(ended(folder, ["any", "--hex"], env=env)), str((2, b"", missing))
    yield "--hex behind a word", ended(folder, ["words", "a", "--hex", "0"], env=env)[1].decode(), "3\na\n--hex\n0\n"
    yield "--hex twice", ended(folder, ["words", "--hex", "", "--hex", "0"], env=env)[1].decode(), "2\n--hex\n0\n"


def untouched(folder, env):
    """What a program says comes through as it is, and so does how it ends."""
    blob = bytes(range(256)) * 4_000
    for name in ("any", "import_listing"):
        yield f"a million bytes of {name}", str(ended(folder, [name, "cat"], blob, env=env) == (0, blob, b"")), "True"
        both = ended(folder, [name, "echo to output; echo to error >&2"], env=env)[1:]
        yield f"the two streams of {name}", str(both), str((b"to output\n", b"to error\n"))
        for number in (3, 127):
            yield f"{name} ends with {number}", str(ended(folder, [name, f"echo refused 1 2 3; exit {number}"], env=env)), str((number, b"refused 1 2 3\n", b""))
        for number in (signal.SIGSEGV, signal.SIGKILL, signal.SIGTERM):
            yield f"{name} ended by {number.name}", str(ended(folder, [name, f"echo a; kill -{int(number)} $$"], env=env)), str((-number, b"a\n", b""))
    yield "a million bytes on standard error", str(ended(folder, ["import_listing", "cat >&2"], blob, env=env) == (2, b"", blob)), "True"
    yield "a file beside the caller, and one by its descriptor", shell(folder, env, "mkdir -p sub && cd sub && echo a >a && ../run any 'cat a /dev/fd/3' 3<a"), "a\na\n0\n"


def shell(folder, env, command):
    """What a command of the shell prints, and its status; what it says to standard error stands there too."""
    done = subprocess.run(["bash", "-c", f"set -o pipefail; {command}"], cwd=folder, env=env, stdin=subprocess.DEVNULL, stdout=subprocess.PIPE, stderr=subprocess.STDOUT, timeout=60)
    return f"{done.stdout.decode()}{done.returncode}\n"


def readers(folder, env):
    """What reads an answer may go away, may be full, may not be there; and it gets each piece when it is printed."""
    yield "the reader goes away", shell(folder, env, "./run any 'seq 1000000' | head -n 1"), f"1\n{128 + signal.SIGPIPE}\n"
    yield "the reader is gone before the answer comes", shell(folder, env, "./run any 'sleep 0.5; echo a' | true"), f"{128 + signal.SIGPIPE}\n"
    yield "the reader goes away after a short answer", shell(folder, env, "./run any 'echo refused 1 2 3' | head -n 1"), "refused 1 2 3\n1\n"
    yield "the reader is full", str(shell(folder, env, "./run any 'echo a' >/dev/full").endswith("run: the answer could not be written\n2\n")), "True"
    yield "there is no reader", shell(folder, env, "./run any 'echo refused 1 2 3' >&-"), "1\n"
    yield "there is no input", shell(folder, env, "./run any 'read -r word || echo none' <&- 2>/dev/null"), "none\n0\n"
    program = subprocess.Popen(["./run", "any", "echo first; read -r word; echo $word"], cwd=folder, env=env, stdin=subprocess.PIPE, stdout=subprocess.PIPE)
    came = select.select([program.stdout], [], [], 30)[0]
    yield "the first line, before the input comes", os.read(program.stdout.fileno(), 100).decode() if came else "nothing in 30 seconds", "first\n"
    yield "the rest", program.communicate(b"second\n")[0].decode(), "second\n"


def not_run(folder, env):
    """What is not proved is not run, and a fault of `run` itself is no refusal. (This takes the programs away.)"""
    os.utime(os.path.join(folder, "crates.txt"))
    reasons = b"run: proving and building any\nrun: any is not proved; the whole account is in target/run.log\n"
    yield "a program that is not proved", str(ended(folder, ["any", "echo it was run"], env=env)), str((2, b"", reasons))
    shutil.rmtree(os.path.join(folder, "target"))
    open(os.path.join(folder, "target"), "w", encoding="ascii").close()
    yield "no folder for the account", str(ended(folder, ["any", "echo it was run"], env=env)[:2]), str((2, b""))


def tries(repo):
    for part in (statuses, lists, by_hex):
        yield from part(repo)
    for machine in ("x86_64", "aarch64"):
        with tempfile.TemporaryDirectory() as folder:
            env = stand_ins(folder, repo, machine)
            yield f"on {machine}: the emulator", ended(folder, ["any", "echo ${machine:-itself}"], env=env)[1].decode(), "itself\n" if machine == "x86_64" else "emulated\n"
            for part in (said, hex_texts, untouched, readers, not_run):
                for what, text, expected in part(folder, env):
                    yield f"on {machine}: {what}", text, expected
