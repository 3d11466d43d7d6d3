#!/usr/bin/env python3
"""dist.py PROGRAM: makes a dist/ of the program in a copy of the repository, and tries what `make` does with it on a machine without the toolchain: a PATH of
sh, make, gzip, awk, find and the core utilities alone. If a toolchain is needed, a substitute `rt` "builds" the program by copying it.
Prints each difference, and last 'N passed, M failed'."""
import gzip
import hashlib
import os
import shlex
import shutil
import subprocess
import sys
import tempfile

sys.dont_write_bytecode = True
from running import Answers

answers = Answers.of_arguments(__doc__)
PROGRAM = answers.program
ROOT = os.path.abspath(os.path.join(os.path.dirname(os.path.abspath(__file__)), ".."))
COMMANDS = "sh make gzip awk find sha256sum cat chmod cp cut dirname install mkdir mktemp mv rm sort wc".split()
FILES = [
    "bin/arrowstore",
    "share/bash-completion/completions/arrowstore",
    "share/fish/vendor_completions.d/arrowstore.fish",
    "share/man/man1/arrowstore.1",
    "share/zsh/site-functions/_arrowstore",
]
STAND_IN = f"""#!/bin/sh
set -e
if [ "$1" = help ]; then
    echo "  rt ci $KNOWN_OF_CI  the merge gate" >&2
    exit 0
fi
if [ "$1" = ci ]; then
    echo "called with: $*."
    mkdir crates/program/out
    cp '{PROGRAM}' crates/program/out/program
    for extra in crates/*/must-fail crates/*/wrong-bodies crates/test_*; do
        [ ! -e "$extra" ] || exit 1
    done
    exit 0
fi
echo stand-in toolchain
"""
compare = answers.compare
ROOM = tempfile.TemporaryDirectory()
TOP = f"{ROOM.name}/repository"


def prepared():
    """A copy of the repository, and the folders of the commands without and with a toolchain."""
    shutil.copytree(ROOT, TOP, ignore=lambda at, names: [name for name in names if name in (".git", "out", "bin", "dist", "vectors")])
    for name in COMMANDS:
        os.makedirs(f"{ROOM.name}/commands", exist_ok=True)
        os.symlink(shutil.which(name), f"{ROOM.name}/commands/{name}")
    os.mkdir(f"{ROOM.name}/toolchain")
    with open(f"{ROOM.name}/toolchain/rt", "w", encoding="ascii") as file:
        file.write(STAND_IN)
    os.chmod(f"{ROOM.name}/toolchain/rt", 0o755)


def run(*words, toolchain=False, **more):
    """What a command in the copy says in all, and its status; with a toolchain it has all commands of this machine too."""
    path = f"{ROOM.name}/toolchain:{os.environ['PATH']}" if toolchain else f"{ROOM.name}/commands"
    environment = {"PATH": path, "HOME": ROOM.name, "TMPDIR": ROOM.name, **more}
    done = subprocess.run(words, cwd=TOP, env=environment, stdout=subprocess.PIPE, stderr=subprocess.STDOUT, text=True, timeout=300)
    return done.returncode, done.stdout


def reports(what, status, words, *wanted, **more):
    """A command ends with this status, and among its lines is one that has all that is wanted."""
    got, said = run(*words, **more)
    lines = [line for line in said.splitlines() if all(it in line for it in wanted)]
    if got == status and lines:
        answers.passed += 1
    else:
        answers.fail(what, [f"status {got}, {status} is wanted, and a line with {' and '.join(wanted)}:", f"$ {shlex.join(words)}", *said.splitlines()[-8:]])


def read(path):
    with open(f"{TOP}/{path}", "rb") as file:
        return file.read()


def write(path, given):
    os.makedirs(os.path.dirname(f"{TOP}/{path}"), exist_ok=True)
    with open(f"{TOP}/{path}", "wb") as file:
        file.write(given)


def taken():
    reports("the program of dist/", 0, ["make"], "bin/arrowstore is the program of dist/")
    compare("the bytes of dist/", read("bin/arrowstore"), open(PROGRAM, "rb").read())
    reports("it is run", 0, ["make"], "Recoding those bytes again gives the same bytes")
    compare("a line of where it is from, and three of the example", run("make")[1].count("\n"), 4)
    sums = [run("tools/dist.sh", "sum", **more) for more in ({}, {"LC_ALL": "C.UTF-8"})]
    compare("the sum in another locale", sums[0], sums[1])


def without_tools():
    """What the gate needs is looked for before it begins."""
    for target in ("test", "gate-cost", "proved"):
        reports(f"make {target}", 2, ["make", target], "not on the PATH: rt gcc python3 ")
        compare(f"make {target} promises nothing", "hour" in run("make", target)[1], False)
    folder = f"{ROOM.name}/commands"
    for name in ("gcc", "rt"):
        os.symlink("/bin/true", f"{folder}/{name}")
    reports("make test without python3", 2, ["make", "test"], "not on the PATH: python3 ")
    for name in ("gcc", "rt"):
        os.remove(f"{folder}/{name}")


def installed():
    """The folder has a space in its name."""
    folder = f"{ROOM.name}/in there"

    def files():
        return sorted(os.path.relpath(f"{at}/{name}", f"{folder}/usr") for at, _, names in os.walk(folder) for name in names)

    reports("install", 0, ["make", "install", "PREFIX=/usr", f"DESTDIR={folder}"], "share/man/man1/arrowstore.1")
    compare("the files that it puts", files(), FILES)
    reports("uninstall", 0, ["make", "uninstall", "PREFIX=/usr", f"DESTDIR={folder}"], "share/man/man1/arrowstore.1")
    compare("the files that are left", files(), [])
    reports("install below a tilde", 0, ["sh", "-c", f"HOME='{folder}' make install 'PREFIX=~/usr'"], f"{folder}/usr/bin/arrowstore")
    compare("the files that it puts there", files(), FILES)


def other_sources():
    """A byte more, a file more, a file less and a library more are other sources; a test or an edit is not."""
    main, folder = "crates/program/src/main.rt", "crates/facts/specs"
    for path, given in ((main, read(main) + b"\n"), (f"{folder}/More.antt", b""), ("crates.txt", read("crates.txt").replace(b"program: ", b"program: hex "))):
        kept = read(path) if os.path.exists(f"{TOP}/{path}") else None
        write(path, given)
        reports(f"{path} changed", 2, ["make"], "dist/ holds the program of other sources", " rt ")
        reports(f"{path} changed: nothing to compare", 0, ["tools/dist.sh", "compare", PROGRAM], "nothing to compare", toolchain=True)
        os.remove(f"{TOP}/{path}") if kept is None else write(path, kept)
    os.rename(f"{TOP}/{folder}/Lib.antt", f"{TOP}/Lib.antt")
    reports("a file removed", 2, ["make"], "dist/ holds the program of other sources", " rt ")
    os.rename(f"{TOP}/Lib.antt", f"{TOP}/{folder}/Lib.antt")
    for path in ("crates/test_store/src/lib.rt", "crates/store/must-fail/more.edit"):
        write(path, b"")
        reports(f"{path} changed", 0, ["make"], "bin/arrowstore is the program of dist/")


def damaged():
    packed, manifest = read("dist/arrowstore.gz"), read("dist/manifest")
    middle = len(packed) // 2
    for what, given in (("a byte", packed[:middle] + bytes([packed[middle] ^ 1]) + packed[middle + 1 :]), ("its end", packed[:-1])):
        write("dist/arrowstore.gz", given)
        reports(f"{what} of the packed program changed", 2, ["make"], "dist/arrowstore.gz is damaged")
    write("dist/arrowstore.gz", packed)
    write("dist/manifest", manifest.replace(b"program ", b"program 0"))
    reports("another program named", 2, ["make"], "dist/arrowstore.gz is damaged")
    reports("another program named: compared", 1, ["tools/dist.sh", "compare", PROGRAM], "dist/ names these sources, and is not what they make", toolchain=True)
    broken = b"#!/nothing\n"
    write("dist/arrowstore.gz", gzip.compress(broken))
    write("dist/manifest", manifest.replace(hashlib.sha256(read("bin/arrowstore")).hexdigest().encode(), hashlib.sha256(broken).hexdigest().encode()))
    reports("a program that does not run", 2, ["make"], "The program of dist/ does not run here: it is for x86_64 Linux")
    write("dist/arrowstore.gz", packed)
    write("dist/manifest", manifest)


def compared():
    reports("the same bytes", 0, ["tools/dist.sh", "compare", PROGRAM], "byte for byte", toolchain=True)
    page = read("dist/arrowstore.1")
    write("dist/arrowstore.1", page.replace(b"recode", b"encode"))
    reports("another man page", 1, ["tools/dist.sh", "compare", PROGRAM], "dist/ names these sources, and is not what they make", toolchain=True)
    write("dist/arrowstore.1", page)


def of_another_toolchain():
    """The program of another release is not compared; what it prints for the manual, and the sources that it names, are."""
    packed, manifest, page = read("dist/arrowstore.gz"), read("dist/manifest"), read("dist/arrowstore.1")
    write("dist/arrowstore.gz", gzip.compress(b"other bytes"))
    write("dist/manifest", manifest.replace(b"toolchain ", b"toolchain an earlier "))
    reports("another toolchain", 0, ["tools/dist.sh", "compare", PROGRAM], "was made by another toolchain", toolchain=True)
    write("dist/arrowstore.1", page.replace(b"recode", b"encode"))
    reports("another man page of it", 1, ["tools/dist.sh", "compare", PROGRAM], "dist/ names these sources, and is not what they make", toolchain=True)
    for path, given in (("arrowstore.gz", packed), ("manifest", manifest), ("arrowstore.1", page)):
        write(f"dist/{path}", given)


def built():
    """Where dist/ does not serve, the program is proved and built, and is then what is taken, until a source is newer."""
    write("crates/program/src/main.rt", read("crates/program/src/main.rt") + b"\n")
    reports("other sources with a toolchain", 0, ["make"], "bin/arrowstore is what was proved and built here", toolchain=True)
    reports("what was built is taken", 0, ["make"], "bin/arrowstore is what was proved and built here")
    reports("dist/ of it", 0, ["make", "dist"], "toolchain stand-in toolchain", toolchain=True)
    reports("a proof from nothing", 0, ["make", "proved"], "byte for byte", toolchain=True)
    reports("by a toolchain with no option for it", 0, ["make", "proved"], "called with: ci.", toolchain=True)
    reports("by one with an option", 0, ["make", "proved"], "called with: ci --anew.", toolchain=True, KNOWN_OF_CI="[NAME..] [--anew]")
    shutil.rmtree(f"{TOP}/crates/program/out")
    reports("the new dist/", 0, ["make"], "bin/arrowstore is the program of dist/")
    reports("no dist/ of what is not built", 2, ["make", "dist"], "run 'make test' or 'make proved' first", toolchain=True)
    shutil.rmtree(f"{TOP}/dist")
    reports("no dist/", 2, ["make"], "There is no dist/", " rt ")


def completed():
    """What bash offers after these words."""
    cases = ("appe", "append"), ("appl", "apply"), ("append store t --as j", "jsonl"), ("append store t --as = j", "jsonl"), ("query store t --l", "--limit"), ("help ref", "refusals")
    for words, wanted in cases:
        typed = f"COMP_WORDS=(arrowstore {words}) COMP_CWORD={len(words.split())}"
        line = f"{typed}; . dist/completions/arrowstore.bash; _arrowstore; echo ${{COMPREPLY[@]}}"
        compare(f"bash after {words}", run("bash", "-c", line, toolchain=True), (0, f"{wanted}\n"))


def shown():
    """Of the man page no warning of groff, where that is there, and each command."""
    page = read("dist/arrowstore.1").decode()
    for name in ("recode", "format", "append", "query"):
        compare(f"the man page has {name}", f"\n.SS {name}\n" in page, True)
    if shutil.which("groff"):
        done = subprocess.run(["groff", "-man", "-ww", "-z", f"{TOP}/dist/arrowstore.1"], capture_output=True, text=True)
        compare("warnings of groff", done.stderr, "")


prepared()
compare("dist/ is made", run("tools/dist.sh", "make", PROGRAM, "dist", toolchain=True), (0, ""))
answers.play([taken, damaged], without_tools, installed, completed, shown, compared, of_another_toolchain, other_sources, built)
ROOM.cleanup()
sys.exit(answers.tell("dist"))
