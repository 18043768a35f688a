"""Tries the scripts of the released program on a copy of the repository, for tools/check_release --try; it is no command.

The toolchain there is a stand-in: it proves nothing, and gives a program that is at hand. PATH has little but what the scripts need.
"""
import os
import pty
import shutil
import subprocess
import sys
import tempfile

from released import ROOT, read

# The copy has few crates, so that the trials are quick. The program stands on the first three.
CRATES = {"edge_io": "", "gdc_words": "edge_io", "gdc": "edge_io gdc_words", "run_tests": "gdc"}
NEEDED = "bash sh env dirname readlink find sed head mktemp mkdir mv rm chmod uname awk sort xargs sha256sum cut cat cp git"
CALC = "calc --netlist examples/slices.v --top blk --spef examples/slices.spef --lib examples/slices.lib --input-slew 20 --port-load 5"
SCRIPT = '#!/bin/sh\necho "a stand-in: $*"\n'
SAID = """== edge_io
logic=proved functions=9
rt: edge_io proved
== gdc
axioms os: open
logic=proved functions=2
rt: gdc proved
"""
TOOLCHAIN, OTHER_TOOLCHAIN = "a toolchain that stands in", "another one"
RT = """#!/bin/sh
case "$1" in
    version) echo "${STAND_IN_VERSION-%s}" ;;
    lib) mkdir -p out ;;
    run) mkdir -p out && cp "$STAND_IN" out/gdc && printf 'axioms libc: read\\nlogic=proved functions=1\\n' >&2 ;;
esac
"""


def put(path, text, mode=0o755):
    os.makedirs(os.path.dirname(path), exist_ok=True)
    with open(path, "w", encoding="utf-8") as file:
        file.write(text)
    os.chmod(path, mode)


def add_byte(path):
    with open(path, "ab") as file:
        file.write(b"\n")


class Trials:
    """A copy of the repository, a few folders of commands, and what passed."""

    def __init__(self, room, program):
        self.room, self.passed, self.failed = room, 0, 0
        self.top = f"{room}/top"
        self.program = os.path.abspath(program) if program else f"{room}/stand_in"
        if not program:
            put(self.program, SCRIPT)
        self.make_commands()
        self.make_copy()

    def make_commands(self):
        """Folders for PATH: the commands that are always there, and others."""
        found = {name: shutil.which(name) for name in NEEDED.split()}
        found["python3"] = os.path.realpath(sys.executable)
        for name, path in found.items():
            folder = "python" if name == "python3" else "always"
            os.makedirs(f"{self.room}/{folder}", exist_ok=True)
            os.symlink(path, f"{self.room}/{folder}/{name}")
        os.mkdir(f"{self.room}/xz")
        if shutil.which("xz"):
            os.symlink(shutil.which("xz"), f"{self.room}/xz/xz")
        put(f"{self.room}/rt/rt", RT % TOOLCHAIN)
        put(f"{self.room}/arm/uname", "#!/bin/sh\necho aarch64\n")

    def make_copy(self):
        without_output = shutil.ignore_patterns("out", "__pycache__")
        for name in ("tools", "examples", *(f"crates/{crate}" for crate in CRATES)):
            shutil.copytree(f"{ROOT}/{name}", f"{self.top}/{name}", ignore=without_output)
        for name in ("gdc", ".gitignore"):
            shutil.copy(f"{ROOT}/{name}", f"{self.top}/{name}")
        put(f"{self.top}/crates.txt", "".join(f"{name}: {below}\n" for name, below in CRATES.items()), 0o644)
        self.git("init", "--quiet", ".")
        self.commit()

    def git(self, *words, folder=None):
        who = ["-c", "user.name=trial", "-c", "user.email=trial@localhost", "-c", "gc.auto=0"]
        subprocess.run(["git", *who, *words], cwd=folder or self.top, check=True, stdout=subprocess.DEVNULL)

    def commit(self):
        self.git("add", "--all")
        self.git("commit", "--quiet", "--message", "trial")

    def clone(self, name):
        self.git("clone", "--quiet", self.top, f"{self.room}/{name}", folder=self.room)
        return f"{self.room}/{name}"

    def environment(self, path, settings):
        return {"PATH": ":".join(f"{self.room}/{name}" for name in path), "HOME": self.room, "STAND_IN": self.program, **settings}

    def run(self, folder, words, path=("xz", "python", "always"), **settings):
        """A run: status, standard output, standard error."""
        ran = subprocess.run(
            words.split(), cwd=folder, env=self.environment(path, settings), stdin=subprocess.DEVNULL, capture_output=True, text=True, timeout=120
        )
        return ran.returncode, ran.stdout, ran.stderr

    def run_on_terminal(self, folder, words):
        """What a run writes to its standard error where that is a terminal."""
        own, other = pty.openpty()
        env = self.environment(("xz", "python", "always"), {})
        subprocess.run(words.split(), cwd=folder, env=env, stdin=subprocess.DEVNULL, stdout=subprocess.DEVNULL, stderr=other, timeout=120)
        os.close(other)
        try:
            return os.read(own, 10000).decode()
        except OSError:
            return ""
        finally:
            os.close(own)

    def count(self, what, is_right, found=""):
        self.passed, self.failed = self.passed + bool(is_right), self.failed + (not is_right)
        if not is_right:
            print(f"FAILED: {what}", *([f"  {found}"] if found else []), sep="\n")

    def answers(self, what, folder, path=("xz", "python", "always"), **settings):
        """The first command of the README must answer as the program does, and say nothing."""
        wanted = subprocess.run([self.program, *CALC.split()], cwd=folder, stdin=subprocess.DEVNULL, capture_output=True, text=True)
        found = self.run(folder, f"./gdc {CALC}", path, **settings)
        self.count(what, found == (wanted.returncode, wanted.stdout, wanted.stderr), found)

    def has_no_program(self, what, folder, lines, path=("xz", "python", "always"), **settings):
        """There must be no program to run, and the lines must say why."""
        status, out, err = self.run(folder, f"./gdc {CALC}", path, **settings)
        self.count(what, (status, out) == (125, "") and all(line in err for line in lines), (status, out, err))


def processor_seconds():
    """What processors have worked for the commands that ended, however busy the machine is."""
    spent = os.times()
    return spent.children_user + spent.children_system


def is_unpacked(folder):
    return os.path.exists(f"{folder}/out/release/gdc")


def try_release(trials):
    """tools/build keeps the verdict, and tools/release packs just a fresh program of committed sources, always to the same bytes."""
    top, with_rt = trials.top, ("rt", "xz", "python", "always")
    status, _, err = trials.run(top, "tools/release")
    trials.count("no program to release", status == 1 and "run tools/build" in err, err)
    trials.count("nothing is released", trials.run(top, "tools/release --check")[0] == 1)
    trials.has_no_program("no release and no toolchain", top, ["rt is not on PATH"])
    status, _, err = trials.run(top, "tools/build", with_rt)
    trials.count("a build", status == 0 and "logic=proved functions=1" in err, err)
    source = f"{top}/crates/gdc_words/src/help.rt"
    add_byte(source)
    status, _, err = trials.run(top, "tools/release")
    trials.count("a program that is older than a source", status == 1 and "older than its sources" in err, err)
    os.utime(source, (0, 0))
    status, _, err = trials.run(top, "tools/release")
    trials.count("a program of other sources", status == 1 and "out/verdict does not say" in err, err)
    trials.run(top, "tools/build --again", with_rt)
    status, _, err = trials.run(top, "tools/release")
    trials.count("sources that are not committed", status == 1 and "not committed" in err, err)
    trials.git("checkout", "--quiet", ".")
    trials.run(top, "tools/build", with_rt)
    status, _, err = trials.run(top, "tools/release")
    first = {name: read(f"{top}/release/{name}") for name in ("gdc.xz", "MANIFEST")}
    trials.count("a release", status == 0 and b"verdict: logic=proved functions=1\n" in first["MANIFEST"], err)
    trials.run(top, "tools/release")
    trials.count("the same bytes once more", all(read(f"{top}/release/{name}") == first[name] for name in first))
    shutil.rmtree(f"{top}/release")
    trials.run(top, "tools/release")
    trials.count("the same bytes from nothing", all(read(f"{top}/release/{name}") == first[name] for name in first))
    trials.count("the release is fresh", trials.run(top, "tools/release --check")[0] == 0)
    trials.commit()


def try_verdict_of_gate(trials):
    """What `rt ci` printed of the program's proof is kept, and nothing where it took the proof as it was kept."""
    folder = trials.clone("gate")
    put(f"{folder}/crates/gdc/out/gdc", SCRIPT)
    put(f"{trials.room}/said", SAID)
    trials.run(folder, f"tools/build --said {trials.room}/said", ("rt", "python", "always"))
    kept = read(f"{folder}/out/verdict").decode()
    trials.count("the verdict that rt ci printed", kept.endswith("verdict: axioms os: open\nverdict: logic=proved functions=2\n"), kept)
    put(f"{trials.room}/said", "rt: gdc is kept: an earlier run on this machine proved the same files\n")
    trials.run(folder, f"tools/build --said {trials.room}/said", ("rt", "python", "always"))
    trials.count("the verdict that was kept before", read(f"{folder}/out/verdict").decode() == kept)


def try_new_clone(trials):
    """A new clone answers at once, and later without unpacking; what is built there comes first."""
    folder = trials.clone("new")
    began = processor_seconds()
    trials.answers("a new clone", folder, ("xz", "always"))
    subprocess.run([f"{ROOT}/tools/source_sum"], stdout=subprocess.DEVNULL)
    seconds = processor_seconds() - began
    trials.count("its time, with the sum over the sources of all crates", seconds < 2, f"{seconds:.2f} s")
    made = os.stat(f"{folder}/out/release/stamp").st_mtime_ns
    trials.answers("its second run", folder, ("always",))
    trials.count("unpacked once", os.stat(f"{folder}/out/release/stamp").st_mtime_ns == made)
    trials.count("nothing is left beside it", sorted(os.listdir(f"{folder}/out/release")) == ["gdc", "stamp"])
    trials.answers("no building asked", folder, ("always",), GDC_BUILD="no")
    trials.has_no_program("building asked", folder, ["rt is not on PATH", TOOLCHAIN], GDC_BUILD="1")
    put(f"{folder}/crates/gdc/out/gdc", "#!/bin/sh\necho built here\n")
    trials.count("what was built here", trials.run(folder, "./gdc")[1] == "built here\n")


def try_other_sources(trials):
    """With a byte of a source changed, added or taken away, nothing that is released runs."""
    folder = trials.clone("changed")
    trials.answers("before a change", folder)
    source = f"{folder}/crates/gdc_words/specs/HelpText.antt"
    before = os.stat(source)
    text = read(source)
    add_byte(source)
    os.utime(source, ns=(before.st_atime_ns, before.st_mtime_ns))
    trials.has_no_program("a changed source", folder, ["the sources are not those of the released program", "rt is not on PATH", TOOLCHAIN])
    trials.has_no_program("a changed source, and no building", folder, ["GDC_BUILD=no"], ("rt", "xz", "python", "always"), GDC_BUILD="no")
    trials.count("nothing is built", not os.path.exists(f"{folder}/crates/gdc/out"))
    trials.count("a stale release", trials.run(folder, "tools/release --check")[0] == 1)
    with open(source, "wb") as file:
        file.write(text)
    trials.answers("the source as it was", folder)
    os.rename(source, f"{folder}/HelpText")
    trials.has_no_program("a source less", folder, ["the sources are not those"])
    os.rename(f"{folder}/HelpText", source)
    add_byte(f"{folder}/crates/run_tests/src/tests.rt")
    trials.answers("a changed test", folder)


def try_broken_release(trials):
    """A packed program with a byte changed is not run, before it was unpacked and later."""
    folder = trials.clone("broken")
    packed = bytearray(read(f"{folder}/release/gdc.xz"))
    for place in (len(packed) // 2, 3, len(packed) - 1):
        changed = bytearray(packed)
        changed[place] ^= 1
        with open(f"{folder}/release/gdc.xz", "wb") as file:
            file.write(changed)
        trials.has_no_program(f"byte {place} of the packed program changed", folder, ["release/gdc.xz", "is not run"], GDC_BUILD="no")
        trials.count("nothing is left of it", not is_unpacked(folder))
    with open(f"{folder}/release/gdc.xz", "wb") as file:
        file.write(packed)
    trials.answers("the packed program as it was", folder)
    with open(f"{folder}/release/gdc.xz", "ab") as file:
        file.write(b"x")
    trials.has_no_program("a byte more, once it was unpacked", folder, ["is not run"])


def try_other_places(trials):
    """Where xz is missing Python unpacks; where nothing can be written each run unpacks; other processors have none."""
    trials.answers("without xz", trials.clone("without_xz"), ("python", "always"))
    trials.has_no_program("without xz and Python", trials.clone("bare"), ["neither xz nor python3"], ("always",), GDC_BUILD="no")
    trials.has_no_program("another processor", trials.clone("arm_clone"), ["is for x86-64"], ("arm", "xz", "python", "always"))
    folder = trials.clone("shut")
    # (where out/ is a file, nobody can write into it, not even the superuser)
    put(f"{folder}/out", "")
    room = f"{trials.room}/temporary"
    os.mkdir(room)
    trials.answers("a folder that cannot be written", folder, TMPDIR=room)
    trials.answers("its second run", folder, TMPDIR=room)
    trials.count("nothing is left in the temporary folder", os.listdir(room) == [])
    folder = trials.clone("terminal")
    said = trials.run_on_terminal(folder, f"./gdc {CALC}")
    trials.count("a terminal", said.startswith("gdc: runs the released gdc ") and "tools/build" in said, said)
    said = trials.run_on_terminal(folder, f"./gdc {CALC}")
    trials.count("a terminal, the second time", "released" not in said, said)


def try_at_once(trials):
    """Many first runs at once all answer."""
    folder = trials.clone("at_once")
    wanted = subprocess.run([trials.program, *CALC.split()], cwd=folder, stdin=subprocess.DEVNULL, stdout=subprocess.PIPE).stdout
    words, env = ["./gdc", *CALC.split()], trials.environment(("xz", "always"), {})
    runs = [subprocess.Popen(words, cwd=folder, env=env, stdin=subprocess.DEVNULL, stdout=subprocess.PIPE) for _ in range(8)]
    found = [(run.communicate()[0], run.returncode) for run in runs]
    trials.count("eight first runs at once", found == [(wanted, 0)] * 8)
    trials.count("nothing is left beside the program", sorted(os.listdir(f"{folder}/out/release")) == ["gdc", "stamp"])


def try_comparison(trials):
    """The program that is built is the released one, or differs; another toolchain's may differ and must print the same."""
    top = trials.top

    def compared(what, program, wanted, line, **settings):
        status, out, err = trials.run(top, f"tools/check_release {program}", ("rt", "xz", "python", "always"), **settings)
        trials.count(what, status == wanted and line in out, (status, out, err))

    compared("the same program", trials.program, 0, "byte by byte")
    other = f"{trials.room}/other"
    put(other, f'#!/bin/sh\nexec "{trials.program}" "$@"\n')
    compared("another program", other, 1, "is not the one that is built here")
    compared("another program of another toolchain", other, 0, "what both print is compared", STAND_IN_VERSION=OTHER_TOOLCHAIN)
    put(other, "#!/bin/sh\necho other\n")
    compared("one that prints otherwise", other, 1, "does otherwise", STAND_IN_VERSION=OTHER_TOOLCHAIN)
    manifest = f"{top}/release/MANIFEST"
    text = read(manifest)
    put(manifest, text.decode().replace("program-size: ", "program-size: 9"), 0o644)
    compared("a manifest that was changed", trials.program, 1, "release/MANIFEST does not say")
    put(manifest, text.decode(), 0o644)
    source = f"{top}/crates/gdc_words/src/help.rt"
    text = read(source)
    add_byte(source)
    compared("a stale release", other, 0, "stale")
    put(source, text.decode(), 0o644)


PARTS = (try_release, try_verdict_of_gate, try_new_clone, try_other_sources, try_broken_release, try_other_places, try_at_once, try_comparison)


def try_all(program):
    """How many rows passed, and how many failed."""
    with tempfile.TemporaryDirectory() as room:
        trials = Trials(room, program)
        for part in PARTS:
            part(trials)
        return trials.passed, trials.failed
