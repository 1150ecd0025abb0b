"""The script ./desk by itself: in a folder of its own, with a program and a kit that do what a case says.

So that it can be seen what it makes of a first run, of a build that fails and of a program that gives no answer.
"""
import os
import select
import shutil
import subprocess
import tempfile

# `rt run` in crates/desk waits until it is let go, where a case wants that, and writes the program and runs it, or says why not; no other
# command is known
KIT = """#!/usr/bin/env bash
root=${0%/kit/rt}
[ "$PWD $*" = "$root/crates/desk run" ] || { echo "rt: $* in $PWD"; exit 1; }
while [ -e "$root/hold" ]; do sleep 0.05; done
[ ! -e "$root/broken" ] || { echo "it does not hold"; exit 1; }
mkdir -p out && cp "$root/program" out/desk
"""
SOON, LATE = 10, 60


def put(path, text):
    os.makedirs(os.path.dirname(path), exist_ok=True)
    with open(path, "w") as file:
        file.write(text)
    os.chmod(path, 0o755)


class Folder:
    """A folder with the script in it; the program is the lines of a shell script."""

    def __init__(self, desk, program):
        self.path = tempfile.mkdtemp()
        shutil.copy(desk, self.at("desk"))
        put(self.at("tools/x86"), '#!/usr/bin/env bash\nexec "$@"\n')
        shutil.copy(os.path.join(os.path.dirname(desk), "tools/build"), self.at("tools/build"))
        put(self.at("kit/rt"), KIT)
        put(self.at("program"), "#!/usr/bin/env bash\n" + program + "\n")
        put(self.at("crates/desk/src/main.rt"), "")
        put(self.at("crates.txt"), "desk:\n")

    def at(self, name):
        return os.path.join(self.path, name)

    def start(self, *words):
        known = {**os.environ, "PATH": self.at("kit") + os.pathsep + os.environ["PATH"]}
        pipe = subprocess.PIPE
        return subprocess.Popen([self.at("desk"), *words], stdin=subprocess.DEVNULL, stdout=pipe, stderr=pipe, env=known)

    def run(self, *words):
        desk = self.start(*words)
        out, err = desk.communicate(timeout=LATE)
        return out, desk.returncode, err


    def age(self):
        """The last build lies so far back that the sources are newer."""
        os.utime(self.at("target/desk.built"), (0, 0))


def told_at_once(desk):
    """The first run says what it does while the build still goes on, and how long that takes; the second says nothing."""
    folder = Folder(desk, "echo 0 6 0 6")
    put(folder.at("hold"), "")
    first = folder.start()
    ready, _, _ = select.select([first.stderr], [], [], SOON)
    early = os.read(first.stderr.fileno(), 4096) if ready else b""
    os.remove(folder.at("hold"))
    out, more = first.communicate(timeout=LATE)
    yield "a first run says at once that it builds", b"building" in early and b"minutes" in early, early
    yield "a first run answers", (out, first.returncode, more) == (b"0 6 0 6\n", 0, b""), (out, first.returncode, more)
    second = folder.run()
    yield "a later run says nothing more", second == (b"0 6 0 6\n", 0, b""), second
    folder.age()
    third = folder.run()
    yield "a newer source is built", third[:2] == (b"0 6 0 6\n", 0) and b"building" in third[2], third
    shutil.rmtree(folder.path)


def refused_at_once(desk):
    """What cannot be answered is said before anything is built."""
    folder = Folder(desk, "echo 0 6 0 6")
    for words in ([folder.path], [folder.at("none")], [folder.at("program")] * 2):
        done = folder.run(*words)
        yield f"nothing is built for {words}", done[:2] == (b"", 2) and done[2] != b"" and b"building" not in done[2], done
    shutil.rmtree(folder.path)


def not_built(desk):
    """Where the build fails the program of an earlier one does not answer, a second time neither."""
    for earlier in (False, True):
        folder = Folder(desk, "echo 0 6 0 6")
        if earlier:
            folder.run()
            folder.age()
        put(folder.at("broken"), "")
        for _ in range(2):
            done = folder.run()
            yield "a build that fails", done[:2] == (b"", 2) and b"it does not hold" in done[2], done
        shutil.rmtree(folder.path)


# what a program does, what is on standard output then, and the exit status
PROGRAMS = [
    ("echo 0 6 0 6", b"0 6 0 6\n", 0),
    ("echo 10 4 1 3", b"10 4 1 3\n", 1),
    ("echo 25 0 0 0; exit 3", b"25 0 0 0\n", 1),
    ("true", b"", 2),
    ("exit 1", b"", 2),
    ("kill -SEGV $$", b"", 2),
    ("echo", b"\n", 2),
    ("echo 0 it seems", b"0 it seems\n", 2),
    ("printf '0 6 0 6'", b"0 6 0 6", 2),
    ("printf '0 6 0 6\\n\\n'", b"0 6 0 6\n\n", 2),
]


def programs(desk):
    for program, printed, status in PROGRAMS:
        folder = Folder(desk, program)
        folder.run()
        out, found, err = folder.run()
        silent = err == b""
        yield "a program that does: " + program, (out, found, silent) == (printed, status, status != 2), (out, found, err)
        shutil.rmtree(folder.path)


def cases(desk):
    """Name, whether it is as expected, and what was found."""
    yield from told_at_once(desk)
    yield from refused_at_once(desk)
    yield from not_built(desk)
    yield from programs(desk)
