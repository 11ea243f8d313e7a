"""A desk for the tests of ./judge and ./night: a copy of both commands in a folder of its own, with a stand-in for the toolchain whose programs
answer what a test wants. Needs neither the toolchain nor graphviz."""
import os
import shutil
import subprocess
import sys

ROOT = os.path.dirname(os.path.dirname(os.path.abspath(__file__)))

# What stands in for the toolchain: its command, the loader and the emulator that run a program, and the machine's name; and for graphviz.
RT = """#!/usr/bin/env bash
case $1 in
  doc) echo "$KIT/docs/guide" ;;
  check)
    if [ -n "${FAIL-}" ]; then printf 'one\\ntwo\\nthree\\nfour\\nfive\\nsix\\n'; exit 1; fi
    mkdir -p target/bin
    printf '#!/usr/bin/env bash\\ncat >"$KIT/lent"\\ncat "$KIT/answer"\\n[ ! -e "$KIT/crash" ]\\n' >"target/bin/$2"
    chmod +x "target/bin/$2" ;;
esac
"""
LOADER = "#!/usr/bin/env bash\n[ \"$1\" = --library-path ] && [ -d \"$2\" ] && exec \"${@:3}\"\n"
EMULATOR = "#!/usr/bin/env bash\necho emulated >>\"$KIT/emulated\"\nexec \"$@\"\n"
MACHINE = "#!/usr/bin/env bash\necho \"${MACHINE:-x86_64}\"\n"
GRAPHVIZ = "#!/usr/bin/env bash\n[ \"$2\" = -o ] && { echo \"$1\"; cat \"$4\"; } >\"$3\"\n"

BUILT = "{0}: proving the library and building the program; the first time this takes up to ten minutes\n{0}: built\n"


def content(path):
    with open(path, "rb") as file:
        return file.read()


def example_file(name):
    return os.path.join(ROOT, "examples", name + ".plan")


class Desk:
    """`same` takes what was got, what was wanted and what it is about, and says where they differ."""

    def __init__(self, folder, same):
        self.same = same
        self.folder, self.kit = os.path.join(folder, "repository"), os.path.join(folder, "kit")
        for name in ("tools", "compare"):
            shutil.copytree(os.path.join(ROOT, name), os.path.join(self.folder, name))
        for name in ("judge", "night"):
            shutil.copy(os.path.join(ROOT, name), self.folder)
        self.write("repository/crates/one/src/lib.rt", "", folder)
        for name, text in (("rt", RT), ("uname", MACHINE), ("dot", GRAPHVIZ)):
            self.write(f"kit/bin/{name}", text, folder)
        for tools in ("toolchain", "on/aarch64/toolchain"):
            self.write(f"kit/{tools}/lib/ld-linux-x86-64.so.2", LOADER, folder)
        self.write("kit/on/aarch64/toolchain/bin/qemu-x86_64", EMULATOR, folder)
        shutil.copy(example_file("case_i"), os.path.join(self.folder, "plan"))
        os.mkdir(os.path.join(self.folder, "a folder"))
        os.mkdir(os.path.join(self.kit, "room"))
        # The test of a file without permission is run as somebody who is not the one that may read everything.
        os.chmod(folder, 0o755)

    @staticmethod
    def write(name, text, folder):
        path = os.path.join(folder, name)
        os.makedirs(os.path.dirname(path), exist_ok=True)
        with open(path, "wb") as file:
            file.write(text if isinstance(text, bytes) else text.encode())
        os.chmod(path, 0o755)

    def commands(self, name, wanted):
        """A folder with these commands of the machine and no others, to be the whole PATH."""
        folder = os.path.join(self.kit, name)
        os.mkdir(folder)
        for command in wanted.split():
            os.symlink(sys.executable if command == "python3" else shutil.which(command), os.path.join(folder, command))
        return folder

    def few(self, name, more=""):
        """The whole PATH of a machine with the toolchain, these commands and no others, where nothing can be installed."""
        folder = self.commands(name, "bash env dirname find head mktemp rm cat cp chmod mkdir touch id " + more)
        for command in ("rt", "uname"):
            shutil.copy(os.path.join(self.kit, "bin", command), folder)
        for command in ("apt-get", "sudo"):
            self.write(command, "#!/usr/bin/env bash\nexit 1\n", folder)
        return folder

    def answer(self, text):
        self.write("answer", text, self.kit)

    def put(self, name, data):
        with open(os.path.join(self.folder, name), "wb") as file:
            file.write(data)

    def lent(self):
        """What the program was lent."""
        return content(os.path.join(self.kit, "lent"))

    def run(self, *words, path=None, user=None, **more):
        given = {**os.environ, "PATH": f"{self.kit}/bin:{os.environ['PATH']}" if path is None else path, "KIT": self.kit,
                 "TMPDIR": os.path.join(self.kit, "room"), **more}
        done = subprocess.run(words, cwd=self.folder, env=given, capture_output=True, text=True, **({"user": user} if user else {}))
        return done.returncode, done.stdout, done.stderr

    def gives(self, words, code, out, err, **more):
        self.same(self.run(*words, **more), (code, out, err), " ".join(words))
