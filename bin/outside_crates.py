"""What bin/bench and bin/run-tests share: crates whose sources stand outside of crates/, where the gate proves nothing of them.

`rt ci` stops at each .rt or .antt file outside of a crate of crates.txt, and at a second list of crates. So each source has the
ending .txt more than where it is built, in a temporary folder beside the crates below it, and a list of its own has the line that
crates.txt would have.
"""
import os
import subprocess
import tempfile

ROOT = os.path.dirname(os.path.dirname(os.path.realpath(__file__)))
PARTS = ("src", "specs", "proofs")
ENDING = ".txt"  # (of a source, behind the ending that it has where it is built)


def read(path):
    with open(path, "rb") as it:
        return it.read()


def files_below(folder):
    """The bytes of the files below a folder, by their paths in it."""
    paths = [os.path.join(here, name) for here, _, names in os.walk(folder) for name in names]
    return {os.path.relpath(path, folder): read(path) for path in sorted(paths)}


def put(files, folder):
    for path, text in files.items():
        os.makedirs(os.path.dirname(f"{folder}/{path}"), exist_ok=True)
        with open(f"{folder}/{path}", "wb") as it:
            it.write(text)


def lines_of(path):
    """A list of crates: by its name the line of each, and what it uses."""
    found = {}
    for line in read(path).decode().splitlines():
        head, colon, uses = line.split("#")[0].partition(":")
        if colon:
            found[head.split()[0]] = (" ".join(line.split()), uses.split())
    return found


class Outside:
    """A crate outside of crates/: its sources, and the crates of the repository below it, lowest first."""

    def __init__(self, name, source, line, uses, crates):
        self.name, self.source, self.line, self.crates, self.below = name, source, line, crates, []
        self.add_below(uses)

    def add_below(self, uses):
        for use in uses:
            if use in self.crates and use not in self.below:
                self.add_below(self.crates[use][1])
                self.below.append(use)

    def own(self):
        """Its sources by the names that `rt` reads."""
        parts = {f"{part}/{path}": text for part in PARTS for path, text in files_below(f"{self.source}/{part}").items()}
        return {path.removesuffix(ENDING): text for path, text in parts.items()}

    def tree(self):
        """All that it is built from."""
        lines = [*(self.crates[it][0] for it in self.below), self.line]
        files = {"crates.txt": "\n".join([*lines, ""]).encode(), "HANDLES": read(f"{ROOT}/HANDLES")}
        for crate in self.below:
            for part in PARTS:
                inner = f"crates/{crate}/{part}"
                files |= {f"{inner}/{path}": text for path, text in files_below(f"{ROOT}/{inner}").items()}
        return files | {f"crates/{self.name}/{path}": text for path, text in self.own().items()}

    def format(self, writes):
        """The files that aren't in their layout, which get it if this writes; None if `rt fmt` can't read one."""
        files = self.own()
        with tempfile.TemporaryDirectory(prefix="outside-") as room:
            put(files, room)
            quiet = {"stdin": subprocess.DEVNULL, "stdout": subprocess.DEVNULL, "stderr": subprocess.DEVNULL}
            if subprocess.run(["rt", "fmt"], cwd=room, **quiet).returncode:
                return None
            other = {f"{path}{ENDING}": read(f"{room}/{path}") for path, text in files.items() if read(f"{room}/{path}") != text}
        put(other if writes else {}, self.source)
        return [f"{os.path.relpath(self.source, ROOT)}/{path}" for path in other]
