"""What is installed of a build, and where: for bin/install-files, which puts it below a prefix, and bin/make-package, which puts it into a
Debian package.
"""
import gzip
import os
import re
import shutil
import subprocess
import sys

sys.dont_write_bytecode = True
from manual import completion_of, helps_of, page_of, told  # fmt: skip

ROOT = os.path.dirname(os.path.dirname(os.path.realpath(__file__)))
UNIT = "service/xcpd.service"
# Where the unit that stands in the tree has the program.
UNIT_PROGRAM = "/usr/local/bin/xcpd"
# Examples, by their names where they are installed: a layout file, two small programs in C, and the engine.
EXAMPLES = {"engine.toml": "crates/xcpd/data/engine.toml", "connect.c": "examples/connect.c", "datagrams.c": "examples/datagrams.c"}
ENGINE = "examples/engine"
LICENCE = """\
Billhookyew: an XCP slave, as the program xcpd and as a library for C.

Copyright (C) 2026, the owner of Billhookyew.

No licence has been chosen. To choose one is the owner's to do, who then says so here; until then this file grants nobody a right to use,
copy, change or hand on what it comes with.

The program and the library have parts of the toolchain that built them in them, Rattle's, and its libraries. Their terms are their
owners', and this file says nothing of them.
"""


def read(path):
    with open(os.path.join(ROOT, path), "rb") as file:
        return file.read()


def version():
    ran = subprocess.run([os.path.join(ROOT, "bin/version")], capture_output=True, text=True, check=True)
    return ran.stdout.strip()


def seconds_of_commit():
    """The time that all that is made is given: SOURCE_DATE_EPOCH if it is set, or else that of the commit."""
    given = os.environ.get("SOURCE_DATE_EPOCH")
    if given:
        return int(given)
    ran = subprocess.run(["git", "-C", ROOT, "log", "-1", "--format=%ct"], capture_output=True, text=True)
    if ran.returncode or not ran.stdout.strip():
        raise RuntimeError("no commit says of when this tree is: set SOURCE_DATE_EPOCH to its seconds")
    return int(ran.stdout)


def description_of(library):
    """What the .pc beside the library says of it, with the toolchain that built it; or what holds of any."""
    for name in ("billhookyew.pc", "pkgconfig/billhookyew.pc"):
        beside = os.path.join(os.path.dirname(library), name)
        if os.path.isfile(beside):
            with open(beside, encoding="utf-8") as file:
                found = re.search(r"^Description: (.*)$", file.read(), re.M)
            if found:
                return found[1]
    return "an XCP slave whose answers are proved"


def pc_of(library, libdir):
    """A .pc whose paths are found from its own, so that the whole tree may lie anywhere."""
    up = "/".join([".."] * (1 + len(libdir.split("/"))))
    return f"""\
libdir=${{pcfiledir}}/..
includedir=${{pcfiledir}}/{up}/include

Name: billhookyew
Description: {description_of(library)}
Version: {version()}
Cflags: -I${{includedir}}
Libs: -L${{libdir}} -lbillhookyew
"""


def packed(data):
    return gzip.compress(data, 9, mtime=0)


def documents():
    """The documents: those for who uses the program or the library, with what their links name of docs/."""
    found = {"README.md": read("README.md"), "CHANGELOG.md": read("CHANGELOG.md"), "copyright": LICENCE.encode()}
    for folder in ("docs", "docs/promises"):
        for name in sorted(os.listdir(os.path.join(ROOT, folder))):
            if name.endswith((".md", ".svg")):
                found[f"{folder}/{name}"] = read(f"{folder}/{name}")
    for name, path in EXAMPLES.items():
        found[f"examples/{name}"] = read(path)
    for name in sorted(os.listdir(os.path.join(ROOT, ENGINE))):
        if name.endswith((".c", ".h", ".toml", ".a2l", ".md")):
            found[f"examples/engine/{name}"] = read(f"{ENGINE}/{name}")
    return found


def names(libdir):
    """The paths of all that is installed, from the prefix; none of them depends on the program."""
    fixed = ["bin/xcpd", f"{libdir}/libbillhookyew.a", f"{libdir}/pkgconfig/billhookyew.pc", "include/billhookyew.h", "share/man/man1/xcpd.1.gz"]
    fixed += ["share/bash-completion/completions/xcpd", "lib/systemd/system/xcpd.service"]
    return fixed + [f"share/doc/xcpd/{name}" for name in documents()]


def files(program, library, prefix, libdir, seconds):
    """The bytes of all that is installed, by its path from the prefix."""
    said = told(program, "--version").split()
    if said[:2] != ["xcpd", version()]:
        raise RuntimeError(f"{program} says that it is {' '.join(said)[:40]}, and the sources that they are {version()}: build it anew")
    helps = helps_of(program)
    with open(program, "rb") as one, open(library, "rb") as other:
        built = one.read(), other.read()
    unit = read(UNIT).decode().replace(UNIT_PROGRAM, f"{prefix}/bin/xcpd")
    page = page_of(helps, version(), seconds, f"{prefix}/share/doc/xcpd")
    put = [*built, pc_of(library, libdir).encode(), read("c/billhookyew.h"), packed(page.encode()), completion_of(helps).encode(), unit.encode()]
    put += documents().values()
    return dict(zip(names(libdir), put, strict=True))


def put_file(path, data, seconds, mode=0o644):
    """Writes a file, with rights and times that don't depend on who does it, and when."""
    folder = os.path.dirname(path)
    missing = []
    while not os.path.isdir(folder):
        missing.append(folder)
        folder = os.path.dirname(folder)
    for folder in reversed(missing):
        os.mkdir(folder)
        os.chmod(folder, 0o755)
    with open(f"{path}.new", "wb") as file:
        file.write(data)
    os.chmod(f"{path}.new", mode)
    os.utime(f"{path}.new", (seconds, seconds))
    os.replace(f"{path}.new", path)


def install(program, library, destdir, prefix, libdir):
    """Puts all files below DESTDIR and the prefix."""
    seconds = seconds_of_commit()
    for name, data in files(program, library, prefix, libdir, seconds).items():
        put_file(f"{destdir}{prefix}/{name}", data, seconds, 0o755 if name.startswith("bin/") else 0o644)


def remove(destdir, prefix, libdir):
    """Takes away all that `install` puts there, and folders of the documents that are empty then."""
    top = f"{destdir}{prefix}"
    for name in names(libdir):
        if os.path.lexists(f"{top}/{name}"):
            os.remove(f"{top}/{name}")
    for here, _, _ in os.walk(f"{top}/share/doc/xcpd", topdown=False):
        if not os.listdir(here):
            os.rmdir(here)


def built(given):
    """The program and the library: those that are given, both of them or none, or else those that are built now where they have to be."""
    if given:
        return given
    for words in ([f"{ROOT}/bin/xcpd", "--version"], [f"{ROOT}/bin/make-library"]):
        if subprocess.run(words, stdin=subprocess.DEVNULL, stdout=subprocess.DEVNULL).returncode:
            raise RuntimeError(f"{os.path.relpath(words[0], ROOT)} built nothing")
    return f"{ROOT}/out/xcpd", f"{ROOT}/out/libbillhookyew.a"


def have(*tools):
    """The first of these tools that isn't there, or none."""
    return next((tool for tool in tools if not shutil.which(tool)), None)
