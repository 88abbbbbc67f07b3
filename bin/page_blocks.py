"""The blocks of commands that pages have, each run as one who pastes it into a shell: `bin/check-docs --run`, whose head has the rules."""
import contextlib
import io
import os
import random
import re
import shutil
import signal
import socket
import subprocess
import tempfile
import time
from itertools import zip_longest

ROOT = os.path.dirname(os.path.dirname(os.path.realpath(__file__)))
PAGES = ["README.md", "docs/CONNECT.md", "docs/EMBEDDING.md", "docs/LAYOUT.md", "docs/SERVICE.md", "docs/INSTALL.md"]
SHELLS = ("sh", "bash", "shell", "console")  # the languages of fences that are blocks of commands
GOES_ON = "goes on from the block above"
LIMIT = re.compile(r"<!-- time limit: (\d+) s -->")
DEFAULT_LIMIT = 60.0  # seconds
GRACE = 1.0  # seconds in which what a block has ended is gone
PORT = re.compile(r"(?<![\w.])5555(?!\w)")
LIBRARY = "out/libbillhookyew.a"
# What isn't run: a form of commands, and why.
SKIPPED = [
    (r"\b(sudo|apt|apt-get)\b", "needs root"),
    (r"\b(systemctl|journalctl)\b", "needs systemd"),
    (r"\b(dpkg -[irP])\b", "needs root"),
    (r"\s(/etc/\S*|/usr/local/\S*)", "needs root"),
    (r"\b(ssh|scp)\b", "needs another machine"),
]
WANTS_LIBRARY = re.compile(r"\bbin/(?:make-engine|make-package|calibrate-engine)\b|^make\b", re.M)
# What may differ between a page and what is printed, and what stands for it in both.
MAY_DIFFER = [
    (r"(?<=127\.0\.0\.1:)\d+", "PORT"),
    (r"^(\[\d+\]) \d+$", r"\1 PROCESS"),
    (r"\b\d{4}-\d\d-\d\d\b", "DATE"),
    (r"\b\d\d:\d\d(?::\d\d(?:\.\d+)?)?\b", "TIME"),
    (r"\b\d+(?:\.\d+)?(?= ?(?:ms|s|seconds?|minutes?)\b)", "TIME"),
]
# The shell of a room: it runs the blocks one behind another, and notes where each begins and ends, how many bytes were printed by then,
# and each command that fails. `wait` without words also fails where the last job did.
SHELL = r"""
_room=$1
exec >>"$_room/printed" 2>>"$_room/said"
_note() { printf '%s %s %s\n' "$_block" "$1" "$(stat -c %s "$_room/printed")" >>"$_room/steps"; }
_fault() { printf '%s a command ends with status %s: %s\n' "$_block" "$1" "${2%%$'\n'*}" >>"$_room/faults"; }
wait() {
  local status=0
  if [ $# -eq 0 ] && [ "${!:-$_waited}" != "$_waited" ]; then
    _waited=$!
    builtin wait "$_waited" || status=$?
  fi
  builtin wait "$@" || status=$?
  return "$status"
}
_waited=
trap '_fault $? "${BASH_COMMAND/#return*status*/wait}"' ERR
"""
STEP = '_block={0}\n_note begins\n. "$_room/block.{0}"\n_note ends\n'


class Block:
    """A block of commands: where it stands, its commands, and what the page says of it."""

    def __init__(self, page, line, commands):
        self.page, self.line, self.commands = page, line, commands
        self.goes_on, self.limit = False, DEFAULT_LIMIT
        self.printed, self.table = None, None
        self.faults = []

    def name(self):
        return f"{self.page}:{self.line}: {self.commands.strip().splitlines()[0][:90]}"

    def bare(self):
        """The commands without their comments."""
        return re.sub(r"(^|\s)#.*$", "", self.commands, flags=re.M)

    def told(self):
        """The lines that comments of the block say are printed."""
        for words in re.findall(r"(?:^|\s)#.*?\bprints (.*)$", self.commands, re.M):
            yield from re.split(r", (?:and )?| and ", words.split(";")[0].strip())


def pieces_of(text):
    """A page in pieces: fences with their language and the number of their first line, and the text between them without a language."""
    pieces, language, lines, begun = [], None, [], 1
    for number, line in enumerate(text.splitlines(), 1):
        fence = re.fullmatch(r"```(\w*)", line)
        if fence:
            pieces.append((language, begun, "".join(f"{it}\n" for it in lines)))
            language, lines, begun = (fence[1] if language is None else None), [], number
        else:
            lines.append(line)
    return pieces + [(language, begun, "".join(f"{it}\n" for it in lines))]


def last_paragraph(text):
    """The words of a text's last paragraph, without comments."""
    paragraphs = re.split(r"\n\s*\n", re.sub(r"<!--.*?-->", "", text, flags=re.S).strip())
    return " ".join(paragraphs[-1].split())


def blocks_of(page, text):
    """The blocks of a page, in order."""
    pieces, found, used = pieces_of(text), [], 0
    for at, (language, line, commands) in enumerate(pieces):
        if language not in SHELLS:
            continue
        block, before = Block(page, line, commands), pieces[at - 1][2]
        limit = LIMIT.search(before.rstrip().rpartition("\n")[2])
        block.limit = float(limit[1]) if limit else DEFAULT_LIMIT
        block.goes_on = GOES_ON in last_paragraph(before)
        used += block.goes_on
        if block.goes_on and not found:
            block.faults.append("it goes on from no block")
        read_behind(block, pieces[at + 1 : at + 3])
        found.append(block)
    if used != " ".join(text.split()).count(GOES_ON):
        found = found or [Block(page, 1, "true\n")]
        found[-1].faults.append(f"the page says '{GOES_ON}' where no block is behind it")
    return found


def read_behind(block, pieces):
    """Reads what the page says behind a block: what is printed, or a table of lines and their answers."""
    between = pieces[0][2]
    header = re.match(r"\s*\| Line \| Answer \|.*\n\|[-|]+\n((?:\|.*\n)+)", between)
    if header:
        block.table = [[cell.strip() for cell in row.strip("|").split("|")[:2]] for row in header[1].splitlines()]
    elif len(pieces) > 1 and pieces[1][0] == "" and not re.search(r"^#", between, re.M):
        block.printed = pieces[1][2]
        if not re.search(r"\bprints\b", last_paragraph(between)):
            block.faults.append("the page doesn't say that the fence behind it is what it prints")


def answers_of(block):
    """What a table says that the lines of a block's script are answered with. A row is for a line, or for all from one `to` another."""
    script = re.search(r"<<'(\w+)'.*\n((?:.*\n)*?)\1\n", block.commands)
    lines, answers = script[2].splitlines() if script else [], []
    for row in block.table:
        names, answer = re.findall(r"`([^`]*)`", row[0]), re.findall(r"`([^`]*)`", row[1])
        if not names or len(answer) != 1:
            raise ValueError(f"no line and answer are read in the table's row {row}")
        for at, name in enumerate(names[:2]):
            while lines:
                line = lines.pop(0)
                answers += answer
                if line.startswith(name[:-2]) if name.endswith("..") else line == name:
                    break
                if not at:
                    raise ValueError(f"the table has {name!r} where the script has {line!r}")
            else:
                raise ValueError(f"the script has no line {name!r}, or not there")
    if lines:
        raise ValueError(f"the table lacks the line {lines[0]!r}")
    return "".join(f"{it}\n" for it in answers)


def alike(text):
    """The lines of a text, with what may differ replaced."""
    for form, name in MAY_DIFFER:
        text = re.sub(form, name, text, flags=re.M)
    return [line.strip() for line in text.strip("\n").splitlines()]


def compare(block, own, all_printed, port):
    """Notes where what was printed isn't what the page says: of what was printed while the block ran, and until all had ended."""
    wanted = block.printed
    if block.table:
        try:
            wanted = answers_of(block)
        except ValueError as fault:
            block.faults.append(str(fault))
    if wanted is not None:
        for found, line in zip_longest(alike(own), alike(PORT.sub(port, wanted))):
            if found != line:
                block.faults.append(f"it prints {'no more' if found is None else repr(found[:100])}, and the page says {'no more' if line is None else repr(line[:100])}")
                break
    left = alike(all_printed)
    for line in block.told():
        if line == "nothing":
            if own:
                block.faults.append(f"it prints {own.splitlines()[0][:100]!r}, and the page says nothing")
            continue
        form = re.sub(r"\b[A-Z]\b", r"\\d+", re.escape(alike(PORT.sub(port, line))[0]))
        at = next((at for at, it in enumerate(left) if re.fullmatch(form, it)), None)
        if at is None:
            block.faults.append(f"it doesn't print {line!r}, or not there; last it prints {left[-1][:100] if left else ''!r}")
        else:
            left = left[at + 1 :]


def reason_to_skip(block, root):
    """Why a block isn't run, or nothing."""
    bare = block.bare()
    for form, why in SKIPPED:
        found = re.search(form, bare, re.M)
        if found:
            return f"{found[1]} {why}"
    place = re.match(r"\s*cd (/\S+)", bare)
    if place and not os.path.isdir(place[1]):
        return f"there is no {place[1]} here"
    if WANTS_LIBRARY.search(bare):
        if not os.path.exists(f"{root}/{LIBRARY}"):
            return f"{LIBRARY} isn't built: bin/make-library builds it"
        if not shutil.which(os.environ.get("CC", "cc")):
            return "there is no C compiler here"
    return None


def files_of(root):
    """The files that git tracks in a tree; in one without git all but those in out/."""
    listed = subprocess.run(["git", "-C", root, "ls-files", "-z"], capture_output=True, text=True)
    if not listed.returncode and listed.stdout:
        return [path for path in listed.stdout.split("\0") if path and os.path.lexists(f"{root}/{path}")]
    found = []
    for here, folders, names in os.walk(root):
        folders[:] = [name for name in folders if name not in ("out", ".git")]
        found += [os.path.relpath(f"{here}/{name}", root) for name in names]
    return found


def program_of(root):
    """The program that is run: $XCPD, or the one in out/, which is built first if it isn't."""
    if os.environ.get("XCPD"):
        return os.path.abspath(os.environ["XCPD"])
    if subprocess.run([f"{root}/bin/xcpd", "--version"], stdout=subprocess.DEVNULL).returncode:
        raise RuntimeError("the program isn't built")
    return f"{root}/out/xcpd"


class Folder:
    """The folder in which blocks are run: the tree's files, and in out/ what is built, in a way that bin/xcpd takes for its own."""

    def __init__(self, root, place, program):
        self.place, self.sources = place, {path: f"{root}/{path}" for path in files_of(root)}
        if os.path.exists(f"{root}/{LIBRARY}"):
            beside = [it for it in (LIBRARY, "out/billhookyew.pc", "c/billhookyew.h") if os.path.exists(f"{root}/{it}")]
            self.sources |= {f"out/{os.path.basename(it)}": f"{root}/{it}" for it in beside}
        if program:
            self.sources["out/xcpd"] = program
        # (Behind the sources, so that none of these is newer.)
        self.made = [f"out/{name}" for name in ("kit", "sources", "began")] if program else []
        self.kept = {}  # of each file its mark
        os.makedirs(place)
        for path in [*self.sources, *self.made]:
            self.put(path)

    def put(self, path):
        os.makedirs(os.path.dirname(f"{self.place}/{path}"), exist_ok=True)
        if path in self.made:
            with open(f"{self.place}/{path}", "w", encoding="utf-8") as file:
                file.write("made for the pages\n")
        else:
            shutil.copy2(self.sources[path], f"{self.place}/{path}", follow_symlinks=False)
        self.kept[path] = self.mark(path)

    def mark(self, path):
        """What is another one once a file was changed."""
        it = os.lstat(f"{self.place}/{path}")
        return it.st_ino, it.st_size, it.st_mtime_ns, it.st_ctime_ns

    def clear(self):
        """Makes the folder as it was: takes away what blocks have left there, and puts anew what they have changed."""
        folders = {os.path.dirname(path) for path in self.kept}
        folders = {"/".join(path.split("/")[:at]) for path in folders for at in range(path.count("/") + 2)}
        left = set(self.kept)
        for here, inner, names in os.walk(self.place):
            below = os.path.relpath(here, self.place)
            for name in inner + names:
                path = os.path.normpath(f"{below}/{name}")
                if path in left and self.mark(path) == self.kept[path]:
                    left.remove(path)
                elif path not in folders:
                    remove(f"{self.place}/{path}")
            inner[:] = [name for name in inner if os.path.normpath(f"{below}/{name}") in folders]
        for path in [*left.difference(self.made), *(self.made if left else [])]:
            self.put(path)


def remove(path):
    if os.path.isdir(path) and not os.path.islink(path):
        shutil.rmtree(path)
    else:
        os.remove(path)


def free_port():
    """A port of this machine that nobody has, below those that the system gives out."""
    while True:
        port = random.randrange(10000, 30000)
        with contextlib.closing(socket.socket()) as probe, contextlib.suppress(OSError):
            probe.bind(("127.0.0.1", port))
            return str(port)


def members(session):
    """The processes of a session that haven't ended: their numbers and words."""
    found = {}
    for number in filter(str.isdigit, os.listdir("/proc")):
        with contextlib.suppress(OSError):
            with open(f"/proc/{number}/stat", encoding="utf-8", errors="replace") as file:
                state, _, _, its = file.read().rpartition(")")[2].split()[:4]
            if int(its) == session and state != "Z":
                with open(f"/proc/{number}/cmdline", encoding="utf-8", errors="replace") as file:
                    found[int(number)] = file.read().replace("\0", " ").strip()
    return found


def end_all(session):
    """Ends all processes of a session."""
    for _ in range(100):
        left = members(session)
        if not left:
            return
        for number in left:
            with contextlib.suppress(OSError):
                os.kill(number, signal.SIGKILL)
        time.sleep(0.02)


def bytes_of(path):
    """A file's bytes, or none if it isn't there."""
    with contextlib.suppress(FileNotFoundError):
        with open(path, "rb") as file:
            return file.read()
    return b""


def lines_of(path):
    return bytes_of(path).decode(errors="replace").splitlines()


def steps_of(room):
    """Where blocks of a room have begun and ended: how many bytes were printed by then."""
    words = [line.split() for line in lines_of(f"{room}/steps")]
    return {(int(at), what): int(size) for at, what, size in words}


def ended_in(room):
    return sum(what == "ends" for _, what in steps_of(room))


def watch(room, chain, shell):
    """Waits until the shell of a room ends, or the time of a block is over; notes that, and what is left behind."""
    begun, now = time.monotonic(), 0
    while shell.poll() is None:
        ended = ended_in(room)
        if ended > now:
            begun, now = time.monotonic(), ended
        if now < len(chain) and time.monotonic() - begun > chain[now].limit:
            chain[now].faults.append(f"it hasn't ended after {chain[now].limit:g} s")
            return
        time.sleep(0.03)
    ended = ended_in(room)
    if ended < len(chain):
        chain[ended].faults.append(f"it ends the shell, with status {shell.returncode}")
    until = time.monotonic() + GRACE
    while members(shell.pid) and time.monotonic() < until:
        time.sleep(0.03)
    for words in members(shell.pid).values():
        chain[min(ended, len(chain) - 1)].faults.append(f"it leaves a process behind: {words[:100]}")


def run_in(room, folder, chain, port):
    """Runs the blocks of a chain in a folder, one behind another in one shell, until all have ended, or one that doesn't. The files that the
    shell writes are in a room aside."""
    for at, block in enumerate(chain):
        with open(f"{room}/block.{at}", "w", encoding="utf-8") as file:
            file.write(PORT.sub(port, block.commands))
    with open(f"{room}/shell", "w", encoding="utf-8") as file:
        file.write(SHELL + "".join(STEP.format(at) for at in range(len(chain))))
    silent, mine = os.pipe()  # as a terminal at which nobody types
    how = {"stdin": silent, "stdout": subprocess.DEVNULL, "stderr": subprocess.DEVNULL, "start_new_session": True, "cwd": folder}
    how["env"] = {name: value for name, value in os.environ.items() if name != "XCPD"}
    shell = subprocess.Popen(["bash", "--noprofile", "--norc", f"{room}/shell", room], **how)
    try:
        watch(room, chain, shell)
    finally:
        end_all(shell.pid)
        shell.wait()
        os.close(silent)
        os.close(mine)


def play(chain, folder):
    """Runs a chain of blocks in a folder, and notes the faults of each. Returns how many were reached."""
    with tempfile.TemporaryDirectory(prefix="page-") as room:
        port = free_port()
        run_in(room, folder, chain, port)
        steps, printed = steps_of(room), bytes_of(f"{room}/printed")
        for line in lines_of(f"{room}/faults"):
            at, _, fault = line.partition(" ")
            if not (chain[int(at)].faults and "$_room" in fault):  # (the fault of the last command is also that of the whole block)
                chain[int(at)].faults.append(fault)
        reached = [block for at, block in enumerate(chain) if (at, "begins") in steps]
        for at, block in enumerate(reached):
            begin, end = steps[at, "begins"], steps.get((at, "ends"), len(printed))
            compare(block, printed[begin:end].decode(errors="replace"), printed[begin:].decode(errors="replace"), port)
        for block in reached:
            if block.faults:
                block.faults += [f"on standard error: {line[:200]}" for line in lines_of(f"{room}/said")[-5:]]
                break
        return len(reached)


def chains_of(blocks):
    """The blocks of a page in chains: one that goes on from another stands in the other's."""
    chains = []
    for block in blocks:
        if block.goes_on and chains:
            chains[-1].append(block)
        else:
            chains.append([block])
    return chains


def verdicts_of(pages, root):
    """Runs the blocks of pages. Gives of each the block, and why it was skipped, if it was."""
    chains = []
    for page in pages:
        with open(f"{root}/{page}", encoding="utf-8") as file:
            chains += [[(block, reason_to_skip(block, root)) for block in chain] for chain in chains_of(blocks_of(page, file.read()))]
    wants_program = any("xcpd" in block.bare() and not why for chain in chains for block, why in chain)
    program = program_of(root) if wants_program else None
    with tempfile.TemporaryDirectory(prefix="page-") as room:
        folder = Folder(root, f"{room}/tree", program)
        for chain in chains:
            reasons = [why for _, why in chain]
            run = [block for at, (block, _) in enumerate(chain) if not any(reasons[: at + 1])]
            reached = play(run, folder.place) if run else 0
            folder.clear()
            for at, (block, why) in enumerate(chain):
                yield block, None if at < reached or block in run[:1] else why or "the block above it wasn't run to its end"


def run_pages(pages, root=ROOT):
    """Runs the blocks of pages, and prints what is right, wrong and skipped. Returns the status."""
    right = wrong = skipped = 0
    for block, why in verdicts_of(pages, root):
        if block.faults:
            print(f"WRONG: {block.name()}", *block.faults, sep="\n    ", flush=True)
            wrong += 1
        elif why:
            print(f"skipped: {block.name()}: {why}", flush=True)
            skipped += 1
        else:
            print(f"ok: {block.name()}", flush=True)
            right += 1
    print(f"{right} right, {wrong} wrong, {skipped} skipped")
    return 1 if wrong else 0


# Blocks to try this on: what each shows; what the page has before it; its commands; what the page has behind it; and how what is found
# wrong of it, or why it's skipped, begins: nothing if it's right.
SECOND = "<!-- time limit: 1 s -->\n"
TRIED = [
    ("a block that prints the fence behind it", "", "echo one", "It prints\n\n```\none\n```\n", None),
    ("a block of which nothing is said", "", "echo one", "", None),
    ("a command that fails", "", "false\necho one", "", "a command ends with status 1: false"),
    ("a program that isn't there", "", "bin/none", "", "a command ends with status 127: bin/none"),
    ("a syntax that is none", "", "echo (", "", "a command ends with status"),
    ("another line", "", "echo two", "prints\n\n```\none\n```\n", "it prints 'two', and the page says 'one'"),
    ("a line more", "", "echo one; echo two", "prints\n\n```\none\n```\n", "it prints 'two', and the page says no more"),
    ("a line less", "", "echo one", "prints\n\n```\none\ntwo\n```\n", "it prints no more, and the page says 'two'"),
    ("a fence of which nothing is said", "", "echo one", "behind it\n\n```\none\n```\n", "the page doesn't say that the fence"),
    ("a block that waits for ever", SECOND, "sleep 1000", "", "it hasn't ended after 1 s"),
    ("and one behind it", f"This {GOES_ON}:", "echo one", "", "the block above it wasn't run to its end"),
    ("one that waits for what nobody types", SECOND, "cat", "", "it hasn't ended after 1 s"),
    ("one with less time than the page says", "<!-- time limit: 30 s -->\n", "sleep 1.5", "", None),
    ("one that leaves a process behind", "", "sleep 1000 &", "", "it leaves a process behind: sleep 1000"),
    ("one that waits for its process", "", "sleep 0.1 & wait", "", None),
    ("one whose process fails", "", "(sleep 0.1; exit 3) &\nwait", "", "a command ends with status 3: wait"),
    ("one that ends the shell", "", "exit", "", "it ends the shell"),
    ("one that leaves a file and a variable", "", "echo two > here; number=2", "", None),
    ("one that goes on from it", f"This {GOES_ON}:", "cat here; echo $number", "prints\n\n```\ntwo\n2\n```\n", None),
    ("one that goes on and fails", f"It also\n{GOES_ON}:", "cat none", "", "a command ends with status 1: cat none"),
    ("one that doesn't go on", "", "cat here", "", "a command ends with status 1: cat here"),
    ("one that empties a file, and leaves a folder and a FIFO", "", ": > page.md; mkdir -p one/two; mkfifo one/two/three", "", None),
    ("one that has the files as they were", "", "test -s page.md; ls", "prints\n\n```\npage.md\n```\n", None),
    ("lines in a comment", "", "echo 0; echo calls 7; echo settled   # the end: prints calls N, and settled", "", None),
    ("a line of a comment that isn't printed", "", "echo calls many   # prints calls N", "", "it doesn't print 'calls N'"),
    ("lines of a comment in another order", "", "echo settled; echo calls 7   # prints calls N and settled", "", "it doesn't print 'settled'"),
    ("lines of a comment that come later", "", "(sleep 0.1; echo late) &   # prints late", "", None),
    ("a comment that says nothing is printed", "", "true   # prints nothing", "", None),
    ("a comment that says so wrongly", "", "echo one   # prints nothing", "", "it prints 'one', and the page says nothing"),
    ("a port that is another one", "", "echo listening 5555", "prints\n\n```\nlistening 5555\n```\n", None),
    ("an address and a time", "", "echo 127.0.0.1:4711 12:30:01 after 3 s", "prints\n\n```\n127.0.0.1:40112 01:02:03 after 0.4 s\n```\n", None),
    ("a number that isn't the page's", "", "echo calls 7", "prints\n\n```\ncalls 8\n```\n", "it prints 'calls 7', and the page says 'calls 8'"),
    ("a table", "", "sed s/.*/FF/ <<'END'\nFF00\nD6\nD5\nevent 1 07\nEND", "| Line | Answer |\n|---|---|\n| `FF00` to `D5` | `FF` each |\n| `event 1 ..` | `FF` |\n", None),
    ("a table with another answer", "", "sed s/.*/FF/ <<'END'\nFF00\nEND", "| Line | Answer | What |\n|---|---|---|\n| `FF00` | `FE` | |\n", "it prints 'FF', and the page says 'FE'"),
    ("a table that lacks a line", "", "sed s/.*/FF/ <<'END'\nFF00\nD6\nEND", "| Line | Answer |\n|---|---|\n| `FF00` | `FF` |\n", "the table lacks the line 'D6'"),
    ("a table with a line more", "", "sed s/.*/FF/ <<'END'\nFF00\nEND", "| Line | Answer |\n|---|---|\n| `FF00` | `FF` |\n| `D6` | `FF` |\n", "the script has no line 'D6'"),
    ("one that needs root", "", "sudo true", "", "sudo needs root"),
    ("one that goes on from it too", f"This {GOES_ON}:", "echo one", "", "the block above it wasn't run to its end"),
    ("one for systemd", "", "echo one\nsystemctl restart xcpd", "", "systemctl needs systemd"),
    ("one in a folder that isn't there", "", "cd /no/such/folder\nfalse", "", "there is no /no/such/folder here"),
    ("one that has these words in a comment", "", "echo one   # without sudo", "", None),
]


def put_page(root, name, rows):
    """Writes a page of made-up blocks."""
    with open(f"{root}/{name}", "w", encoding="utf-8") as file:
        file.write("".join("## {}\n\n{}\n```sh\n{}\n```\n\n{}\n".format(*row[:4]) for row in rows))


def self_test():
    """Runs made-up blocks in a folder, and tells those of which something else is found than is wanted. Returns how many these are."""
    missed = 0
    with tempfile.TemporaryDirectory(prefix="pages-") as root:
        put_page(root, "page.md", TRIED)
        for (title, _, _, _, wanted), (block, why) in zip_longest(TRIED, verdicts_of(["page.md"], root)):
            told = why or (block.faults or [None])[0]
            holds = told.startswith(wanted) if told and wanted else told == wanted
            print(f"ok: {title}" if holds else f"WRONG: {title}: found {told!r}, wanted {wanted!r}")
            missed += not holds
        named = {row[0]: row for row in TRIED}
        few = [named[title] for title in ("a block that prints the fence behind it", "a command that fails", "another line", "one that needs root")]
        put_page(root, "few.md", few)
        put_page(root, "right.md", few[:1])
        put_page(root, "words.md", [("words of a chain without a chain", f"What {GOES_ON} is nothing.\n\nBut:\n", "echo one", "", None)])
        for page, last in (("few.md", "1 right, 2 wrong, 1 skipped"), ("right.md", "1 right, 0 wrong, 0 skipped"), ("words.md", "0 right, 1 wrong, 0 skipped")):
            with contextlib.redirect_stdout(io.StringIO()) as told:
                status = run_pages([page], root)
            holds = told.getvalue().splitlines()[-1] == last and status == (" 0 wrong" not in last)
            print(f"ok: the last line and the status: {last}" if holds else f"WRONG: the last line and the status of {page}: {told.getvalue()}{status}")
            missed += not holds
    return missed
