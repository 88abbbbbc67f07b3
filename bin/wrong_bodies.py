"""What bin/more-edits and bin/named-edits share: wrong bodies in files, many of them in one check, and what a check says of each.

An edit is a file *.edit with a line 'file: src/..', behind it pairs of lines 'old: TEXT' and 'new: TEXT', each old TEXT once in
the file, and one line 'fn: PATH', the name under which the check prints the function that is made wrong (several lines, where it
is several functions).

Edits of different functions, in different lines, are put into one check. An edit is refused if its function is refused for
itself, by a goal: not if only a function that it calls is, nor if a proof file names what the edit took away, nor if the text
can't be read. What is unclear in a batch is tried apart, at last alone.
"""
import concurrent.futures
import os
import re
import resource
import signal
import subprocess
import sys
import tempfile
import threading

ROOT = os.path.dirname(os.path.dirname(os.path.realpath(__file__)))
PARTS = ("src", "specs", "proofs")
PRINTING = threading.Lock()
STARTED = set()  # the checks that run now
ENDING = threading.Event()
MEMORY_OF_A_CHECK = 4.5e9  # what it is planned with, in bytes: most take 1 to 3 GB

# What the check says of a proof file that names what the edit took away: this says nothing of the contract.
STALE = re.compile(r"has no field|is not in scope|has no `|was not admitted|record `[^`]*` \(nearest")
# What the check says of a text that it can't read.
UNREAD = re.compile(r"is not in scope|has no field|is no name|operand is missing|expected the end|cannot continue")
GOAL = re.compile(r"note: (src/\S+?:\d+:\d+): it is not proved that (.*)")
VERDICT = re.compile(r"fn (\S+): (.*)")
JUDGED = re.compile(r"(?:fn|impl|struct|enum|trait) \S+: ")
UNPROVED = re.compile(r"`search` did not prove ((?:`[^`]+`(?:, | and )?)+)")
PROOF_ERROR = re.compile(r"(?:\./)?proofs/(\S+?)/(?:Answers|Invariants|Proof)\.antt:\d+:\d+: error: (.*)")
CALLS = re.compile(r"which (?:is|are) not proved")
NAME = re.compile(r"`(\w+(?:::\w+)+)`")
COUNTED = re.compile(r"only=\d+ proved=\d+")
UNKNOWN = re.compile(r"rattle: error: `\w+` has (?:no|several|\S+) functions?")


def say(text):
    with PRINTING:
        print(text, flush=True)


def stop(why):
    print(f"bin/{os.path.basename(sys.argv[0])}: {why}", file=sys.stderr)
    sys.exit(2)


class Crate:
    """A crate of crates.txt: its folder, its line, what it uses of the repository and of the kit, and the repository's crates
    below it, each after those that it uses."""

    def __init__(self, name, folder, line):
        self.name, self.folder, self.line = name, folder, line
        self.uses, self.of_kit, self.below = [], [], []
        self.is_static = "staticlib" in line.partition(":")[0].split()
        self.is_program = os.path.isfile(f"{folder}/src/main.rt")
        self.rlib = f"{folder}/out/rlib/{name}.rlib"


def crates_of(root):
    """The crates of crates.txt by their names, lowest first."""
    lines, found = {}, {}
    with open(f"{root}/crates.txt", encoding="utf-8") as it:
        for line in it:
            head, colon, uses = line.split("#")[0].partition(":")
            if colon:
                lines[head.split()[0]] = (" ".join(line.split()), uses.split())

    def make(name):
        if name not in found:
            crate = Crate(name, f"{root}/crates/{name}", lines[name][0])
            for use in lines[name][1]:
                if use in lines:
                    crate.uses.append(make(use))
                    crate.below += [it for it in [*make(use).below, make(use)] if it not in crate.below]
                else:
                    crate.of_kit.append(use)
            found[name] = crate
        return found[name]

    for name in lines:
        make(name)
    return found


def asked_for(crates, names):
    """The crates that the command line names, or all."""
    unknown = set(names) - set(crates)
    if unknown:
        stop(f"no crate {' '.join(sorted(unknown))}")
    return [it for it in crates.values() if not names or it.name in names]


class Edit:
    """A wrong body: the pairs of texts by file, and the functions that it makes wrong."""

    def __init__(self, crate, path):
        self.crate, self.name = crate, os.path.basename(path)[:-5]
        self.label = f"{crate}/{self.name}"
        self.pairs, self.functions, self.fault = [], [], None
        self.apart_from = set()  # functions that its own calls: it isn't tried in one check with edits of these
        self.alone = self.has_waited = False
        with open(path, encoding="utf-8", errors="replace") as it:
            self.text = it.read()
        self.read()

    def read(self):
        file = old = None
        for line in self.text.split("\n"):
            if line.startswith("file: "):
                file = line[6:].strip()
                if os.path.normpath(file) != file or not file.startswith(tuple(f"{it}/" for it in PARTS)):
                    self.fault = "a 'file:' line names no file below src/, specs/ or proofs/"
            elif line.startswith("fn: "):
                self.functions.append(line[4:].strip())
            elif line.startswith("old: "):
                old = line[5:]
            elif line.startswith("new:"):
                if not file or not old:
                    self.fault = "a 'new:' line stands before any 'file:' or 'old:' line"
                else:
                    self.pairs.append((file, old, line[4:].removeprefix(" ")))
                old = None
        if not self.fault and not self.pairs:
            self.fault = "it has no 'old:' and 'new:' pair"
        if not self.fault and not self.functions:
            self.fault = "it has no 'fn:' line"
        if not self.fault and not all(it.startswith(f"{self.crate}::") for it in self.functions):
            self.fault = f"a 'fn:' line names no function of {self.crate}"

    def applied(self, texts, folder):
        """The texts with this edit, or None, and why."""
        texts = dict(texts)
        for file, old, new in self.pairs:
            if file not in texts:
                try:
                    texts[file] = read(f"{folder}/{file}")
                except (OSError, UnicodeDecodeError):
                    return None, f"there is no file {file}"
            found = texts[file].count(old)
            if found != 1:
                return None, f"an 'old:' text is in {file} {found} times, and not once"
            texts[file] = texts[file].replace(old, new)
        return texts, None

    def is_shared(self, folder):
        """Whether it touches a text outside its function, as of a macro, a constant or an import: others may rest on this
        text, so it isn't tried in one check with them."""
        names = "|".join(re.escape(it.split("::")[-1]) for it in self.functions)
        for file, old, _ in self.pairs:
            text = read(f"{folder}/{file}")
            at = text.find(old)
            begun = list(re.finditer(rf"^([ \t]*)[^\n/]*\bfn (?:{names})\b", text[: max(at, 0) + len(old)], re.M))
            if at < 0 or not begun or re.search(rf"^{begun[-1][1]}\}}", text[begun[-1].start() : at], re.M):
                return True
        return len(self.functions) > 1

    def lines(self, folder):
        """The lines of the unedited files that it touches, or None if an old text is one that an earlier pair makes."""
        touched = set()
        for file, old, _ in self.pairs:
            text = read(f"{folder}/{file}")
            at = text.find(old)
            if at < 0:
                return None
            first = text.count("\n", 0, at)
            touched |= {(file, line) for line in range(first, first + old.count("\n") + 1)}
        return touched


def read(path):
    with open(path, encoding="utf-8") as it:
        return it.read()


def edits_in(crate, part):
    """The edits in a folder of the crate, and how many files there have no name of an edit, with a line for each of these."""
    folder, edits, bad = f"{crate.folder}/{part}", [], 0
    for name in sorted(os.listdir(folder)) if os.path.isdir(folder) else ():
        if re.fullmatch(r"[A-Za-z0-9_-][A-Za-z0-9_.-]*\.edit", name):
            edits.append(Edit(crate.name, f"{folder}/{name}"))
        else:
            say(f"{crate.name}/{name}: BAD EDIT: its name is of letters, digits, _, - and . and ends in .edit")
            bad += 1
    return edits, bad


def files_below(folder):
    for here, folders, names in os.walk(folder):
        folders.sort()
        for name in sorted(names):
            yield os.path.join(here, name)


class Told:
    """What a check printed, by function: the goals that refuse it for itself, and the unproved functions that it calls."""

    def __init__(self, text, status=0):
        self.lines, self.was_killed = text.rstrip("\n").split("\n"), status < 0
        self.ended = any(COUNTED.match(line) for line in self.lines)
        self.proved, self.goals, self.calls, self.stale, self.verdict = set(), {}, {}, {}, {}
        errors, notes = {}, []
        for line in self.lines:
            error, goal, verdict = PROOF_ERROR.match(line), GOAL.match(line), VERDICT.match(line)
            if error:
                errors.setdefault(error[1].replace("/", "::"), []).append(error[2])
            elif goal:
                notes.append(f"{goal[1]}: {goal[2]}")
            elif verdict:
                self.judge(verdict[1], verdict[2], errors, notes)
            if JUDGED.match(line):
                notes = []

    def judge(self, name, said, errors, notes):
        self.verdict[name] = said
        if re.match(r"proved|assumed", said):
            self.proved.add(name)
            return
        goals = list(notes)
        named = UNPROVED.search(said)
        if named and not notes:
            goals.append(f"`search` did not prove {named[1].rstrip(', ')}")
        own = errors.get(name.partition("::")[2], [])
        if not own and said.startswith("not proved"):  # of a cycle of calls the files stand in +NAME
            own = [it for key, found in errors.items() if key.split("::")[-1].startswith("+") for it in found]
        goals += [it for it in own if not STALE.search(it)]
        stale = [it for it in own if STALE.search(it)]
        if CALLS.search(said):
            self.calls[name] = set(NAME.findall(said))
        if said.startswith("could not tell"):
            goals = []
        if goals:
            self.goals[name] = goals
        elif stale:
            self.stale[name] = stale

    def calls_itself(self, name):
        """Whether a function calls itself by way of unproved ones: what refuses one of these is told of them all."""
        reached, waiting = set(), [name]
        while waiting:
            more = self.calls.get(waiting.pop(), set()) - reached
            reached |= more
            waiting += more
        return name in reached

    def unread(self, files):
        """The first line that says that a text of src/ or specs/, or of an edited file, can't be read."""
        for line in self.lines:
            at = re.match(r"(?:\./)?(\S+?):\d+:\d+: error[^:]*: (?:(`[^`]*`): )?(.*)", line)
            if at and (at[1] in files or at[1].startswith(("src/", "specs/"))):
                if not at[2] or UNREAD.search(re.sub(r"`[^`]*`", "", at[3])):
                    return line
        return None


def ran(words, folder):
    """Runs a command in a folder, and returns its status, what it printed, and the seconds of processors that it took; an
    interruption ends it."""
    with tempfile.TemporaryFile("w+", errors="replace") as said:
        if ENDING.is_set():
            raise KeyboardInterrupt
        how = {"cwd": folder, "stdin": subprocess.DEVNULL, "stdout": said, "stderr": subprocess.STDOUT}
        started = subprocess.Popen(words, start_new_session=True, **how)
        STARTED.add(started.pid)
        if ENDING.is_set():  # (it came between)
            end_all()
        try:
            _, status, used = os.wait4(started.pid, 0)
        finally:
            STARTED.discard(started.pid)
        started.returncode = os.waitstatus_to_exitcode(status)
        if ENDING.is_set():
            raise KeyboardInterrupt
        said.seek(0)
        return started.returncode, said.read(), used.ru_utime + used.ru_stime


class Trial:
    """The edits of one crate, tried in a copy of it in a folder, by a command that checks it there, with `--only` for each
    function."""

    def __init__(self, crate, folder, command):
        self.crate, self.folder, self.command = crate, folder, command
        self.checks, self.seconds = 0, 0.0

    def check(self, edits):
        """Runs a check of the copy with these edits, and puts its texts back."""
        texts = {}
        for edit in edits:
            texts, why = edit.applied(texts, self.folder)
            assert texts is not None, (edit.label, why)
        before = {file: read(f"{self.folder}/{file}") for file in texts}
        only = sorted({name.partition("::")[2] for edit in edits for name in edit.functions})
        try:
            self.put(texts)
            words = [*self.command, *(word for it in only for word in ("--only", it))]
            for _ in range(2):  # (once more, if it is killed: most likely for memory)
                status, said, seconds = ran(words, self.folder)
                self.checks, self.seconds = self.checks + 1, self.seconds + seconds
                if status >= 0:
                    break
            return Told(said, status), set(texts)
        finally:
            self.put(before)

    def put(self, texts):
        for file, text in texts.items():
            with open(f"{self.folder}/{file}", "w", encoding="utf-8") as it:
                it.write(text)

    def batch(self, edits):
        """The first edits that can be tried in one check, and the others."""
        if edits[0].alone:
            return edits[:1], edits[1:]
        taken, left, functions, lines, texts = [], [], set(), set(), {}
        for edit in edits:
            touched = edit.lines(self.folder)
            apart = edit.alone or touched is None and taken or functions & (set(edit.functions) | edit.apart_from)
            apart = apart or any(set(edit.functions) & it.apart_from for it in taken) or touched and touched & lines
            both = None if apart else edit.applied(texts, self.folder)[0]
            if both is None:
                left.append(edit)
                continue
            taken.append(edit)
            texts, functions, lines = both, functions | set(edit.functions), lines | (touched or set())
            if touched is None:
                left += [it for it in edits if it not in taken and it not in left]
                break
        return taken, left

    def judged(self, edit, told, files, alone):
        """Whether the edit is refused, and its line; None where a batch doesn't tell."""
        unread = told.unread(files)
        if not told.ended and told.was_killed:
            return False, "NOT TRIED: its check was killed, most likely for memory"
        if not told.ended:
            unknown = next((it for it in told.lines if UNKNOWN.match(it)), None)
            if unknown and not unread:
                return False, f"BAD EDIT: the check knows no function {' '.join(edit.functions)}: {unknown[:120]}"
            what = unread or next((it for it in told.lines if "error" in it), told.lines[-1])
            return False, f"BAD EDIT: its text can't be read, so no contract was tried: {what[:200]}"
        if unread:
            return (False, f"BAD EDIT: its text can't be read, so no contract was tried: {unread[:200]}") if alone else None
        goals = []
        for name in edit.functions:
            if name not in told.verdict:
                return False, f"BAD EDIT: the check prints no function {name}"
            # (a caller is proved from the contracts of what it calls: its goals are its own, whether these are proved or not)
            if name in told.calls and not alone and (name not in told.goals or told.calls_itself(name)):
                edit.apart_from |= told.calls[name]
                return None
            if name not in told.goals:
                return self.not_refused(name, told) if alone else None
            goals.append(told.goals[name][0])
        return True, f"refused: {goals[0][:160]}"

    def not_refused(self, name, told):
        if name in told.proved:
            return False, f"NOT REFUSED: {name} is still proved"
        if name in told.stale:
            why = told.stale[name][0][:160]
            return False, f"NOT REFUSED by a goal of {name}, only since a proof file names what the edit took away: {why}"
        return False, f"NOT REFUSED by a goal of {name}: {told.verdict[name][:160]}"

    def try_all(self, edits):
        """Yields each edit with whether it is refused, and its line."""
        sound = []
        for edit in edits:
            why = edit.fault or edit.applied({}, self.folder)[1]
            if why:
                yield edit, False, f"BAD EDIT: {why}"
            else:
                edit.alone = edit.is_shared(self.folder)
                sound.append(edit)
        waiting = [sound]
        while waiting:
            edits = waiting.pop()
            if not edits:
                continue
            taken, left = self.batch(edits)
            waiting.append(left)
            told, files = self.check(taken)
            alone = len(taken) == 1
            if not alone and (not told.ended or told.unread(files)):  # one of them can't be read, or names no function
                half = len(taken) // 2
                waiting += [taken[:half], taken[half:]]
                continue
            later = []
            for edit in taken:
                done = self.told_of(edit, told, files, taken)
                if done is None:
                    later.append(edit)
                else:
                    yield (edit, *done)
            if later and waiting and not alone:
                waiting[-1] = waiting[-1] + later
            elif later:
                waiting.append(later)

    def told_of(self, edit, told, files, taken):
        """What a check of these edits says of one of them, or None if it has to be tried again."""
        alone, named = len(taken) == 1, {name for it in taken for name in it.functions}
        strangers = set(told.goals) - named
        done = None if strangers and not alone else self.judged(edit, told, files, alone)
        if done is None:
            # where it calls another edited function it waits for a batch without this one, else it is tried alone
            again = bool(edit.apart_from & named) and not edit.has_waited and not strangers
            edit.has_waited, edit.alone = True, not again
        return done


def tried(trial, edits, counts, keep=lambda edit, text: None):
    """Tries the edits of a crate, with a line for each and one for them all, and counts those that are refused, and not."""
    for edit, well, text in trial.try_all(edits):
        say(f"{edit.label}: {text}")
        if well:
            keep(edit, text)
        with PRINTING:
            counts[not well] += 1
    minutes = f"{trial.seconds / 60:.1f} processor minutes"
    say(f"{trial.crate.name}: {len(edits)} edits in {trial.checks} checks, {minutes}")


def number_in(path, pattern):
    try:
        return int(re.search(pattern, read(path))[1])
    except (OSError, TypeError):
        return None


def cores():
    """How many processors there are to use, under the control group's quota too."""
    found = len(os.sched_getaffinity(0))
    quota, period = (number_in("/sys/fs/cgroup/cpu.max", it) for it in (r"^(\d+)", r" (\d+)"))
    return min(found, max(quota // period, 1)) if quota and period else found


def free_memory():
    """How many bytes of memory are free, under the control group's limit too."""
    found = 1024 * (number_in("/proc/meminfo", r"MemAvailable:\s+(\d+)") or 0)
    limit = number_in("/sys/fs/cgroup/memory.max", r"(\d+)")
    held = number_in("/sys/fs/cgroup/memory.stat", r"anon (\d+)")
    return min(found, max(limit - held, 0)) if limit and held is not None else found


def lanes():
    """How many checks run at a time where nothing else is said: RT_JOBS, or one for each processor, as far as memory goes."""
    given = os.environ.get("RT_JOBS", "")
    return int(given) if re.fullmatch(r"[1-9]\d*", given) else max(1, min(cores(), int(free_memory() / MEMORY_OF_A_CHECK)))


class Task:
    """A call, the names of the tasks that it waits for, and whether it can use several lanes: it gets how many it may."""

    def __init__(self, name, call, waits=(), is_wide=False):
        self.name, self.call, self.waits, self.is_wide = name, call, set(waits), is_wide


def in_lanes(tasks, count):
    """Runs tasks side by side in so many lanes, of those that are ready the first ones first. One that fails ends them all."""
    left, running, ended = list(tasks), {}, set()
    with concurrent.futures.ThreadPoolExecutor(count) as pool:
        try:
            while left or running:
                ready = [it for it in left if it.waits <= ended]
                idle = count - sum(width for _, width in running.values())
                while ready and idle > 0:
                    task = ready.pop(0)
                    width = max(1, min(4, idle // (len(ready) + 1))) if task.is_wide else 1
                    left.remove(task)
                    running[pool.submit(task.call, width)] = task, width
                    idle -= width
                for it in concurrent.futures.wait(running, return_when=concurrent.futures.FIRST_COMPLETED).done:
                    ended.add(running.pop(it)[0].name)
                    it.result()
        except BaseException:
            end_all()
            raise


def end_all(*_):
    """Ends the checks that run; the copy is removed as the interruption goes up."""
    ENDING.set()
    for pid in list(STARTED):
        try:
            os.killpg(pid, signal.SIGKILL)
        except ProcessLookupError:
            pass


def interrupted(number, _):
    end_all()
    raise KeyboardInterrupt


def read_options(words, doc, options):
    """The command line's options, each with a word behind it if its value isn't False, and the names."""
    given, names, words = dict(options), [], list(words)
    while words:
        word = words.pop(0)
        key = word.removeprefix("--")
        if word.startswith("--") and given.get(key) is False:
            given[key] = True
        elif word.startswith("--") and key in given and words:
            given[key] = words.pop(0)
        elif word.startswith("-"):
            print(doc.strip())
            sys.exit(0 if word in ("-h", "--help") else 2)
        else:
            names.append(word)
    if not re.fullmatch(r"[1-9]\d*", str(given["jobs"])):
        stop("--jobs takes a number from 1 on")
    return {**given, "jobs": int(given["jobs"])}, names


def tell_minutes():
    used = resource.getrusage(resource.RUSAGE_CHILDREN)
    print(f"{(used.ru_utime + used.ru_stime) / 60:.1f} processor minutes", flush=True)


def run(main):
    """Runs a script; where it is interrupted, or a file is in its way, its checks end and it leaves nothing behind."""
    try:
        for number in (signal.SIGINT, signal.SIGTERM, signal.SIGHUP):
            if number != signal.SIGHUP or signal.getsignal(number) != signal.SIG_IGN:  # (nohup's work goes on)
                signal.signal(number, interrupted)
        sys.exit(main())
    except KeyboardInterrupt:
        end_all()
        print(f"bin/{os.path.basename(sys.argv[0])}: interrupted", file=sys.stderr)
        sys.exit(130)
    except OSError as error:  # (shutil's has all that it could not copy)
        end_all()
        stop(f"could not go on: {str(error)[:200]}")
