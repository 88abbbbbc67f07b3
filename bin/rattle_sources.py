"""What bin/link-promises reads in the tree: the functions of a crate with their words and clauses, its definitions, the wrong bodies of it that
must be refused, and the tests that call it."""
import os
import re

ROOT = os.path.dirname(os.path.dirname(os.path.realpath(__file__)))
# Where the wrong bodies stand: those that the gate tries, and those that bin/more-edits tries.
EDITS = {"named-edits": True, "more-edits": False}
TESTS = "tests/src"
PLAYERS = ("test_books", "test_bank_books", "test_playing")
# What ends a function's text, at its own indentation or before it: the next item, or the end of what it stands in.
NEXT_ITEM = re.compile(r"///|//|#\[|pub\b|fn\b|const\b|impl\b|trait\b|ghost\b|macro_rules|\}")
BLOCK = re.compile(r"(?:pub(?:\([\w ]+\))? )?(impl\b|trait )")
FUNCTION = re.compile(r"(pub(?:\([\w ]+\))? )?(?:const |unsafe |extern .C. )*fn (\w+)")
# What types keep, and what traits have them promise: members that aren't functions.
KEPT = set("contents from_gives gives hears invariant kept_by knows may_end output put_so_far refuses shelved wrote".split())
# Names that methods of the standard library have too: where one is called behind a dot, nothing says of which type it is.
COMMON = set("as_bytes as_slice clear flush get is_empty iter len next push read take write write_all".split())


def read(path):
    with open(os.path.join(ROOT, path), encoding="utf-8") as file:
        return file.read()


def files_below(folder, endings):
    """The files below a folder of the tree, by their paths from its top; what builds leave in out/ is passed over."""
    found = []
    for here, folders, names in os.walk(os.path.join(ROOT, folder)):
        folders[:] = sorted(name for name in folders if name not in ("out", ".git"))
        found += [os.path.relpath(os.path.join(here, name), ROOT) for name in sorted(names) if name.endswith(endings)]
    return found


def indentation(line):
    return len(line) - len(line.lstrip())


def owner_of(line):
    """Of `impl<..> Trait for Type<..> {` the trait and the type, of `impl<..> Type {` and `trait Name {` the name."""
    line = re.sub(r"^.*?\b(impl|trait)\b|'\w+ ", "", line)
    while re.search(r"<[^<>]*>", line):
        line = re.sub(r"<[^<>]*>", "", line)
    both = re.search(r"(\w+)\s+for\s+&?(?:mut )?(\w+|\S+)", line)
    if both:
        return both.groups()
    name = re.search(r"(\w+)", line)
    return None, name and name.group(1)


class Block:
    """What a function stands in: the type or trait (its owner), the trait that it implements, whether it is a trait, and its first line."""

    def __init__(self, header=""):
        self.header = header
        self.trait, self.owner = owner_of(header) if header else (None, None)
        self.is_trait = bool(header) and BLOCK.match(header).group(1) != "impl"


class Function:
    """A function of a source: the type or trait that it stands in (its owner), the trait that it is of, its words (`///`), its text, and its
    clauses in order, each with the definitions that it cites."""

    def __init__(self, name, visible, block, words, text):
        self.name, self.words, self.text = name, words, text
        self.owner, self.trait, self.in_trait, self.header = block.owner, block.trait, block.is_trait, block.header
        self.visible = visible or self.in_trait or self.trait is not None
        self.crate = self.file = None
        self.is_test = self.is_public = False
        self.clauses, self.sentences, self.edits, self.tests = [], [], [], []

    @property
    def title(self):
        return f"{self.owner}::{self.name}" if self.owner else self.name

    @property
    def module(self):
        return os.path.basename(self.file)[: -len(".rt")]

    @property
    def does_nothing(self):
        """Whether its body is empty, as that of a law, or only names what it has."""
        return bool(re.search(r"\{\s*(?:let _ = [^;]*;\s*)*\}$", self.text.strip()))

    @property
    def may_wait(self):
        """Whether its signature, or the type that it is of, has a runtime to wait with."""
        signature = re.split(r"\n\s*(?:requires|ensures|\{)", self.text)[0]
        return bool(re.search(r"\bWait\b", signature + self.header))

    def stated(self, kind):
        """The texts of what it states of a kind, `requires` or `ensures`, each behind its name, which may be none."""
        return stated_in(self.text.splitlines(), rf"\s*{kind}(?: (\w+))? \{{")


def stated_in(lines, form):
    """The texts in braces behind what has this form, each with the name in the form, which may be none."""
    found, depth = [], 0
    for line in lines:
        begun = re.match(form, line) if depth == 0 else None
        if begun:
            found.append([begun.group(1) or "", line[begun.end() :]])
        elif depth > 0:
            found[-1][1] += " " + line.strip()
        if begun or depth > 0:
            depth += line.count("{") - line.count("}")
    return [(name, said.strip().rstrip(";").rstrip("}").strip()) for name, said in found]


def blocks_in(lines):
    """The blocks of a source, each with the numbers of its first line and of its last, from 0."""
    for at, line in enumerate(lines):
        if BLOCK.match(line.strip()):
            opened = next(k for k in range(at, len(lines)) if "{" in lines[k] or lines[k].endswith(";"))
            closed = next((k for k in range(opened, len(lines)) if lines[k] == line[: indentation(line)] + "}"), opened)
            yield Block(" ".join(it.strip() for it in lines[at : opened + 1])), at, closed


def text_from(lines, at):
    """The text of the function that begins in this line."""
    own = indentation(lines[at])
    for end in range(at + 1, len(lines)):
        bare = lines[end].strip()
        if indentation(lines[end]) == own and bare in ("}", "{}"):
            return "\n".join(lines[at : end + 1])
        if bare and indentation(lines[end]) <= own and NEXT_ITEM.match(bare):
            return "\n".join(lines[at:end]).rstrip()
    return "\n".join(lines[at:])


def functions_in(text):
    """The functions of a source, in order."""
    found, words, test = [], [], False
    lines = text.splitlines()
    inside = {at: block for block, first, last in blocks_in(lines) for at in range(first, last + 1)}
    for at, line in enumerate(lines):
        bare = line.strip()
        begun = FUNCTION.match(bare)
        if begun:
            found.append(Function(begun.group(2), begun.group(1) == "pub ", inside.get(at, Block()), words, text_from(lines, at)))
            found[-1].is_test = test
        if bare.startswith("///"):
            words = words + [bare[3:].strip()]
        elif bare and not bare.startswith(("#[", "//")):
            words, test = [], False
        test = test or bare.startswith("#[test]")
    return found


def citations(text):
    """The words that a source takes from files of specs/ of this repository, but for specs/private/, each with its file."""
    cited = {}
    for crate, path, words in re.findall(r"ghost use Rattle\.(\w+)\.specs\.([\w.]+)\.\{([^}]*)\}", text):
        file = f"crates/{crate}/specs/{path.replace('.', '/')}.antt"
        if os.path.exists(os.path.join(ROOT, file)) and not path.startswith("private."):
            cited.update({word.split(" as ")[-1].strip(): (crate, path.replace(".", "/")) for word in words.split(",")})
    return cited


def cited_in(said, cited):
    """The files that a text takes words from, in order."""
    return list(dict.fromkeys(cited[word] for word in re.findall(r"[\w'-]+", said) if word in cited))


def exported(crate, root):
    """The names that others may use of a library, and the files whose every name they may: of its modules that are public."""
    assert not re.search(r"^pub use .*\*", root, re.M), f"{crate} exports names that its root doesn't have"
    names = {name.strip() for some in re.findall(r"^pub use [\w:]*?\{([^}]*)\};", root, re.M | re.S) for name in some.split(",")}
    names |= set(re.findall(r"^pub use (?:\w+::)*(\w+);", root, re.M))
    return names, {f"{module}.rt" for module in re.findall(r"^pub mod (\w+);", root, re.M)}


class Edit:
    """A wrong body: its name, whether the gate tries it, the names of the functions that it makes wrong, and the files that it changes."""

    def __init__(self, path, in_gate):
        self.path, self.name, self.in_gate = path, os.path.basename(path)[: -len(".edit")], in_gate
        self.text = read(path)
        self.functions = re.findall(r"^fn: (\S+)", self.text, re.M)
        self.files = set(re.findall(r"^file: src/(\S+)", self.text, re.M))

    def named(self, functions, path):
        """The functions of its crate that a line `fn:` may mean, which has crate, module, type and trait, and name."""
        *before, name = path.split("::")
        block = re.sub(r"\+.*|^Ref(?=[A-Z])", "", before[-1])
        those = [it for it in functions if it.name == name]
        if block[:1].isupper():
            found = [it for it in those if it.owner and block in (it.owner, it.owner + (it.trait or ""))]
            found = found or [it for it in those if it.trait and stands_for(block, it.header)]
        else:
            found = [it for it in those if not it.owner and it.file[:-3].split("/") == before[1:]]
        return [it for it in found if it.file in self.files] or found

    def brings(self, path):
        """Whether it puts this function there itself, in place of one that it no longer imports."""
        return bool(re.search(rf"^new: .*\bfn {path.split('::')[-1]}\b", self.text, re.M))


def stands_for(block, header):
    """Whether a check prints this header so: `impl From<Fault> for Told {` as ToldFromFault."""
    return all(word in header for word in re.findall(r"[A-Z][a-z0-9]*", block))


class Crate:
    """A crate: its own words, its functions, its definitions with the words that stand at their heads, and its edits."""

    def __init__(self, name):
        self.name, self.folder = name, f"crates/{name}"
        root = next(path for path in files_below(f"{self.folder}/src", ".rt") if os.path.basename(path) in ("lib.rt", "main.rt"))
        self.is_program = root.endswith("main.rt")
        self.words = words_at_head(read(root), "//!")
        self.names, self.modules = exported(name, read(root))
        self.files, self.functions, self.kept, self.brought = {}, [], [], []
        for path in files_below(f"{self.folder}/src", ".rt"):
            self.read_source(path, os.path.relpath(path, f"{self.folder}/src"))
        self.give_clauses_of_traits()
        self.by_name = {}
        for function in self.functions:
            self.by_name.setdefault(function.name, []).append(function)
        self.definitions = {
            os.path.relpath(path, f"{self.folder}/specs")[:-5]: words_at_head(read(path), "--")
            for path in files_below(f"{self.folder}/specs", ".antt")
            if "/private" not in path and not path.endswith("/Lib.antt")
        }
        self.edits = [Edit(path, tried) for part, tried in EDITS.items() for path in files_below(f"{self.folder}/{part}", ".edit")]

    def read_source(self, path, file):
        text = read(path)
        self.files[file] = words_at_head(text, "//!") or words_at_head(text, "//")
        cited = citations(text)
        for function in functions_in(text):
            function.crate, function.file = self.name, file
            function.clauses = [(clause, cited_in(said, cited)) for clause, said in function.stated("ensures")]
            function.is_public = function.visible and self.is_exported(function)
            self.functions.append(function)
        for block, first, last in blocks_in(text.splitlines()):
            if block.owner in self.names and not block.is_trait:
                members = stated_in(text.splitlines()[first : last + 1], r"\s*ghost (\w+) = \{")
                self.kept += [(file, block, name, said, cited_in(said, cited)) for name, said in members if name in KEPT]

    def is_exported(self, function):
        """Whether others may use it: a program's functions stand for its promises too, and those for C have no path."""
        named = (function.owner or function.name) in self.names or function.file in self.modules
        return named or self.is_program or bool(re.match(r"pub extern .C. ", function.text.strip()))

    def give_clauses_of_traits(self):
        """A function of `impl Trait for Type` that states a clause has those of the trait's function too."""
        for function in self.functions:
            if function.trait and function.clauses:
                own = [name for name, _ in function.clauses]
                of_trait = [it for it in self.functions if it.in_trait and it.owner == function.trait and it.name == function.name]
                function.clauses += [clause for it in of_trait for clause in it.clauses if clause[0] not in own]

    def promising(self):
        """Its public functions that have a clause."""
        return [it for it in self.functions if it.is_public and it.clauses]

    def called_by(self, function):
        """The functions of this crate that a function calls, as far as their names tell which they are."""
        body, found = function.text, set()
        for owner, name in re.findall(r"\b(\w+)::(\w+)\b", body):
            owner = function.owner if owner == "Self" else owner
            found |= {it for it in self.named(name) if it.owner == owner or not it.owner and it.module == owner}
        for name in re.findall(r"(?<![\w.:])(\w+)(?:::<[^()]*>)?\(", body):
            free = [it for it in self.named(name) if not it.owner]
            found |= set(free if len(free) == 1 else [it for it in free if it.file == function.file])
        for name in re.findall(r"\.(\w+)(?:::<[^()]*>)?\(", body):
            found |= set(self.named(name)) if len(self.named(name)) == 1 and name not in COMMON else set()
        for name in re.findall(r"\bself\.(\w+)(?:::<[^()]*>)?\(", body):
            found |= {it for it in self.named(name) if it.owner == function.owner}
        return found - {function}

    def named(self, name):
        return self.by_name.get(name, [])

    def private_below(self, function, public):
        """The functions that a public one calls, itself or by others, as long as they aren't public."""
        found, waiting = set(), [function]
        while waiting:
            more = self.called_by(waiting.pop()) - found - set(public)
            found |= more
            waiting += more
        return [it for it in self.functions if it in found]


def words_at_head(text, mark):
    """The first paragraph of the comment at a file's head, in one line."""
    words = []
    for line in text.splitlines():
        said = line.removeprefix(mark).strip()
        if not line.startswith(mark) or not said or re.match(r"\(?ASAM ", said):
            break
        words.append(said)
    return " ".join(words)


def crates():
    """The crates of crates.txt, by their names."""
    heads = [line.split("#")[0].partition(":") for line in read("crates.txt").splitlines()]
    return {head.split()[0]: Crate(head.split()[0]) for head, colon, _ in heads if colon}


class Test:
    """A test, or a player of books: its name, its folder, the names that its file takes from crates, and those in the text of all that it runs
    there: behind dots, behind the names of types, and by themselves."""

    def __init__(self, name, folder, taken, text):
        self.name, self.folder, self.taken = name, folder, taken
        self.behind_dots = set(re.findall(r"\.(\w+)(?:::<[^()]*>)?\(", text))
        self.by_paths = set(re.findall(r"\b(\w+::\w+)\b", text))
        self.alone = set(re.findall(r"(?<![\w.:])(\w+)\b", text))


def taken_in(text):
    """What a source takes from crates by `use`: each name with its crate."""
    taken = {}
    for crate, names in re.findall(r"^use (\w+)::(?:\w+::)*\{?([^;]*?)\}?;", text, re.M | re.S):
        taken.update({name.strip(): crate for name in names.split(",") if name.strip()})
    return taken


def tests_in(path):
    """The tests of a file, each with the text of what it calls there."""
    text = read(path)
    own = {it.name: it for it in functions_in(text)}
    for test in [it for it in own.values() if it.is_test]:
        reached, waiting = {test.name}, [test.name]
        while waiting:
            called = set(re.findall(r"\b(\w+)\b", own[waiting.pop()].text)) & set(own) - reached
            reached |= called
            waiting += called
        yield Test(test.name, os.path.dirname(path), taken_in(text), "\n".join(own[name].text for name in sorted(reached)))


def tests():
    """The tests in Rattle."""
    return [test for path in files_below(TESTS, ".rt.txt") for test in tests_in(path)]


def players():
    """The players of books, each as one test."""
    texts = {name: "\n".join(read(path) for path in files_below(f"crates/{name}/src", ".rt")) for name in PLAYERS}
    return [Test(name, f"crates/{name}", taken_in(text), text) for name, text in texts.items()]


def programs_in_c():
    """The programs that call the library for C, each as one test under its path."""
    texts = {path: read(path) for path in files_below("c", ".c")}
    return [Test(path, "c", dict.fromkeys(re.findall(r"\bxcp_\w+", text), "xcp_c"), text) for path, text in texts.items()]


def find_tests(functions, every):
    """Gives each public function the tests that call it. Where a method is called behind a dot, its name has to be of one type alone, of all
    or of those that the test's file names."""
    owners = {}
    for it in functions:
        owners.setdefault(it.name, set()).add((it.crate, it.owner))
    for test in every:
        for it in functions:
            if calls(test, it, owners[it.name]):
                it.tests.append(test.name)


def calls(test, function, owners):
    """Whether a test calls this function: `owners` are the crates and types that have one of this name."""
    if not function.owner:
        taken = function.name in test.alone and test.taken.get(function.name) == function.crate
        return taken or f"{function.crate}::{function.name}" in test.by_paths
    if function.title in test.by_paths:
        return test.taken.get(function.owner) == function.crate
    if function.name not in test.behind_dots or function.name in COMMON:
        return False
    named = {(crate, owner) for crate, owner in owners if test.taken.get(owner) == crate}
    return (named or owners) == {(function.crate, function.owner)}
