"""What is made of the program's own help: the page of the manual, and the words that bash completes. No word on an option or a fault stands
here: all of them are those that the program prints when it is run with --help.
"""
import datetime
import re
import subprocess

# A line of a list: what is named, and behind two blanks at least what is said of it.
ITEM = re.compile(r" {2,}(?P<name>\S.*?) {2,}(?P<text>\S.*)")


def told(program, *words):
    """What the program prints to these words."""
    ran = subprocess.run([program, *words], stdin=subprocess.DEVNULL, capture_output=True, text=True, encoding="utf-8", timeout=20)
    if ran.returncode or not ran.stdout:
        raise RuntimeError(f"{program} {' '.join(words)} ended with status {ran.returncode}: {ran.stderr.strip()[:200]}")
    return ran.stdout


class Help:
    """A text of help in its parts: what the command is for, its usage, its lists by their titles, and what stands below them."""

    def __init__(self, text):
        blocks = [block.splitlines() for block in re.split(r"\n{2,}", text.strip("\n"))]
        self.about, self.usage, self.lists, self.below = "", "", {}, []
        for lines in blocks:
            title = re.fullmatch(r"(\w+):", lines[0])
            if title:
                self.lists[title[1]] = items_of(lines[1:])
            elif lines[0].startswith("Usage: "):
                self.usage = " ".join(line.strip() for line in lines).removeprefix("Usage: ")
            elif not self.about:
                self.about = " ".join(lines)
            else:
                self.below.append(lines)
        if not (self.about and self.usage and self.lists.get("Options")):
            raise ValueError(f"no help is read in: {text[:200]}")

    def options(self):
        """The options in the form in which they are typed, each with the name of its value, or none."""
        found = []
        for name, _ in self.lists["Options"]:
            for word in name.split(", "):
                option, _, value = word.partition(" ")
                found.append((option, value.strip("<>")))
        return found

    def arguments(self):
        return [name for name, _ in self.lists.get("Arguments", [])]


def items_of(lines):
    """The lines of a list, each with what is said of it, also in the lines below it."""
    found = []
    for line in lines:
        item = ITEM.fullmatch(line)
        if item:
            found.append([item["name"], item["text"]])
        else:
            found[-1][1] += f" {line.strip()}"
    return found


def helps_of(program):
    """The help of the program, under "", and of each of its subcommands, under their names."""
    found = {"": Help(told(program, "--help"))}
    for name, _ in found[""].lists.get("Commands", []):
        if name != "help":
            found[name] = Help(told(program, name, "--help"))
    return found


def escaped(text):
    """A text for roff: no character of it is a request, a hyphen to break at, or a typographer's quote."""
    for plain, form in (("\\", "\\e"), ("-", "\\-"), ("'", "\\(aq"), ("`", "\\(ga"), ("^", "\\(ha"), ("~", "\\(ti"), ('"', "\\(dq")):
        text = text.replace(plain, form)
    return f"\\&{text}" if text.startswith(".") else text


def put_list(items):
    return [line for name, text in items for line in (".TP", f"\\fB{escaped(name)}\\fR", escaped(text))]


def put_below(blocks):
    """Paragraphs; of the lists in them, which begin with a status, each status with its words."""
    put = []
    for lines in blocks:
        at = next((at for at, line in enumerate(lines) if ITEM.fullmatch(line)), len(lines))
        if at:
            put += [".PP", escaped(" ".join(lines[:at]))]
        put += put_list(items_of(lines[at:]))
    return put


def put_help(it):
    put = []
    for title, items in it.lists.items():
        put += [f".SS {title}"] + put_list(items)
    return put + put_below(it.below)


def page_of(helps, version, seconds, documents):
    """The page xcpd(1) as roff text. The date is that of so many seconds, and the documents are in this folder."""
    day = datetime.datetime.fromtimestamp(seconds, datetime.timezone.utc).date()
    top = helps[""]
    put = ['.\\" Made of what the program prints with \\-\\-help.', f'.TH XCPD 1 "{day}" "xcpd {version}" "User Commands"', ".nh", ".ad l"]
    put += [".SH NAME", f"xcpd \\- {escaped(top.about)}", ".SH SYNOPSIS"]
    for it in helps.values():
        put += [f"\\fB{escaped(it.usage)}\\fR", ".br"]
    put += [".SH DESCRIPTION"] + put_help(top)
    for name, it in helps.items():
        if name:
            put += [f".SH {name.upper()}", escaped(it.about) + ".", ".PP", f"\\fB{escaped(it.usage)}\\fR"] + put_help(it)
    put += [".SH SEE ALSO", f"\\fI{escaped(documents)}\\fR"]
    return "\n".join(put) + "\n"


COMPLETION = """\
# Completes the words of xcpd in bash. Made of what the program prints with --help.
_xcpd() {
  local word=${COMP_WORDS[COMP_CWORD]} before=${COMP_WORDS[COMP_CWORD - 1]} command=${COMP_WORDS[1]} words=() found
  if [ "$word" = = ]; then word=; elif [ "$before" = = ]; then before=${COMP_WORDS[COMP_CWORD - 2]}; fi
  if [ "$COMP_CWORD" -eq 1 ]; then command=; fi
  case "$command $before" in
@VALUES@
  *) case $command in
@WORDS@
    esac ;;
  esac
  COMPREPLY=()
  while IFS= read -r found; do COMPREPLY+=("$found"); done < <(
    if [ "${words[*]}" = FILE ]; then compgen -f -- "$word"; else
      compgen -W "${words[*]}" -- "$word"
    fi
  )
  if [ "${words[*]}" = FILE ]; then compopt -o filenames 2>/dev/null; fi
}
complete -F _xcpd xcpd
"""


def completion_of(helps):
    """The words that bash completes: of a subcommand its options; behind an option whose value is a file the files, behind another none."""
    values, words = [], []
    for name, it in helps.items():
        with_files = [option for option, value in it.options() if value == "FILE"]
        others = [option for option, value in it.options() if value and value != "FILE"]
        for options, kind in ((with_files, "FILE"), (others, "")):
            if options:
                values.append("  " + " | ".join(f'"{name} {option}"' for option in options) + f") words=({kind}) ;;")
        typed = [option for option, _ in it.options()] + [command for command, _ in it.lists.get("Commands", [])]
        pattern = name or '""'
        if it.arguments():
            words.append(f"    {pattern}) if [ \"${{word#-}}\" = \"$word\" ]; then words=(FILE); else words=({' '.join(typed)}); fi ;;")
        else:
            words.append(f"    {pattern}) words=({' '.join(typed)}) ;;")
    commands = " ".join(name for name in helps if name)
    words.append(f"    help) words=({commands}) ;;")
    return COMPLETION.replace("@VALUES@", "\n".join(values)).replace("@WORDS@", "\n".join(words))
