"""A program and a library that stand in for the proved ones, so that the package and its check can be tried in seconds where nothing is
built. The program prints the help and the version that crates/test_books/data/words.book has, the stored A2L file of the engine example
and the stored answers of a replay. The library answers one CONNECT. Neither is a slave.
"""
import os
import re
import subprocess

ROOT = os.path.dirname(os.path.dirname(os.path.realpath(__file__)))
LIBRARY = """\
#include "billhookyew.h"
static char is_open;
uint8_t xcp_open(const uint8_t *text, size_t length, xcp_slave *slave) {
    if (!text || !length) return XCP_MISSING;
    slave->at = &is_open;
    return XCP_OPENED;
}
void xcp_close(xcp_slave *slave) { slave->at = 0; }
bool xcp_command(xcp_slave *slave, const uint8_t *packet, size_t length, xcp_answer *answer) {
    static const uint8_t bytes[] = {0xFF, 0x05, 0xC0, 0x40, 0x80, 0x00, 0x01, 0x01};
    if (!slave->at || length != 2 || packet[0] != 0xFF) return false;
    answer->told = XCP_PACKETS, answer->count = 1, answer->length = sizeof bytes;
    for (unsigned i = 0; i < sizeof bytes; i++) answer->bytes[i] = bytes[i];
    return true;
}
bool xcp_packet(const xcp_answer *answer, uint8_t index, xcp_one_packet *packet) {
    if (index >= answer->count) return false;
    packet->length = answer->length;
    for (unsigned i = 0; i < answer->length; i++) packet->bytes[i] = answer->bytes[i];
    return true;
}
"""
PROGRAM = """\
#include <stdio.h>
#include <string.h>
static const struct { const char *words, *told; } rows[] = {
%s};
int main(int argc, char **argv) {
    char words[512] = "";
    for (int i = 1; i < argc; i++) {
        if (i > 1 && !strcmp(argv[i - 1], "--config")) continue;
        strncat(words, " ", sizeof words - strlen(words) - 1);
        strncat(words, argv[i], sizeof words - strlen(words) - 1);
    }
    for (unsigned i = 0; i < sizeof rows / sizeof *rows; i++)
        if (!strcmp(words, rows[i].words)) return fputs(rows[i].told, stdout) < 0;
    return 1;
}
"""


def read(path):
    with open(os.path.join(ROOT, path), encoding="utf-8") as file:
        return file.read()


def rows():
    """What the stand-in prints to which words."""
    book = read("crates/test_books/data/words.book")
    found = {}
    for words, lines in re.findall(r"^xcpd((?: \w+)? --help) >\n((?:\|.*\n)+)", book, re.M):
        text = re.sub(r"^\| ?", "", lines, flags=re.M)
        found[words] = text.removeprefix("0 ")
    found[" --version"] = re.search(r"^xcpd --version > 0 (.*\n)", book, re.M)[1]
    found[" describe --config"] = read("examples/engine/engine.a2l")
    found[" replay --config"] = read("crates/xcpd/stdout")
    return found


def quoted(text):
    """A text as C has it, a line to each of its own."""
    lines = [line.replace("\\", "\\\\").replace('"', '\\"') + "\\n" for line in text.splitlines()]
    return "\n        ".join(f'"{line}"' for line in lines)


def make(folder):
    """Makes both in a folder, and returns their paths."""
    os.makedirs(folder, exist_ok=True)
    table = "".join(f'    {{"{words}",\n        {quoted(told)}}},\n' for words, told in rows().items())
    for name, text in (("xcpd.c", PROGRAM % table), ("library.c", LIBRARY)):
        with open(f"{folder}/{name}", "w", encoding="utf-8") as file:
            file.write(text)
    compiler = os.environ.get("CC", "cc")
    flags = ["-O2", "-fPIE"]
    for words in (
        [compiler, *flags, "-pie", "-Wl,-z,relro,-z,now", "xcpd.c", "-o", "xcpd"],
        [compiler, *flags, f"-I{ROOT}/c", "-c", "library.c"],
        ["ar", "rcs", "libbillhookyew.a", "library.o"],
    ):
        subprocess.run(words, cwd=folder, check=True)
    return f"{folder}/xcpd", f"{folder}/libbillhookyew.a"
