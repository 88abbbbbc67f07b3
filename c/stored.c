/* A controller that keeps its reference pages in a file: a tool stores a page, and the next start begins with it.
 * And each thing that may be wrong with such a file. */
#include "common.h"

static xcp_slave slave = XCP_CLOSED;
static uint8_t file[XCP_STORED_BYTES];
static size_t length;

static void ask(const char *what, const uint8_t *packet, size_t size) {
    xcp_answer answer = XCP_ANSWER_INIT;
    xcp_one_packet one = {0, {0}};
    want(xcp_command(&slave, packet, size, &answer), "a command is taken");
    for (uint8_t i = 0; xcp_packet(&answer, i, &one); i++) show(what, one.bytes, one.length);
}
#define ASK(what, ...) do { static const uint8_t bytes[] = {__VA_ARGS__}; ask(what, bytes, sizeof bytes); } while (0)

/* The file of the slave's pages, of which the program makes its own. */
static void write_pages(const char *path) {
    size_t used = 0;
    memset(file, 0xA5, sizeof file);
    want(xcp_stored_pages(&slave, file, sizeof file, &used) == XCP_OPENED, "the pages are written out");
    want(used < sizeof file && file[used] == 0xA5, "nothing is written behind them");
    FILE *kept = fopen(path, "wb");
    want(kept && fwrite(file, 1, used, kept) == used && fclose(kept) == 0, "the file is written");
}

static void read_pages(const char *path) {
    FILE *kept = fopen(path, "rb");
    want(kept, "the file is there");
    length = fread(file, 1, sizeof file, kept);
    fclose(kept);
}

/* A tool changes the working page of segment 0, and asks for a store. */
static void calibrate(void) {
    ASK("CONNECT", 0xFF, 0x00);
    ASK("SET_CAL_PAGE", 0xEB, 0x02, 0x00, 0x01);
    ASK("SET_MTA", 0xF6, 0, 0, 0, 0, 0, 0x08, 0);
    ASK("DOWNLOAD", 0xF0, 4, 0x22, 0x24, 0x26, 0x28);
    ASK("SET_SEGMENT_MODE", 0xE6, 0x01, 0x00);
    ASK("SET_REQUEST", 0xF9, 0x01, 0x00, 0x00);
}

/* While a store is requested the file has what it will leave, and behind it the same. */
static void store(const char *path) {
    static uint8_t before[sizeof file];
    size_t early = 0, late = 0;
    xcp_answer answer = XCP_ANSWER_INIT;
    want(xcp_stored_pages(&slave, before, sizeof before, &early) == XCP_OPENED, "the pages are written out before the store");
    want(xcp_finish_store(&slave, &answer) && answer.told == XCP_STORED, "a store is taken");
    printf("stored         %d\n", answer.count);
    want(xcp_stored_pages(&slave, file, sizeof file, &late) == XCP_OPENED, "and behind it");
    want(early == late && !memcmp(before, file, late), "the file is the same");
    write_pages(path);
}

/* Opens with the file, one byte of which is another, and `more` bytes longer. */
static void opens(const char *what, size_t at, size_t more, uint8_t wanted) {
    xcp_slave other = XCP_CLOSED;
    file[at] ^= 0x01;
    uint8_t fault = xcp_open_stored(layout, layout_length, file, length + more, &other);
    file[at] ^= 0x01;
    want(fault == wanted && !other.at, what);
    printf("%-14s %d\n", what, fault);
}

static void each_fault(void) {
    static uint8_t text[XCP_TEXT_BYTES + 1];
    xcp_slave other = XCP_CLOSED;
    opens("head", 5, 0, XCP_STORED_HEAD);
    opens("layout", 6, 0, XCP_STORED_LAYOUT);
    opens("size", 38, 0, XCP_STORED_SIZE);
    opens("too long", length, 1, XCP_STORED_SIZE);
    opens("digest", length - 1, 0, XCP_STORED_DIGEST);
    opens("a page", 42, 0, XCP_STORED_DIGEST);
    for (size_t n = 0; n < length; n++) {
        uint8_t fault = xcp_open_stored(layout, layout_length, file, n, &other);
        want(fault == (n < 6 ? XCP_STORED_HEAD : XCP_STORED_SIZE) && !other.at, "a file that is cut short");
    }
    memcpy(text, layout, layout_length);
    text[layout_length] = '\n'; /* the same layout, by another text */
    want(xcp_open_stored(text, layout_length + 1, file, length, &other) == XCP_OPENED, "another text of the same segments");
    xcp_close(&other);
    char *digit = strstr((char *)text, "data = \"E") + 8; /* (the first data are between three quotes) */
    *digit = *digit == '0' ? '1' : '0'; /* another reference byte */
    want(xcp_open_stored(text, layout_length + 1, file, length, &other) == XCP_STORED_LAYOUT && !other.at, "another reference byte");
    want(xcp_open(text, layout_length + 1, &other) == XCP_OPENED, "which opens a slave by itself");
    want(xcp_open_stored(text, layout_length, file, 0, &other) == XCP_IS_OPEN, "an open handle comes first");
    xcp_close(&other);
    text[0] = '[';
    want(xcp_open_stored(text, 1, file, 0, &other) == XCP_NO_DOCUMENT, "the text's fault comes first");
    memset(text, '\n', sizeof text);
    want(xcp_open_stored(text, sizeof text, file, length, &other) == XCP_LONG_TEXT, "a text that is too long");
    want(xcp_open(text, sizeof text, &other) == XCP_LONG_TEXT && xcp_open(text, XCP_TEXT_BYTES, &other) == XCP_MISSING, "and the longest");
    want(!other.at, "nothing is opened");
}

/* With no room for it nothing is written but how much is needed. */
static void no_room(void) {
    static uint8_t out[sizeof file];
    memset(out, 0xA5, sizeof out);
    for (size_t room = 0; room < length; room += length / 2) {
        size_t used = 0;
        want(xcp_stored_pages(&slave, out, room, &used) == XCP_NO_ROOM && used == length, "too little room is told");
    }
    size_t used = 0;
    want(xcp_stored_pages(&slave, out, length - 1, &used) == XCP_NO_ROOM && used == length, "one byte too little is");
    for (size_t i = 0; i < sizeof out; i++) want(out[i] == 0xA5, "nothing is written");
    want(xcp_stored_pages(&slave, out, length, &used) == XCP_OPENED && used == length, "just enough room");
    want(!memcmp(out, file, length), "the file again");
}

int main(int argc, char **argv) {
    read_layout(argc, argv);
    const char *path = argc > 2 ? argv[2] : "pages";
    want(xcp_open(layout, layout_length, &slave) == XCP_OPENED, "xcp_open");
    calibrate();
    store(path);
    xcp_close(&slave);
    read_pages(path);
    want(xcp_open_stored(layout, layout_length, file, length, &slave) == XCP_OPENED, "xcp_open_stored");
    ASK("CONNECT", 0xFF, 0x00);
    ASK("SHORT_UPLOAD", 0xF4, 6, 0, 0, 0, 0, 0x08, 0);
    ASK("SET_CAL_PAGE", 0xEB, 0x02, 0x00, 0x01);
    ASK("SHORT_UPLOAD", 0xF4, 6, 0, 0, 0, 0, 0x08, 0);
    no_room();
    each_fault();
    xcp_close(&slave);
    return 0;
}
