/* A controller with more parameters than a text has room for: two of its segments have files of their own, and the program hands over their
 * bytes. A tool writes one of these, and it is stored. Signals are handed over in parts. And each thing that may be wrong with such files. */
#include "common.h"

enum { MAP = 70000, OWN = 3, CURVE = 2000, IMAGE = 72008 /* all of them, in words of eight bytes */, MOST = 1048576, STORED = 1048710 };
enum { MAP_AT = 0x10000, CURVE_AT = 0x40000, LAST = MAP + OWN + CURVE - 1 };

static const char text[] =
    "class = 'large'\nid = 'LARGE'\nmax_cto = 64\nmax_dto = 64\n"
    "[[segment]]\naddress = 0x10000\ndata_file = 'map.bin'\n"
    "[[segment]]\naddress = 0x8000\ndata = 'A1A2A3'\n"
    "[[segment]]\naddress = 0x40000\ndata_file = 'curve.bin'\n"
    "[signals]\naddress = 0x9000\nlength = 8\n[[event]]\nname = '10ms'\n";
static const uint8_t own[OWN] = {0xA1, 0xA2, 0xA3};
static const uint32_t sizes[] = {MAP, CURVE};
static uint8_t data[MOST + 1], file[STORED];
static size_t stored;
static xcp_slave slave = XCP_CLOSED;

#define TEXT (const uint8_t *)text, sizeof text - 1
#define FILES data, MAP + CURVE, sizes, 2

static void ask(const char *what, const uint8_t *packet, size_t size) {
    xcp_answer answer = XCP_ANSWER_INIT;
    xcp_one_packet one = {0, {0}};
    want(xcp_command(&slave, packet, size, &answer), "a command is taken");
    for (uint8_t i = 0; xcp_packet(&answer, i, &one); i++) show(what, one.bytes, one.length);
}
#define ASK(what, ...) do { static const uint8_t bytes[] = {__VA_ARGS__}; ask(what, bytes, sizeof bytes); } while (0)

/* The image is what the files and the text have, but for its last byte. */
static void is_image(xcp_reader *reader, uint8_t last) {
    static uint8_t image[IMAGE];
    want(xcp_image_bytes(&slave) == IMAGE, "an image has the segments' bytes, in words");
    xcp_acquire(reader);
    want(xcp_read(reader, 0, image, sizeof image), "it is read");
    want(!memcmp(image, data, MAP) && !memcmp(image + MAP, own, OWN) && !memcmp(image + MAP + OWN, data + MAP, CURVE - 1), "it has the segments, in order");
    want(image[LAST] == last, "and its last byte");
    for (size_t i = LAST + 1; i < IMAGE; i++) want(!image[i], "and then zeros");
    show("the last byte", image + LAST, 1);
}

/* The controller hands signals over by themselves, and others by an event: each is where it belongs, and the others are as they were. */
static void hand_over(void) {
    static const uint8_t first[] = {1, 2, 3}, more[] = {0x0B, 0x0C}, many[256] = {0};
    static xcp_answer answer;
    xcp_slave closed = XCP_CLOSED;
    want(xcp_signals(&slave, 6, more, sizeof more, &answer) && answer.told == XCP_SILENT, "signals at the end");
    want(xcp_signals(&slave, 7, more, sizeof more, &answer) && answer.told == XCP_BAD_SIGNALS, "signals behind the end");
    want(xcp_event(&slave, 0, first, sizeof first, &answer) && answer.told == XCP_SAMPLED, "an event of the first signals");
    want(!xcp_signals(&slave, 0, many, sizeof many, &answer) && !xcp_signals(&closed, 0, more, 1, &answer), "256 bytes, and a handle that is closed");
    ASK("SHORT_UPLOAD", 0xF4, 8, 0, 0, 0x00, 0x90, 0x00, 0x00);
}

/* A tool writes the curve's last byte on the working page, gives it to the controller, and asks for a store. */
static void calibrate(xcp_reader *reader) {
    static xcp_answer answer;
    ASK("CONNECT", 0xFF, 0x00);
    hand_over();
    ASK("SET_CAL_PAGE", 0xEB, 0x83, 0x00, 0x01);
    ASK("SET_MTA", 0xF6, 0, 0, 0, 0xCF, 0x07, 0x04, 0x00);
    ASK("DOWNLOAD", 0xF0, 1, 0x5C);
    is_image(reader, 0x5C);
    ASK("SHORT_UPLOAD", 0xF4, 2, 0, 0, 0xCE, 0x07, 0x04, 0x00);
    ASK("SET_SEGMENT_MODE", 0xE6, 0x01, 0x02);
    ASK("SET_REQUEST", 0xF9, 0x01, 0x00, 0x00);
    want(xcp_finish_store(&slave, &answer) && answer.told == XCP_STORED, "a store is taken");
    want(xcp_stored_pages(&slave, file, sizeof file, &stored) == XCP_OPENED, "the pages are written out");
    printf("stored         %zu bytes\n", stored);
}

/* The next start begins with what was stored: also the reference page has it. */
static void begin_again(void) {
    xcp_reader reader = XCP_CLOSED;
    want(xcp_open_data_stored(TEXT, FILES, file, stored, &slave) == XCP_OPENED, "xcp_open_data_stored");
    want(xcp_reader_open(&slave, &reader) == XCP_OPENED, "a reader");
    is_image(&reader, 0x5C);
    xcp_reader_close(&reader);
    want(xcp_open_data(TEXT, FILES, &slave) == XCP_IS_OPEN && xcp_open_data_stored(TEXT, FILES, file, 0, &slave) == XCP_IS_OPEN, "an open handle comes first");
    xcp_close(&slave);
}

static void refused(const char *what, const void *text_of, size_t length, size_t data_length, const uint32_t *of, size_t files, uint8_t wanted) {
    uint8_t fault = xcp_open_data((const uint8_t *)text_of, length, data, data_length, of, files, &slave);
    want(fault == wanted && !slave.at, what);
    want(xcp_open_data_stored((const uint8_t *)text_of, length, data, data_length, of, files, file, stored, &slave) == wanted && !slave.at, what);
    printf("%-14s %d\n", what, fault);
}
#define REFUSED(what, length, wanted, ...) do { static const uint32_t of[] = {__VA_ARGS__}; refused(what, text, sizeof text - 1, length, of, sizeof of / sizeof *of, wanted); } while (0)

static void each_fault(void) {
    static uint8_t many[XCP_TEXT_BYTES + 1];
    static const uint32_t one = 0;
    REFUSED("a byte more", MAP + CURVE + 1, XCP_OTHER_BYTES, MAP, CURVE);
    REFUSED("a byte less", MAP + CURVE - 1, XCP_OTHER_BYTES, MAP, CURVE);
    REFUSED("4 GiB", MAP + CURVE, XCP_OTHER_BYTES, UINT32_MAX, UINT32_MAX);
    REFUSED("three sizes", MAP + CURVE, XCP_OTHER_BYTES, MAP, CURVE, 0);
    REFUSED("one file", MAP, XCP_MISSING, MAP);
    refused("no file", text, sizeof text - 1, 0, &one, 0, XCP_MISSING);
    REFUSED("an empty file", MAP, XCP_OUT_OF_RANGE, MAP, 0);
    REFUSED("too many bytes", MOST + 1, XCP_TOO_MANY, MOST - OWN, OWN + 1);
    refused("no document", "[", 1, 0, &one, 0, XCP_NO_DOCUMENT);
    refused("with a size", "[", 1, 0, &one, 1, XCP_OTHER_BYTES);
    refused("no UTF-8", "\xFF", 1, 0, &one, 1, XCP_NO_UTF8);
    refused("a long text", many, sizeof many, 0, &one, 1, XCP_LONG_TEXT);
    want(xcp_open(TEXT, &slave) == XCP_MISSING && !slave.at, "a text alone has no files");
}

static void opens_stored(const char *what, size_t length, uint8_t wanted) {
    uint8_t fault = xcp_open_data_stored(TEXT, FILES, file, length, &slave);
    want(fault == wanted && !slave.at, what);
    printf("%-14s %d\n", what, fault);
}

static void each_fault_of_pages(void) {
    data[0] ^= 1;
    opens_stored("another map", stored, XCP_STORED_LAYOUT);
    data[0] ^= 1;
    opens_stored("cut short", stored - 1, XCP_STORED_SIZE);
    file[stored - 1] ^= 1;
    opens_stored("altered", stored, XCP_STORED_DIGEST);
    file[0] ^= 1;
    opens_stored("another file", stored, XCP_STORED_HEAD);
}

/* Each file has the bytes that its size says, and a text that names none is opened as by itself. */
static void each_size(void) {
    static const uint32_t other[] = {CURVE, MAP};
    static const uint32_t none = 0;
    xcp_reader reader = XCP_CLOSED;
    uint8_t seen[2];
    want(xcp_open_data(TEXT, data, MAP + CURVE, other, 2, &slave) == XCP_OPENED, "other sizes");
    want(xcp_reader_open(&slave, &reader) == XCP_OPENED, "a reader");
    xcp_acquire(&reader);
    want(xcp_read(&reader, CURVE - 1, seen, 2) && seen[0] == data[CURVE - 1] && seen[1] == own[0], "the first has fewer");
    want(xcp_read(&reader, CURVE + OWN, seen, 2) && !memcmp(seen, data + CURVE, 2), "and the second begins behind it");
    xcp_reader_close(&reader), xcp_close(&slave);
    want(xcp_open_data(layout, layout_length, data, 0, &none, 0, &slave) == XCP_OPENED && xcp_image_bytes(&slave) == XCP_IMAGE_BYTES, "a text that names none");
    xcp_close(&slave);
    want(xcp_open_data(layout, layout_length, data, 0, &none, 1, &slave) == XCP_OTHER_BYTES && !slave.at, "and has no size");
}

int main(int argc, char **argv) {
    xcp_reader reader = XCP_CLOSED;
    read_layout(argc, argv);
    for (size_t i = 0; i < sizeof data; i++) data[i] = (uint8_t)(i * 2654435761u >> 24);
    want(xcp_open_data(TEXT, FILES, &slave) == XCP_OPENED, "xcp_open_data");
    want(xcp_reader_open(&slave, &reader) == XCP_OPENED, "a reader");
    is_image(&reader, data[MAP + CURVE - 1]);
    calibrate(&reader);
    xcp_reader_close(&reader), xcp_close(&slave);
    begin_again();
    each_fault();
    each_fault_of_pages();
    each_size();
    return 0;
}
