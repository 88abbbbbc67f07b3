/* A controller that has its layout in constant data, without a text: it answers as one that is opened by the text, and keeps its
 * stored pages. And each fault of such a layout. */
#include "parts.h"

/* A small slave of all that a layout may say. */
static const uint8_t other_pages[] = {1, 2, 3};
static const xcp_parts other_parts = {
    .id = "T",
    .a2l = "other",
    .max_cto = 8,
    .max_dto = 9,
    .checksum = XCP_ADD_44,
    .motorola = true,
    .upload_a2l = true,
    .overload_event = true,
    .clock_size = 2,
    .clock_unit = 6,
    .clock_ticks = 500,
    .signals_address = 16,
    .signals_bytes = 1,
    .segments = 1,
    .channels = 1,
    .segment = {{0, sizeof other_pages, 4}},
    .channel = {{"e", 1, 2, 3}},
};
static const char other_text[] =
    "id = 'T'\nmax_cto = 8\nmax_dto = 9\nbyte_order = 'motorola'\nchecksum = 'ADD_44'\na2l = 'other'\nupload_a2l = true\n"
    "overload = 'event'\n[clock]\nsize = 2\nunit = 6\nticks = 500\n[[segment]]\naddress = 0\ndata = '010203'\npages = 4\n"
    "[signals]\naddress = 16\nlength = 1\n[[event]]\nname = 'e'\ncycle = 1\nunit = 2\npriority = 3\n";

static uint32_t seed = 1;
static uint32_t any(uint32_t below) { return ((seed = seed * 1664525u + 1013904223u) >> 8) % below; }

static void same(bool did, bool other_did, const xcp_answer *answer, const xcp_answer *other) {
    want(did && other_did, "a call is taken");
    want(answer->told == other->told && answer->count == other->count && answer->width == other->width && answer->length == other->length &&
             !memcmp(answer->bytes, other->bytes, answer->length),
         "the same is answered");
}

/* One call to both: what it is, and what it is called with, is drawn. Of commands, three in four begin with a code that tools send. */
static void call_both(xcp_slave *slave, xcp_slave *other, size_t signals) {
    static const uint8_t codes[] = {0xFF, 0xFD, 0xFB, 0xFA, 0xF6, 0xF5, 0xF4, 0xF3, 0xF2, 0xF0, 0xEF, 0xEE, 0xED, 0xEC, 0xEB, 0xEA, 0xE9, 0xE8, 0xE7,
                                    0xE6, 0xE5, 0xE4, 0xE3, 0xE2, 0xE1, 0xE0, 0xDF, 0xDE, 0xDD, 0xDC, 0xDB, 0xDA, 0xD9, 0xD8, 0xD7, 0xD6, 0xD5, 0xD4,
                                    0xD3, 0xF9, 0xC0, 0xC7};
    xcp_answer answer = XCP_ANSWER_INIT, also = XCP_ANSWER_INIT;
    uint8_t bytes[64];
    size_t length = 1 + any(12);
    for (size_t i = 0; i < sizeof bytes; i++) bytes[i] = any(2) ? (uint8_t)any(5) : (uint8_t)any(256);
    switch (any(16)) {
    case 0: same(xcp_event(slave, bytes[0], bytes + 1, signals, &answer), xcp_event(other, bytes[0], bytes + 1, signals, &also), &answer, &also); break;
    case 1: same(xcp_drain(slave, &answer), xcp_drain(other, &also), &answer, &also); break;
    case 2: same(xcp_finish_store(slave, &answer), xcp_finish_store(other, &also), &answer, &also); break;
    case 3: same(xcp_time(slave, bytes[0] * 1000u, &answer), xcp_time(other, bytes[0] * 1000u, &also), &answer, &also); break;
    default:
        if (any(4)) bytes[0] = codes[any(sizeof codes)];
        if (bytes[0] == 0xF6) memcpy(bytes, "\xF6\0\0\0\0\0\x08", 7), length = 8;
        same(xcp_command(slave, bytes, length, &answer), xcp_command(other, bytes, length, &also), &answer, &also);
    }
}

/* Both answer so many calls alike, and show their controllers the same images. */
static void agree(const char *what, const uint8_t *text, size_t length, const xcp_parts *parts, const uint8_t *pages, size_t bytes, long calls) {
    xcp_slave slave = XCP_CLOSED, other = XCP_CLOSED;
    xcp_reader reader = XCP_CLOSED, also = XCP_CLOSED;
    uint8_t image[XCP_IMAGE_BYTES], seen[XCP_IMAGE_BYTES];
    want(xcp_open(text, length, &slave) == XCP_OPENED && xcp_open_parts(parts, pages, bytes, &other) == XCP_OPENED, "both are opened");
    want(xcp_reader_open(&slave, &reader) == XCP_OPENED && xcp_reader_open(&other, &also) == XCP_OPENED, "each has a reader");
    for (long i = 0; i < calls; i++) {
        call_both(&slave, &other, parts->signals_bytes);
        want(xcp_acquire(&reader) == xcp_acquire(&also), "the same is newer");
        want(xcp_read(&reader, 0, image, sizeof image) && xcp_read(&also, 0, seen, sizeof seen) && !memcmp(image, seen, sizeof image), "the images are the same");
    }
    printf("%-14s each call is answered as by the text\n", what);
    xcp_reader_close(&reader), xcp_reader_close(&also), xcp_close(&slave), xcp_close(&other);
}

/* Opens with one value changed, which is told so. */
static void refused(const char *what, const xcp_parts *parts, const uint8_t *pages, size_t bytes, uint8_t wanted) {
    xcp_slave slave = XCP_CLOSED;
    uint8_t fault = xcp_open_parts(parts, pages, bytes, &slave);
    want(fault == wanted && !slave.at, what);
    printf("%-14s %d\n", what, fault);
}
#define REFUSED(what, wanted, ...) do { xcp_parts p = engine_parts; __VA_ARGS__; refused(what, &p, ENGINE_PAGES, wanted); } while (0)

static void each_fault(void) {
    static uint8_t many[4096];
    xcp_parts p = engine_parts;
    refused("a byte more", &engine_parts, many, sizeof engine_pages + 1, XCP_OTHER_BYTES);
    refused("a byte less", &engine_parts, many, sizeof engine_pages - 1, XCP_OTHER_BYTES);
    p.segments = 5, refused("5 segments", &p, many, 0, XCP_TOO_MANY);
    p = engine_parts, p.segments = 0, refused("no segment", &p, many, 0, XCP_OUT_OF_RANGE);
    p = engine_parts, p.segment[0].bytes = 2041 - 28, refused("2,041 bytes", &p, many, 2041, XCP_TOO_MANY);
    p = engine_parts, p.segment[1].bytes = UINT32_MAX, refused("4 GiB", &p, many, sizeof many, XCP_OTHER_BYTES);
    REFUSED("9 channels", XCP_TOO_MANY, p.channels = 9);
    REFUSED("no channel", XCP_OUT_OF_RANGE, p.channels = 0);
    REFUSED("no id", XCP_OUT_OF_RANGE, p.id[0] = 0);
    REFUSED("id without 0", XCP_OUT_OF_RANGE, memset(p.id, 'x', sizeof p.id));
    REFUSED("a2l of a tab", XCP_OUT_OF_RANGE, p.a2l[0] = '\t');
    REFUSED("MAX_CTO 7", XCP_OUT_OF_RANGE, p.max_cto = 7);
    REFUSED("MAX_DTO 7", XCP_OUT_OF_RANGE, p.max_dto = 7);
    REFUSED("checksum 7", XCP_OUT_OF_RANGE, p.checksum = 7);
    REFUSED("stamp of 3", XCP_OUT_OF_RANGE, p.clock_size = 3);
    REFUSED("unit 13", XCP_OUT_OF_RANGE, p.clock_size = 4, p.clock_unit = 13);
    REFUSED("pages 1", XCP_OUT_OF_RANGE, p.segment[1].pages = 1);
    REFUSED("pages 5", XCP_OUT_OF_RANGE, p.segment[1].pages = 5);
    REFUSED("address", XCP_OUT_OF_RANGE, p.segment[3].address = UINT32_MAX);
    REFUSED("last address", XCP_OUT_OF_RANGE, p.segment[3].address = UINT32_MAX - 3);
    REFUSED("no signal", XCP_OUT_OF_RANGE, p.signals_bytes = 0);
    REFUSED("65 signals", XCP_OUT_OF_RANGE, p.signals_bytes = 65);
    REFUSED("no name", XCP_OUT_OF_RANGE, p.channel[2].name[0] = 0);
    REFUSED("name without 0", XCP_OUT_OF_RANGE, memset(p.channel[2].name, 'x', sizeof p.channel[2].name));
    REFUSED("overlap", XCP_OVERLAP, p.segment[1].address = p.segment[0].address + p.segment[0].bytes - 1);
    REFUSED("and signals", XCP_OVERLAP, p.signals_address = p.segment[3].address);
}

/* A tool stores a page, and the next start begins with it, also where the identification is a new one. */
static void keep(void) {
    static uint8_t file[XCP_STORED_BYTES];
    static const uint8_t calls[][8] = {{0xFF, 0}, {0xEB, 2, 0, 1}, {0xF6, 0, 0, 0, 0, 0, 8, 0}, {0xF0, 2, 0x22, 0x24}, {0xE6, 1, 0}, {0xF9, 1, 0, 0}};
    static const size_t lengths[] = {2, 4, 8, 4, 3, 4};
    static const uint8_t reads[] = {0xF4, 4, 0, 0, 0, 0, 8, 0};
    xcp_slave slave = XCP_CLOSED, next = XCP_CLOSED;
    xcp_answer answer = XCP_ANSWER_INIT;
    xcp_parts renewed = engine_parts;
    uint8_t pages[sizeof engine_pages];
    size_t used = 0;
    want(xcp_open_parts(&engine_parts, ENGINE_PAGES, &slave) == XCP_OPENED, "it is opened");
    for (size_t i = 0; i < sizeof lengths / sizeof *lengths; i++) {
        want(xcp_command(&slave, calls[i], lengths[i], &answer) && answer.bytes[0] == 0xFF, "a command is done");
    }
    want(xcp_finish_store(&slave, &answer) && answer.told == XCP_STORED, "a store is taken");
    want(xcp_stored_pages(&slave, file, sizeof file, &used) == XCP_OPENED, "the pages are written out");
    want(xcp_open_parts_stored(&engine_parts, ENGINE_PAGES, file, used, &slave) == XCP_IS_OPEN, "what is open isn't opened again");
    renewed.id[12] = '9';
    want(xcp_open_parts_stored(&renewed, ENGINE_PAGES, file, used, &next) == XCP_OPENED, "the next start begins with them");
    want(xcp_command(&next, calls[0], 2, &answer) && xcp_command(&next, reads, sizeof reads, &answer), "a tool reads");
    show("stored", answer.bytes, answer.length);
    xcp_close(&slave), xcp_close(&next);
    memcpy(pages, &engine_pages, sizeof pages);
    pages[0] ^= 1;
    want(xcp_open_parts_stored(&engine_parts, pages, sizeof pages, file, used, &next) == XCP_STORED_LAYOUT, "other reference pages");
    renewed = engine_parts, renewed.segment[3].address++;
    want(xcp_open_parts_stored(&renewed, ENGINE_PAGES, file, used, &next) == XCP_STORED_LAYOUT, "another address");
    renewed = engine_parts, renewed.segment[1].bytes--, renewed.segment[2].bytes++;
    want(xcp_open_parts_stored(&renewed, ENGINE_PAGES, file, used, &next) == XCP_STORED_LAYOUT, "other lengths");
    want(xcp_open_stored(layout, layout_length, file, used, &next) == XCP_OPENED, "a text of the same segments takes it, too");
    xcp_close(&next);
    want(xcp_open_parts_stored(&engine_parts, ENGINE_PAGES, file, used - 1, &next) == XCP_STORED_SIZE, "a file that is cut short");
    file[used - 1] ^= 1;
    want(xcp_open_parts_stored(&engine_parts, ENGINE_PAGES, file, used, &next) == XCP_STORED_DIGEST, "a file that was altered");
    file[0] ^= 1;
    want(xcp_open_parts_stored(&engine_parts, ENGINE_PAGES, file, used, &next) == XCP_STORED_HEAD, "another file");
    renewed = engine_parts, renewed.max_cto = 0;
    want(xcp_open_parts_stored(&renewed, ENGINE_PAGES, file, used, &next) == XCP_OUT_OF_RANGE && !next.at, "the parts' fault comes first");
    printf("each file of other pages is refused\n");
}

int main(int argc, char **argv) {
    read_layout(argc, argv);
    long calls = argc > 2 ? atol(argv[2]) : 200000;
    agree("engine", layout, layout_length, &engine_parts, ENGINE_PAGES, calls);
    agree("other", (const uint8_t *)other_text, sizeof other_text - 1, &other_parts, other_pages, sizeof other_pages, calls);
    each_fault();
    keep();
    return 0;
}
