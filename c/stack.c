/* Bytes of stack that each call takes. */
#include "parts.h"

static xcp_slave slave = XCP_CLOSED, other = XCP_CLOSED;
static xcp_reader reader = XCP_CLOSED;
static xcp_framer framer = XCP_CLOSED;
static xcp_answer answer;
static xcp_one_packet one;
static xcp_one_frame frame;
static xcp_fed fed;
static uint64_t number;
static uint8_t image[XCP_IMAGE_BYTES], stored[XCP_STORED_BYTES];
static size_t stored_length;
static const uint8_t connects[] = {0xFF, 0}, pages[] = {0xEB, 0x83, 0, 1}, put[] = {0xED, 4, 0, 0, 0, 0, 8, 0, 9, 9, 9, 9},
                     mta[] = {0xF6, 0, 0, 0, 0, 0, 8, 0}, block[] = {0xF5, 80}, signals[24] = {0};

#define CALL(name, ...) static void *name(void *unused) { __VA_ARGS__; return unused; }
CALL(nothing, (void)0)
CALL(opens, xcp_open(layout, layout_length, &slave))
CALL(reader_opens, xcp_reader_open(&slave, &reader))
CALL(framer_opens, xcp_framer_open(64, &framer))
CALL(connect_it, xcp_command(&slave, connects, sizeof connects, &answer))
CALL(switches, xcp_command(&slave, pages, sizeof pages, &answer))
CALL(writes, xcp_command(&slave, put, sizeof put, &answer))
CALL(sets, xcp_command(&slave, mta, sizeof mta, &answer))
CALL(uploads, xcp_command(&slave, block, sizeof block, &answer))
CALL(packs, xcp_packet(&answer, 1, &one))
CALL(fires, xcp_event(&slave, 0, signals, sizeof signals, &answer))
CALL(drains, xcp_drain(&slave, &answer))
CALL(keeps, xcp_stored_pages(&slave, stored, sizeof stored, &stored_length))
CALL(opens_stored, xcp_open_stored(layout, layout_length, stored, stored_length, &other))
CALL(closes_other, xcp_close(&other))
CALL(opens_parts, xcp_open_parts(&engine_parts, ENGINE_PAGES, &other))
CALL(keeps_other, xcp_stored_pages(&other, stored, sizeof stored, &stored_length))
CALL(opens_parts_stored, xcp_open_parts_stored(&engine_parts, ENGINE_PAGES, stored, stored_length, &other))
CALL(acquires, xcp_acquire(&reader))
CALL(reads, xcp_read(&reader, 0, image, sizeof image))
CALL(numbers, xcp_number(&reader, &number))
CALL(frames, xcp_frame(1, connects, sizeof connects, &frame))
CALL(feeds, xcp_feed(&framer, frame.bytes, frame.length, &fed))
CALL(reader_closes, xcp_reader_close(&reader))
CALL(closes, xcp_close(&slave))

static long used(void *(*body)(void *)) {
    size_t size = 1 << 20, untouched = 0;
    void *room = NULL;
    want(posix_memalign(&room, 4096, size) == 0, "room for a stack");
    uint8_t *stack = (uint8_t *)room;
    memset(stack, 0xA5, size);
    pthread_attr_t attributes;
    pthread_t thread;
    pthread_attr_init(&attributes);
    pthread_attr_setstack(&attributes, stack, size);
    want(pthread_create(&thread, &attributes, body, NULL) == 0, "a thread can be had");
    pthread_join(thread, NULL);
    while (untouched < size && stack[untouched] == 0xA5) untouched++;
    free(room);
    return (long)(size - untouched);
}

int main(int argc, char **argv) {
    read_layout(argc, argv);
    static const struct { const char *name; void *(*body)(void *); } calls[] = {
        {"xcp_open", opens}, {"xcp_reader_open", reader_opens}, {"xcp_framer_open", framer_opens}, {"CONNECT", connect_it},
        {"SET_CAL_PAGE", switches}, {"SHORT_DOWNLOAD", writes}, {"SET_MTA", sets}, {"UPLOAD, a block", uploads}, {"xcp_packet", packs},
        {"xcp_event", fires}, {"xcp_drain", drains}, {"xcp_stored_pages", keeps}, {"xcp_open_stored", opens_stored}, {"xcp_close", closes_other},
        {"xcp_open_parts", opens_parts}, {"xcp_stored_pages", keeps_other}, {"xcp_close", closes_other}, {"xcp_open_parts_stored", opens_parts_stored}, {"xcp_close", closes_other},
        {"xcp_acquire", acquires}, {"xcp_read, an image", reads}, {"xcp_number", numbers},
        {"xcp_frame", frames}, {"xcp_feed", feeds}, {"xcp_reader_close", reader_closes}, {"xcp_close", closes}};
    used(nothing);
    long base = used(nothing);
    for (size_t i = 0; i < sizeof calls / sizeof *calls; i++) printf("%-21s %7ld bytes\n", calls[i].name, used(calls[i].body) - base);
    return 0;
}
