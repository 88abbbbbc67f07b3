/* Each call, on handles that were never opened, and on handles that were closed. */
#include "parts.h"

static xcp_slave slave = XCP_CLOSED;
static xcp_reader reader = XCP_CLOSED;
static xcp_framer framer = XCP_CLOSED;
static uint8_t bytes[16];

static void each_is_refused(void) {
    xcp_answer answer = {9, 8, 7, 6, {5}};
    xcp_fed fed = {1, 2, 3, 4, {5}};
    uint8_t out[4] = {1, 2, 3, 4};
    uint64_t number = 9;
    want(!xcp_command(&slave, bytes, 2, &answer), "xcp_command");
    want(!xcp_event(&slave, 0, bytes, 16, &answer), "xcp_event");
    want(!xcp_drain(&slave, &answer), "xcp_drain");
    want(!xcp_finish_store(&slave, &answer), "xcp_finish_store");
    size_t used = 9;
    want(xcp_stored_pages(&slave, out, 4, &used) == XCP_SLAVE_CLOSED && out[0] == 1 && used == 9, "xcp_stored_pages");
    want(!xcp_time(&slave, 1, &answer), "xcp_time");
    want(!xcp_hangup(&slave, &answer), "xcp_hangup");
    want(!xcp_time(&slave, 5, &answer), "xcp_time");
    want(xcp_max_cto(&slave) == 0 && xcp_pending(&slave) == 0 && xcp_held(&slave) == 0 && xcp_image_bytes(&slave) == 0, "what is asked");
    want(xcp_reader_open(&slave, &reader) == XCP_SLAVE_CLOSED, "xcp_reader_open");
    want(!xcp_acquire(&reader), "xcp_acquire");
    want(!xcp_read(&reader, 0, out, 4) && out[0] == 1 && out[3] == 4, "xcp_read");
    want(!xcp_number(&reader, &number) && number == 9, "xcp_number");
    want(!xcp_feed(&framer, bytes, 16, &fed) && fed.used == 1 && fed.bytes[0] == 5, "xcp_feed");
    xcp_close(&slave);
    xcp_reader_close(&reader);
    xcp_framer_close(&framer);
    want(!slave.at && !reader.at && !framer.at, "no handle owns anything");
}

int main(int argc, char **argv) {
    read_layout(argc, argv);
    each_is_refused();
    for (int i = 0; i < 3; i++) {
        want(xcp_open(layout, layout_length, &slave) == XCP_OPENED, "xcp_open");
        want(xcp_reader_open(&slave, &reader) == XCP_OPENED, "xcp_reader_open");
        want(xcp_framer_open(xcp_max_cto(&slave), &framer) == XCP_OPENED, "xcp_framer_open");
        /* What is open isn't opened again. */
        want(xcp_open(layout, layout_length, &slave) == XCP_IS_OPEN, "xcp_open again");
        want(xcp_open_stored(layout, layout_length, layout, 0, &slave) == XCP_IS_OPEN, "xcp_open_stored again");
        want(xcp_open_parts(&engine_parts, ENGINE_PAGES, &slave) == XCP_IS_OPEN, "xcp_open_parts again");
        want(xcp_open_parts_stored(&engine_parts, ENGINE_PAGES, layout, 0, &slave) == XCP_IS_OPEN, "xcp_open_parts_stored again");
        want(xcp_reader_open(&slave, &reader) == XCP_IS_OPEN, "xcp_reader_open again");
        want(xcp_framer_open(64, &framer) == XCP_IS_OPEN, "xcp_framer_open again");
        xcp_reader_close(&reader);
        xcp_framer_close(&framer);
        xcp_close(&slave);
        each_is_refused();
    }
    /* Too long, past the end, and nothing held. */
    xcp_answer answer = XCP_ANSWER_INIT;
    xcp_one_frame frame = {0, {0}};
    xcp_one_packet one = {0, {0}};
    uint8_t out[4];
    uint64_t number;
    want(xcp_open(layout, layout_length, &slave) == XCP_OPENED, "xcp_open");
    xcp_reader readers[XCP_READERS];
    for (int i = 0; i < XCP_READERS; i++) {
        readers[i].at = NULL;
        want(xcp_reader_open(&slave, readers + i) == XCP_OPENED, "six readers");
    }
    want(xcp_reader_open(&slave, &reader) == XCP_NO_READER, "no seventh reader");
    want(!xcp_command(&slave, layout, 256, &answer), "a packet of 256 bytes");
    want(!xcp_event(&slave, 0, layout, 65, &answer), "65 signals");
    want(!xcp_frame(0, layout, 256, &frame), "a frame of 256 bytes");
    want(!xcp_read(readers, 0, out, 4) && !xcp_number(readers, &number), "nothing is held yet");
    want(xcp_acquire(readers) && !xcp_read(readers, 2037, out, 4) && xcp_read(readers, 2036, out, 4), "the end of an image");
    want(!xcp_read(readers, SIZE_MAX, out, 4) && !xcp_read(readers, 4, layout, 2037), "past the end of an image");
    answer.told = XCP_PACKETS;
    answer.width = 3; /* no slave tells that */
    want(!xcp_packet(&answer, 0, &one), "a width that no slave tells");
    for (int i = 0; i < XCP_READERS; i++) xcp_reader_close(readers + i);
    want(xcp_reader_open(&slave, &reader) == XCP_NO_READER, "a closed reader doesn't come back");
    xcp_close(&slave);
    static const uint8_t no_layout[] = "[[", no_text[] = {0xFF};
    want(xcp_open(no_layout, 2, &slave) == XCP_NO_DOCUMENT && !slave.at, "no document");
    want(xcp_open(no_text, 1, &slave) == XCP_NO_UTF8 && !slave.at, "no UTF-8");
    want(xcp_open(layout, 0, &slave) == XCP_MISSING && !slave.at, "no keys");
    printf("each call refuses what isn't open\n");
    return 0;
}
