/* A reader's buffer comes back when the reader is closed, and two slaves don't touch one another. */
#include "common.h"

static const uint8_t connects[] = {0xFF, 0}, both_pages[] = {0xEB, 0x83, 0, 1};
static xcp_answer answer;

/* Writes a byte to the first address, so that another image is published. */
static void publish(xcp_slave *slave, uint8_t byte) {
    const uint8_t packet[] = {0xED, 1, 0, 0, 0, 0, 8, 0, byte};
    want(xcp_command(slave, packet, sizeof packet, &answer) && answer.bytes[0] == 0xFF, "a write is done");
}

static uint8_t first_byte(xcp_reader *reader) {
    uint8_t byte = 0;
    xcp_acquire(reader);
    want(xcp_read(reader, 0, &byte, 1), "an image is held");
    return byte;
}

int main(int argc, char **argv) {
    read_layout(argc, argv);
    xcp_slave slave = XCP_CLOSED, other = XCP_CLOSED;
    xcp_reader readers[XCP_READERS], others = XCP_CLOSED;
    want(xcp_open(layout, layout_length, &slave) == 0 && xcp_open(layout, layout_length, &other) == 0, "two slaves");
    want(xcp_command(&slave, connects, 2, &answer) && xcp_command(&slave, both_pages, 4, &answer), "a tool is there");
    want(xcp_command(&other, connects, 2, &answer) && xcp_command(&other, both_pages, 4, &answer), "and another");
    want(xcp_reader_open(&other, &others) == 0, "a reader of the other");
    for (int i = 0; i < XCP_READERS; i++) {
        readers[i].at = NULL;
        want(xcp_reader_open(&slave, readers + i) == 0, "a reader");
        publish(&slave, (uint8_t)(100 + i)); /* so that each holds an image of its own */
        want(first_byte(readers + i) == 100 + i, "the newest image");
    }
    publish(&slave, 99);
    printf("held");
    for (int i = 0; i < XCP_READERS; i++) {
        printf(" %d", xcp_held(&slave));
        uint8_t byte = 0;
        want(xcp_read(readers + i, 0, &byte, 1) && byte == 100 + i, "an image stays while it is held");
        xcp_reader_close(readers + i);
    }
    printf(" %d\n", xcp_held(&slave));
    publish(&other, 1);
    want(first_byte(&others) == 1, "the other slave's image");
    xcp_close(&other);
    want(!xcp_acquire(&others) && first_byte(&others) == 1, "a reader stays when its slave is closed");
    xcp_reader_close(&others);
    xcp_close(&slave);
    return 0;
}
