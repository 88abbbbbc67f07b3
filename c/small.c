/* A controller without files: its layout is constant data. A tool changes a page, and a task reads it. */
#include "parts.h"

static xcp_slave slave = XCP_CLOSED;
static xcp_reader reader = XCP_CLOSED;

static void command(const char *what, const uint8_t *packet, size_t length) {
    xcp_answer answer = XCP_ANSWER_INIT;
    xcp_one_packet one = {0, {0}};
    want(xcp_command(&slave, packet, length, &answer) && xcp_packet(&answer, 0, &one), "a command is answered");
    show(what, one.bytes, one.length);
}
#define COMMAND(what, ...) do { static const uint8_t bytes[] = {__VA_ARGS__}; command(what, bytes, sizeof bytes); } while (0)

static void task(void) {
    uint8_t now[4];
    xcp_acquire(&reader);
    want(xcp_read(&reader, 0, now, sizeof now), "an image is read");
    show("  task reads", now, sizeof now);
}

int main(void) {
    want(xcp_open_parts(&engine_parts, ENGINE_PAGES, &slave) == XCP_OPENED, "a slave is opened");
    want(xcp_reader_open(&slave, &reader) == XCP_OPENED, "a reader can be had");
    task();
    COMMAND("CONNECT", 0xFF, 0x00);
    COMMAND("SET_CAL_PAGE", 0xEB, 0x03, 0x00, 0x01);
    COMMAND("SET_MTA", 0xF6, 0, 0, 0, 0, 0, 0x08, 0);
    COMMAND("DOWNLOAD", 0xF0, 4, 0x22, 0x24, 0x26, 0x28);
    task();
    xcp_reader_close(&reader);
    xcp_close(&slave);
    return 0;
}
