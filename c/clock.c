/* A controller that tells the time: it does so before each event, whose data packets have it as their time stamp, and before
 * GET_DAQ_CLOCK, which reads it. The table `clock` stands before the other keys of the layout: four bytes, in microseconds. */
#include "common.h"
#include <time.h>

static const char clock_table[] = "clock = { size = 4, unit = 3, ticks = 1 }\n";
static uint8_t text[sizeof clock_table + sizeof layout];
static xcp_slave slave = XCP_CLOSED;
static xcp_answer answer;
static xcp_one_packet one;

static void opened(void) {
    size_t head = sizeof clock_table - 1;
    memcpy(text, clock_table, head);
    memcpy(text + head, layout, layout_length);
    want(xcp_open(text, head + layout_length, &slave) == XCP_OPENED, "a slave can be had");
}

/* A command that is answered by one packet. */
static void ask(const uint8_t *packet, size_t length) {
    want(xcp_command(&slave, packet, length, &answer) && answer.told == XCP_PACKETS, "a command is answered");
    want(xcp_packet(&answer, 0, &one) && answer.count == 1, "by one packet");
}
#define ASK(...) do { static const uint8_t bytes[] = {__VA_ARGS__}; ask(bytes, sizeof bytes); } while (0)
#define SHOW(what, ...) do { ASK(__VA_ARGS__); show(what, one.bytes, one.length); } while (0)
#define DONE(...) do { ASK(__VA_ARGS__); want(one.length && one.bytes[0] == 0xFF, #__VA_ARGS__); } while (0)

static void tell(uint64_t ticks) {
    want(xcp_time(&slave, ticks, &answer) && answer.told == XCP_SILENT, "a time is taken");
}

/* An event, and the one data packet that it makes. */
static void sample(uint8_t first) {
    uint8_t signals[24] = {first};
    want(xcp_event(&slave, 0, signals, sizeof signals, &answer), "an event is taken");
    want(answer.told == XCP_SAMPLED && answer.count == 1, "an event makes a packet");
    want(xcp_drain(&slave, &answer) && answer.told == XCP_PACKETS && xcp_packet(&answer, 0, &one), "the packet is taken");
}

/* A list on channel 0 that samples a byte of the signals, with time stamps. */
static void list_runs(void) {
    DONE(0xD6);
    DONE(0xD5, 0, 1, 0);
    DONE(0xD4, 0, 0, 0, 1);
    DONE(0xD3, 0, 0, 0, 0, 1);
    DONE(0xE2, 0, 0, 0, 0, 0);
    DONE(0xE1, 0xFF, 1, 0, 0, 0, 0, 0x20);
    DONE(0xE0, 0x10, 0, 0, 0, 0, 1, 0);
    DONE(0xDE, 1, 0, 0);
}

/* Times that are given: what is read and sampled is known. */
static void given_times(void) {
    opened();
    SHOW("CONNECT", 0xFF, 0);
    SHOW("properties", 0xDA);
    SHOW("resolution", 0xD9);
    list_runs();
    SHOW("clock", 0xDC);
    tell(1000);
    SHOW("at 1000", 0xDC);
    sample(0xA1);
    show("  sample", one.bytes, one.length);
    tell(999); /* it doesn't go back */
    SHOW("at 999", 0xDC);
    tell(4294967301u); /* 2^32 + 5 */
    SHOW("at 2^32 + 5", 0xDC);
    sample(0xA2);
    show("  sample", one.bytes, one.length);
    tell(UINT64_MAX);
    SHOW("at 2^64 - 1", 0xDC);
    xcp_close(&slave);
}

static uint64_t microseconds(void) {
    struct timespec now;
    clock_gettime(CLOCK_MONOTONIC, &now);
    return (uint64_t)now.tv_sec * 1000000u + (uint64_t)now.tv_nsec / 1000u;
}

/* The low four bytes of a time, at a place of a packet. */
static uint32_t time_at(size_t place) {
    uint32_t low = 0;
    for (size_t i = 0; i < 4; i++) low |= (uint32_t)one.bytes[place + i] << 8 * i;
    return low;
}

/* The time of the monotonic clock: each time stamp and each reading is what was told, and none is before the one before it. */
static void real_time(void) {
    uint64_t before = 0;
    opened();
    DONE(0xFF, 0);
    list_runs();
    for (int i = 0; i < 1000; i++) {
        uint64_t now = microseconds();
        want(now >= before, "the monotonic clock doesn't go back");
        tell(now);
        sample((uint8_t)i);
        want(one.length == 6 && time_at(1) == (uint32_t)now && one.bytes[5] == (uint8_t)i, "a sample has the time that was told");
        ASK(0xDC);
        want(one.length == 8 && time_at(4) == (uint32_t)now, "the clock is read as it was told");
        before = now;
    }
    xcp_close(&slave);
    printf("1000 samples have the time that was told\n");
}

int main(int argc, char **argv) {
    read_layout(argc, argv);
    given_times();
    real_time();
    return 0;
}
