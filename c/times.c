/* Nanoseconds that each call takes: the least of 90 rounds. With a word behind the layout there are two short rounds, and a tool
 * that counts instructions finds the second between round_begins and round_ends. */
#include "parts.h"
#include <time.h>

static double now(void) {
    struct timespec t;
    clock_gettime(CLOCK_MONOTONIC, &t);
    return (double)t.tv_sec * 1e9 + (double)t.tv_nsec;
}

static xcp_slave slave = XCP_CLOSED;
static xcp_reader reader = XCP_CLOSED;
static xcp_framer framer = XCP_CLOSED;
static xcp_answer answer;
static uint8_t image[XCP_IMAGE_BYTES];
static bool counted;

/* (Two functions, as their texts differ.) */
static __attribute__((noinline)) void round_begins(void) { __asm__ volatile("/* begins */"); }
static __attribute__((noinline)) void round_ends(void) { __asm__ volatile("/* ends */"); }

#define COMMAND(...) do { const uint8_t bytes_[] = {__VA_ARGS__}; xcp_command(&slave, bytes_, sizeof bytes_, &answer); } while (0)
#define DONE(...) do { COMMAND(__VA_ARGS__); want(answer.told == XCP_PACKETS && answer.bytes[0] == 0xFF, #__VA_ARGS__); } while (0)
#define TIME(name, turns, ...) do { \
    double least = 1e18; \
    const uint32_t calls = counted ? 100 : turns; \
    for (int k = counted ? 88 : 0; k < 90; k++) { \
        double t = now(); \
        if (k == 89) round_begins(); \
        for (uint32_t i = 0; i < calls; i++) { __VA_ARGS__; } \
        if (k == 89) round_ends(); \
        t = (now() - t) / calls; \
        if (t < least) least = t; \
    } \
    printf("%s\t%.1f\n", name, least); \
} while (0)

int main(int argc, char **argv) {
    read_layout(argc, argv);
    counted = argc > 2;
    TIME("xcp_open and xcp_close", 20, xcp_open(layout, layout_length, &slave); xcp_close(&slave));
    want(!xcp_open(layout, layout_length, &slave) && !xcp_reader_open(&slave, &reader) && !xcp_framer_open(xcp_max_cto(&slave), &framer), "all is open");
    DONE(0xFF, 0);
    DONE(0xEB, 0x83, 0, 1);
    TIME("xcp_command: GET_STATUS", 4000, COMMAND(0xFD));
    TIME("xcp_command: SHORT_UPLOAD of 4", 4000, COMMAND(0xF4, 4, 0, 0, 0, 0, 8, 0));
    TIME("xcp_command: SET_MTA, UPLOAD of 80 in a block", 4000, COMMAND(0xF6, 0, 0, 0, 0, 0, 8, 0); COMMAND(0xF5, 80));
    xcp_one_packet one = {0, {0}};
    want(answer.count == 2, "a block of two packets");
    TIME("xcp_packet: one of a block", 4000, xcp_packet(&answer, i & 1, &one));
    TIME("xcp_command: SHORT_DOWNLOAD of 4, the same image", 500, COMMAND(0xED, 4, 0, 0, 0, 0, 8, 0, 1, 2, 3, 4));
    TIME("xcp_command: SHORT_DOWNLOAD of 4, another image", 500, COMMAND(0xED, 4, 0, 0, 0, 0, 8, 0, (uint8_t)i, (uint8_t)(i >> 8), 3, 4));
    uint8_t signals[24] = {0};
    TIME("xcp_event that no list has", 4000, signals[0] = (uint8_t)i; xcp_event(&slave, 1, signals, 24, &answer));
    TIME("xcp_time", 4000, xcp_time(&slave, i, &answer));
    DONE(0xD6); DONE(0xD5, 0, 1, 0); DONE(0xD4, 0, 0, 0, 1); DONE(0xD3, 0, 0, 0, 0, 2); DONE(0xE2, 0, 0, 0, 0, 0);
    DONE(0xE1, 0xFF, 4, 0, 0, 0, 0, 0x20); DONE(0xE1, 0xFF, 2, 0, 0, 1, 8, 0); DONE(0xE0, 0, 0, 0, 1, 0, 1, 0); DONE(0xDE, 1, 0, 0);
    TIME("xcp_event sampled into a packet, and its xcp_drain", 4000, signals[0] = (uint8_t)i; xcp_event(&slave, 1, signals, 24, &answer); xcp_drain(&slave, &answer));
    want(answer.told == XCP_PACKETS, "a packet was drained");
    TIME("xcp_drain of nothing", 4000, xcp_drain(&slave, &answer));
    TIME("xcp_pending", 4000, xcp_pending(&slave));
    static uint8_t stored[XCP_STORED_BYTES];
    size_t used = 0;
    TIME("xcp_stored_pages", 500, xcp_stored_pages(&slave, stored, sizeof stored, &used));
    xcp_slave other = XCP_CLOSED;
    TIME("xcp_open_stored and xcp_close", 20, xcp_open_stored(layout, layout_length, stored, used, &other); xcp_close(&other));
    TIME("xcp_open_parts and xcp_close", 20, xcp_open_parts(&engine_parts, ENGINE_PAGES, &other); xcp_close(&other));
    xcp_acquire(&reader);
    uint64_t number;
    TIME("xcp_acquire, the same image", 20000, xcp_acquire(&reader));
    TIME("xcp_read of 4 bytes", 20000, xcp_read(&reader, 0, image, 4));
    TIME("xcp_read of an image", 4000, xcp_read(&reader, 0, image, sizeof image));
    TIME("xcp_number", 20000, xcp_number(&reader, &number));
    xcp_one_frame frame = {0, {0}};
    xcp_fed fed = {0, 0, 0, 0, {0}};
    TIME("xcp_frame of 8 bytes", 20000, xcp_frame((uint16_t)i, image, 8, &frame));
    TIME("xcp_feed of that frame", 20000, xcp_feed(&framer, frame.bytes, frame.length, &fed));
    want(fed.got == XCP_ONE && fed.length == 8, "a packet came");
    xcp_reader_close(&reader);
    xcp_framer_close(&framer);
    xcp_close(&slave);
    return 0;
}
