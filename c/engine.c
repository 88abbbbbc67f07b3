/* A controller: a tool's commands under a lock, and a task that reads the calibration without one. */
#include "common.h"
#include <time.h>

static xcp_slave slave = XCP_CLOSED;
static xcp_reader reader = XCP_CLOSED;
static pthread_mutex_t lock = PTHREAD_MUTEX_INITIALIZER;
static int images, ended;
static uint8_t seen[4][4];

/* Takes each newer image, and keeps the first four bytes of segment 0 where they have changed. */
static void *task(void *unused) {
    int n = 0;
    while (!SEEN(ended)) {
        uint8_t now[4];
        xcp_acquire(&reader);
        if (n == 4 || !xcp_read(&reader, 0, now, 4) || (n && !memcmp(now, seen[n - 1], 4))) continue;
        memcpy(seen[n], now, 4);
        TELL(images, ++n);
    }
    return unused;
}

static void task_has_seen(int n) {
    while (SEEN(images) < n) continue;
    show("  task reads", seen[n - 1], 4);
}

/* Tells the time of the monotonic clock, in microseconds: before an event, and before GET_DAQ_CLOCK. Under the lock. This layout
 * has no clock, so no answer has the time; clock.c has one. */
static void tell_time(void) {
    xcp_answer answer = XCP_ANSWER_INIT;
    struct timespec now;
    clock_gettime(CLOCK_MONOTONIC, &now);
    want(xcp_time(&slave, (uint64_t)now.tv_sec * 1000000u + (uint64_t)now.tv_nsec / 1000u, &answer), "a time is taken");
    want(answer.told == XCP_SILENT, "a time is answered by nothing");
}

static void command(const char *what, const uint8_t *packet, size_t length) {
    xcp_answer answer = XCP_ANSWER_INIT;
    pthread_mutex_lock(&lock);
    if (packet[0] == 0xDC) tell_time();
    bool taken = xcp_command(&slave, packet, length, &answer);
    pthread_mutex_unlock(&lock);
    want(taken, "a command is taken");
    xcp_one_packet one = {0, {0}};
    for (uint8_t i = 0; i < answer.count; i++)
        if (xcp_packet(&answer, i, &one)) show(i ? "" : what, one.bytes, one.length);
    want(!xcp_packet(&answer, answer.count, &one), "there is no packet behind the last");
}
#define COMMAND(what, ...) do { static const uint8_t bytes[] = {__VA_ARGS__}; command(what, bytes, sizeof bytes); } while (0)

int main(int argc, char **argv) {
    read_layout(argc, argv);
    uint8_t fault = xcp_open(layout, layout_length, &slave);
    if (fault) {
        printf("layout fault %d\n", fault);
        return 1;
    }
    want(xcp_reader_open(&slave, &reader) == XCP_OPENED, "a reader can be had");
    pthread_t thread;
    start(&thread, task, NULL);
    task_has_seen(1);
    printf("MAX_CTO        %d\n", xcp_max_cto(&slave));
    COMMAND("CONNECT", 0xFF, 0x00);
    COMMAND("SET_CAL_PAGE", 0xEB, 0x02, 0x00, 0x01); /* the tool's page of segment 0 */
    COMMAND("SET_MTA", 0xF6, 0, 0, 0, 0, 0, 0x08, 0);
    COMMAND("DOWNLOAD", 0xF0, 4, 0x22, 0x24, 0x26, 0x28);
    COMMAND("SET_CAL_PAGE", 0xEB, 0x01, 0x00, 0x01); /* the controller's: the task sees it from now on */
    task_has_seen(2);
    COMMAND("SHORT_UPLOAD", 0xF4, 4, 0, 0, 0, 0, 0x08, 0);
    COMMAND("SET_MTA", 0xF6, 0, 0, 0, 0, 0, 0x08, 0);
    COMMAND("UPLOAD", 0xF5, 80); /* more than one packet has room for: a block */
    COMMAND("unknown", 0x01);
    COMMAND("GET_DAQ_CLOCK", 0xDC); /* unknown, where the layout has no clock */
    xcp_answer answer = XCP_ANSWER_INIT;
    static const uint8_t signals[24] = {1, 2, 3};
    tell_time();
    want(xcp_event(&slave, 1, signals, sizeof signals, &answer), "an event is taken");
    printf("event          told %d, count %d, pending %d\n", answer.told, answer.count, xcp_pending(&slave));
    want(xcp_event(&slave, 9999, signals, sizeof signals, &answer), "an event is taken");
    printf("no channel     told %d\n", answer.told);
    want(xcp_event(&slave, 1, signals, 23, &answer), "an event is taken");
    printf("bad signals    told %d\n", answer.told);
    want(xcp_drain(&slave, &answer), "a drain is taken");
    printf("drain          told %d\n", answer.told);
    want(xcp_finish_store(&slave, &answer), "a store is taken");
    printf("store          told %d\n", answer.told);
    TELL(ended, 1);
    pthread_join(thread, NULL);
    uint64_t number = 99;
    want(xcp_number(&reader, &number), "an image is held");
    printf("image          %d, held %d\n", (int)number, xcp_held(&slave));
    want(xcp_hangup(&slave, &answer), "a hangup is taken");
    printf("hangup         told %d\n", answer.told);
    xcp_reader_close(&reader);
    xcp_close(&slave);
    return 0;
}
