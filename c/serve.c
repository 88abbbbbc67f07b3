/* Serves one tool over TCP, at a port of 127.0.0.1: bytes -> frames -> packets -> answers -> frames -> bytes. A task raises
 * event channel 0 every 10 milliseconds. It ends when the tool is gone. */
#define _DEFAULT_SOURCE
#include "common.h"
#include <arpa/inet.h>
#include <netinet/tcp.h>
#include <poll.h>
#include <sys/socket.h>
#include <time.h>
#include <unistd.h>

static xcp_slave slave = XCP_CLOSED;
static pthread_mutex_t lock = PTHREAD_MUTEX_INITIALIZER;
static int ended;
static size_t signal_bytes = 24;

static void *task(void *unused) {
    xcp_answer answer = XCP_ANSWER_INIT;
    uint8_t signals[XCP_SIGNAL_BYTES] = {0};
    struct timespec wait = {0, 10000000};
    for (uint32_t cycle = 0; !SEEN(ended); cycle++) {
        memcpy(signals, &cycle, sizeof cycle);
        pthread_mutex_lock(&lock);
        xcp_event(&slave, 0, signals, signal_bytes, &answer);
        pthread_mutex_unlock(&lock);
        nanosleep(&wait, NULL);
    }
    return unused;
}

static bool sent(int tool, uint16_t *ctr, const xcp_one_packet *packet) {
    xcp_one_frame frame = {0, {0}};
    if (!xcp_frame((*ctr)++, packet->bytes, packet->length, &frame)) return false;
    for (size_t done = 0; done < frame.length;) {
        ssize_t n = send(tool, frame.bytes + done, frame.length - done, MSG_NOSIGNAL);
        if (n <= 0) return false;
        done += (size_t)n;
    }
    return true;
}

static bool answered(int tool, uint16_t *ctr, const xcp_answer *answer) {
    xcp_one_packet packet = {0, {0}};
    for (uint8_t i = 0; xcp_packet(answer, i, &packet); i++)
        if (!sent(tool, ctr, &packet)) return false;
    return true;
}

/* Executes each command of what was read. */
static bool executed(int tool, uint16_t *ctr, xcp_framer *framer, const uint8_t *bytes, size_t length) {
    xcp_answer answer = XCP_ANSWER_INIT;
    xcp_fed fed = {0, 0, 0, 0, {0}};
    for (size_t at = 0; at < length; at += fed.used) {
        if (!xcp_feed(framer, bytes + at, length - at, &fed) || fed.got == XCP_BAD_LEN) return false;
        if (fed.got != XCP_ONE) continue;
        pthread_mutex_lock(&lock);
        xcp_command(&slave, fed.bytes, fed.length, &answer);
        pthread_mutex_unlock(&lock);
        if (!answered(tool, ctr, &answer)) return false;
    }
    return true;
}

/* Sends the packets that wait. */
static bool drained(int tool, uint16_t *ctr) {
    xcp_answer answer = XCP_ANSWER_INIT;
    for (;;) {
        pthread_mutex_lock(&lock);
        xcp_drain(&slave, &answer);
        pthread_mutex_unlock(&lock);
        if (answer.told == XCP_NOTHING) return true;
        if (!answered(tool, ctr, &answer)) return false;
    }
}

static void serve(int tool) {
    xcp_framer framer = XCP_CLOSED;
    uint16_t ctr = 0;
    uint8_t bytes[4096];
    struct pollfd readable = {tool, POLLIN, 0};
    want(xcp_framer_open(xcp_max_cto(&slave), &framer) == XCP_OPENED, "a framer");
    while (drained(tool, &ctr)) {
        if (poll(&readable, 1, 5) == 0) continue;
        ssize_t n = recv(tool, bytes, sizeof bytes, 0);
        if (n <= 0 || !executed(tool, &ctr, &framer, bytes, (size_t)n)) break;
    }
    xcp_framer_close(&framer);
}

int main(int argc, char **argv) {
    read_layout(argc, argv);
    int port = argc > 2 ? atoi(argv[2]) : 5555, yes = 1;
    if (argc > 3) signal_bytes = (size_t)atoi(argv[3]);
    want(xcp_open(layout, layout_length, &slave) == XCP_OPENED, "a slave");
    int listener = socket(AF_INET, SOCK_STREAM, 0);
    struct sockaddr_in address;
    memset(&address, 0, sizeof address);
    address.sin_family = AF_INET;
    address.sin_addr.s_addr = htonl(INADDR_LOOPBACK);
    address.sin_port = htons((uint16_t)port);
    setsockopt(listener, SOL_SOCKET, SO_REUSEADDR, &yes, sizeof yes);
    want(bind(listener, (struct sockaddr *)&address, sizeof address) == 0 && listen(listener, 1) == 0, "the port is free");
    socklen_t size = sizeof address;
    getsockname(listener, (struct sockaddr *)&address, &size);
    printf("listening %d\n", ntohs(address.sin_port));
    fflush(stdout);
    int tool = accept(listener, NULL, NULL);
    want(tool >= 0, "a tool connects");
    setsockopt(tool, IPPROTO_TCP, TCP_NODELAY, &yes, sizeof yes);
    pthread_t thread;
    start(&thread, task, NULL);
    serve(tool);
    close(tool);
    close(listener);
    TELL(ended, 1);
    pthread_join(thread, NULL);
    xcp_answer answer = XCP_ANSWER_INIT;
    xcp_hangup(&slave, &answer);
    xcp_close(&slave);
    printf("the tool is gone\n");
    return 0;
}
