/* Serves one tool over UDP, at a port of 127.0.0.1: a datagram holds whole frames, and so do those that go back. The slave is the tool's whose
 * CONNECT came first, until it sends DISCONNECT or is silent for five seconds; nobody else is answered. It ends once a tool has disconnected.
 *
 *   cc datagrams.c $(pkg-config --cflags --libs billhookyew) -o datagrams && ./datagrams engine.toml 5555 */
#include <arpa/inet.h>
#include <billhookyew.h>
#include <poll.h>
#include <stdio.h>
#include <stdlib.h>
#include <string.h>
#include <time.h>

enum { LONGEST = 1472, CONNECT = 0xFF, DISCONNECT = 0xFE, PATIENCE = 5 /* s */, CYCLE = 10 /* ms */ };
static xcp_slave slave = XCP_CLOSED;
static xcp_framer framer = XCP_CLOSED;
static struct sockaddr_in tool; /* with port 0: there is none */
static time_t heard;            /* when it sent its last datagram */
static uint16_t ctr;
static size_t filled, faulty; /* bytes of `out`, and datagrams */
static uint8_t layout[65536], out[LONGEST];

static void flush(int port) {
    if (filled > 0) (void)sendto(port, out, filled, 0, (struct sockaddr *)&tool, sizeof tool); /* what can't be sent is lost */
    filled = 0;
}

/* The frames of an answer's packets go into datagrams that are as full as they can be. */
static void put(int port, const xcp_answer *answer) {
    xcp_one_packet packet = {0, {0}};
    xcp_one_frame frame = {0, {0}};
    for (uint8_t i = 0; xcp_packet(answer, i, &packet) && xcp_frame(ctr, packet.bytes, packet.length, &frame); i++, ctr++) {
        if (filled + frame.length > sizeof out) flush(port);
        memcpy(out + filled, frame.bytes, frame.length);
        filled += frame.length;
    }
}

/* Executes the frames of a datagram in order, up to one that isn't whole or has too high a LEN, if it's the tool's, or the CONNECT of one that may
 * have the slave now. Says whether the last of them was DISCONNECT. */
static bool execute(int port, const struct sockaddr_in *from, const uint8_t *bytes, size_t length) {
    bool gone = false, other = from->sin_port != tool.sin_port || from->sin_addr.s_addr != tool.sin_addr.s_addr;
    xcp_answer answer = XCP_ANSWER_INIT;
    xcp_fed fed = {0, 0, XCP_ONE, 0, {0}};
    if (other && (length < 6 || bytes[4] != CONNECT || (tool.sin_port != 0 && time(NULL) - heard < PATIENCE))) return false;
    if (other && xcp_hangup(&slave, &answer)) ctr = 0; /* the session of who was there before */
    tool = *from;
    heard = time(NULL);
    xcp_framer_open(xcp_max_cto(&slave), &framer); /* unless it's open */
    for (size_t at = 0; at < length && xcp_feed(&framer, bytes + at, length - at, &fed) && fed.got == XCP_ONE; at += fed.used) {
        gone = fed.bytes[0] == DISCONNECT;
        if (xcp_command(&slave, fed.bytes, fed.length, &answer)) put(port, &answer);
    }
    if (fed.got != XCP_ONE) xcp_framer_close(&framer); /* what is left in it belongs to no other datagram */
    faulty += fed.got != XCP_ONE;
    return gone;
}

int main(int argc, char **argv) {
    FILE *file = argc > 1 ? fopen(argv[1], "rb") : NULL;
    struct sockaddr_in at = {AF_INET, htons((uint16_t)(argc > 2 ? atoi(argv[2]) : 5555)), {htonl(INADDR_LOOPBACK)}, {0}}, from;
    struct pollfd port = {socket(AF_INET, SOCK_DGRAM, 0), POLLIN, 0};
    socklen_t size = sizeof at;
    if (!file || xcp_open(layout, fread(layout, 1, sizeof layout, file), &slave) != XCP_OPENED) return 1;
    if (bind(port.fd, (struct sockaddr *)&at, size) != 0 || getsockname(port.fd, (struct sockaddr *)&at, &size) != 0) return 1;
    printf("listening %d udp\n", ntohs(at.sin_port));
    fflush(stdout);
    for (bool gone = false; !gone; flush(port.fd)) {
        uint8_t bytes[LONGEST + 1], signals[24] = {0};
        xcp_answer answer = XCP_ANSWER_INIT;
        if (poll(&port, 1, CYCLE) == 0) xcp_event(&slave, 0, signals, sizeof signals, &answer); /* nothing came */
        ssize_t n = recvfrom(port.fd, bytes, sizeof bytes, MSG_DONTWAIT, (struct sockaddr *)&from, &size);
        if (n > 0 && n <= LONGEST) gone = execute(port.fd, &from, bytes, (size_t)n);
        while (xcp_drain(&slave, &answer) && answer.told != XCP_NOTHING) put(port.fd, &answer);
    }
    printf("the tool is gone, faulty %zu\n", faulty);
    xcp_framer_close(&framer);
    xcp_close(&slave);
    return 0;
}
