#include "server.h"
#include <arpa/inet.h>
#include <netinet/in.h>
#include <netinet/tcp.h>
#include <poll.h>
#include <string.h>
#include <sys/socket.h>
#include <unistd.h>

enum { GET_DAQ_CLOCK = 0xDC };
enum { LOOK_MS = 2 /* how long packets that an event made may wait for the server to look */, ACCEPT_MS = 100 };

/* A tool's connection. */
typedef struct {
    controller *shared;
    int socket;
    uint16_t counter; /* CTR of the next frame */
    xcp_framer framer;
} connection;

uint16_t server_listen(server *it, controller *shared, uint16_t port) {
    struct sockaddr_in address;
    socklen_t size = sizeof address;
    int yes = 1;
    memset(&address, 0, sizeof address);
    address.sin_family = AF_INET;
    address.sin_addr.s_addr = htonl(INADDR_LOOPBACK);
    address.sin_port = htons(port);
    it->shared = shared;
    it->listener = socket(AF_INET, SOCK_STREAM, 0);
    if (it->listener < 0) return 0;
    setsockopt(it->listener, SOL_SOCKET, SO_REUSEADDR, &yes, sizeof yes);
    if (bind(it->listener, (struct sockaddr *)&address, size) != 0 || listen(it->listener, 1) != 0 ||
        getsockname(it->listener, (struct sockaddr *)&address, &size) != 0) {
        close(it->listener);
        return 0;
    }
    return ntohs(address.sin_port);
}

/* Puts each packet of an answer into a frame, and sends it. False: the tool is gone. */
static bool sent(connection *it, const xcp_answer *answer) {
    xcp_one_packet packet = {0, {0}};
    xcp_one_frame frame = {0, {0}};
    for (uint8_t i = 0; xcp_packet(answer, i, &packet); i++) {
        xcp_frame(it->counter++, packet.bytes, packet.length, &frame);
        for (size_t done = 0; done < frame.length;) {
            ssize_t n = send(it->socket, frame.bytes + done, frame.length - done, MSG_NOSIGNAL);
            if (n <= 0) return false;
            done += (size_t)n;
        }
    }
    return true;
}

/* Executes each command of a piece of the stream, and sends what answers it. */
static bool executed(connection *it, const uint8_t *bytes, size_t length) {
    xcp_fed fed = {0, 0, 0, 0, {0}};
    xcp_answer answer = XCP_ANSWER_INIT;
    for (size_t at = 0; at < length; at += fed.used) {
        if (!xcp_feed(&it->framer, bytes + at, length - at, &fed) || fed.got == XCP_BAD_LEN) return false;
        if (fed.got != XCP_ONE) continue;
        pthread_mutex_lock(&it->shared->lock);
        if (fed.bytes[0] == GET_DAQ_CLOCK) controller_time(it->shared);
        xcp_command(&it->shared->slave, fed.bytes, fed.length, &answer);
        pthread_mutex_unlock(&it->shared->lock);
        if (!sent(it, &answer)) return false;
    }
    return true;
}

/* Sends the packets that wait in the slave. The lock is held for each of them alone, and never while one is sent. */
static bool drained(connection *it) {
    xcp_answer answer = XCP_ANSWER_INIT;
    for (;;) {
        pthread_mutex_lock(&it->shared->lock);
        xcp_drain(&it->shared->slave, &answer);
        pthread_mutex_unlock(&it->shared->lock);
        if (answer.told != XCP_PACKETS) return true;
        if (!sent(it, &answer)) return false;
    }
}

/* Answers the tool and sends it data packets, until it is gone, sends a frame that is none, or all is to end. */
static void serve(connection *it) {
    uint8_t bytes[4096];
    struct pollfd readable = {it->socket, POLLIN, 0};
    while (!SEEN(it->shared->ended) && drained(it)) {
        int ready = poll(&readable, 1, LOOK_MS);
        if (ready == 0) continue;
        ssize_t n = ready < 0 ? -1 : recv(it->socket, bytes, sizeof bytes, 0);
        if (n <= 0 || !executed(it, bytes, (size_t)n)) return;
    }
}

/* Serves a tool that has connected, and ends its session. */
static void welcome(controller *shared, int socket) {
    connection it = {shared, socket, 0, XCP_CLOSED};
    xcp_answer answer = XCP_ANSWER_INIT;
    int yes = 1;
    setsockopt(socket, IPPROTO_TCP, TCP_NODELAY, &yes, sizeof yes);
    pthread_mutex_lock(&shared->lock);
    uint8_t max_cto = xcp_max_cto(&shared->slave);
    pthread_mutex_unlock(&shared->lock);
    if (xcp_framer_open(max_cto, &it.framer) == XCP_OPENED) {
        serve(&it);
        xcp_framer_close(&it.framer);
    }
    pthread_mutex_lock(&shared->lock);
    xcp_hangup(&shared->slave, &answer);
    pthread_mutex_unlock(&shared->lock);
    close(socket);
}

void *server_task(void *given) {
    server *it = (server *)given;
    struct pollfd waits = {it->listener, POLLIN, 0};
    while (!SEEN(it->shared->ended)) {
        if (poll(&waits, 1, ACCEPT_MS) <= 0) continue;
        int socket = accept(it->listener, NULL, NULL);
        if (socket >= 0) welcome(it->shared, socket);
    }
    close(it->listener);
    return NULL;
}
