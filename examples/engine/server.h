/* XCP on Ethernet, over TCP: tools are served one after another. */
#ifndef SERVER_H
#define SERVER_H
#include "controller.h"
#ifdef __cplusplus
extern "C" {
#endif

typedef struct {
    controller *shared;
    int listener;
} server;

/* Listens for a controller's tools at a port of 127.0.0.1; 0 is any that is free. The port's number, or 0: it can't. */
uint16_t server_listen(server *it, controller *shared, uint16_t port);

/* For a thread: serves the tools that connect to a server, one at a time, until its controller has ended. */
void *server_task(void *given);

#ifdef __cplusplus
}
#endif
#endif
