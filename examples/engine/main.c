/* A controller of an engine that runs here and now, and that a calibration tool calibrates over XCP while it runs. */
#include "controller.h"
#include "server.h"
#include "tasks.h"
#include <signal.h>
#include <stdio.h>
#include <stdlib.h>

enum { THREADS = 3 };
static const long PORT = 5555; /* that of XCP on Ethernet, if nothing is said */

static controller shared;
static server tools;

/* Opens the controller by a layout file, of which it needs nothing later. */
static bool open_by(const char *path) {
    static uint8_t text[65536];
    FILE *file = fopen(path, "rb");
    if (!file) {
        perror(path);
        return false;
    }
    size_t length = fread(text, 1, sizeof text, file);
    fclose(file);
    return controller_open(&shared, text, length);
}

/* Runs the tasks and the server until the program is interrupted or terminated. The two signals are blocked in all threads,
 * and taken by this one alone, so that no call is made from a signal handler. */
static bool run(void) {
    void *(*const bodies[THREADS])(void *) = {cycle_task, crank_task, server_task};
    void *const given[THREADS] = {&shared, &shared, &tools};
    pthread_t threads[THREADS];
    int started = 0, signal = 0;
    sigset_t ends;
    sigemptyset(&ends);
    sigaddset(&ends, SIGINT);
    sigaddset(&ends, SIGTERM);
    pthread_sigmask(SIG_BLOCK, &ends, NULL);
    while (started < THREADS && pthread_create(&threads[started], NULL, bodies[started], given[started]) == 0) started++;
    if (started == THREADS) sigwait(&ends, &signal);
    TELL(shared.ended, 1);
    for (int i = 0; i < started; i++) pthread_join(threads[i], NULL);
    return started == THREADS;
}

int main(int argc, char **argv) {
    long port = argc > 2 ? strtol(argv[2], NULL, 10) : PORT;
    if (argc < 2 || argc > 3 || port < 0 || port > 65535) {
        fprintf(stderr, "usage: engine LAYOUT [PORT]\n");
        return 2;
    }
    if (!open_by(argv[1])) return 1;
    uint16_t listening = server_listen(&tools, &shared, (uint16_t)port);
    if (listening == 0) {
        fprintf(stderr, "engine: port %ld isn't free\n", port);
        return 1;
    }
    printf("listening %d\n", listening);
    fflush(stdout);
    bool ran = run();
    printf("cycles %lu, strokes %lu, stores %lu, overruns %lu\n", (unsigned long)shared.measured.cycles,
           (unsigned long)shared.measured.strokes, (unsigned long)shared.stores, (unsigned long)shared.overruns);
    controller_close(&shared);
    return ran ? 0 : 1;
}
