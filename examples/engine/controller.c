#include "controller.h"
#include <stdio.h>
#include <time.h>

bool controller_open(controller *it, const uint8_t *text, size_t length) {
    uint8_t fault = xcp_open(text, length, &it->slave);
    if (fault == XCP_OPENED) fault = xcp_reader_open(&it->slave, &it->of_cycle);
    if (fault == XCP_OPENED) fault = xcp_reader_open(&it->slave, &it->of_crank);
    if (fault != XCP_OPENED) {
        fprintf(stderr, "engine: the layout has fault %d\n", fault);
        return false;
    }
    pthread_mutex_init(&it->lock, NULL);
    engine_start(&it->plant);
    controller_event(it, CHANNEL_CRANK); /* without a tool it only shows whether the layout has this channel and these signals */
    if (it->overruns == 0) return true;
    fprintf(stderr, "engine: the layout is that of another controller\n");
    return false;
}

void controller_close(controller *it) {
    xcp_reader_close(&it->of_cycle);
    xcp_reader_close(&it->of_crank);
    xcp_close(&it->slave);
}

void controller_time(controller *it) {
    xcp_answer answer = XCP_ANSWER_INIT;
    struct timespec time;
    clock_gettime(CLOCK_MONOTONIC, &time);
    xcp_time(&it->slave, (uint64_t)time.tv_sec * 1000000u + (uint64_t)time.tv_nsec / 1000u, &answer);
}

void controller_event(controller *it, uint16_t channel) {
    xcp_answer answer = XCP_ANSWER_INIT;
    uint8_t bytes[SIGNAL_BYTES];
    signals_into(&it->measured, bytes);
    controller_time(it); /* the time stamp of the event's packets */
    xcp_event(&it->slave, channel, bytes, sizeof bytes, &answer);
    if (answer.told != XCP_SAMPLED) it->overruns++;
}

void controller_store(controller *it) {
    xcp_answer answer = XCP_ANSWER_INIT;
    xcp_finish_store(&it->slave, &answer);
    if (answer.told == XCP_STORED) it->stores++;
}
