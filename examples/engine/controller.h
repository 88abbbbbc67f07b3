/* What the controller's threads share: the slave, the engine and what was measured of it, all under one lock; the readers of
 * the two tasks, each its task's own, under none; and the word that ends all threads. */
#ifndef CONTROLLER_H
#define CONTROLLER_H
#include "billhookyew.h"
#include "model.h"
#include "signals.h"
#include <pthread.h>
#ifdef __cplusplus
extern "C" {
#endif

typedef struct {
    pthread_mutex_t lock; /* for what stands up to `overruns` */
    xcp_slave slave;
    engine plant;
    signals measured;
    uint32_t stores;   /* requests to store that were carried out */
    uint32_t overruns; /* events of which no packet was kept: too many waited */

    xcp_reader of_cycle; /* the 10 ms task's */
    xcp_reader of_crank; /* the crank task's */
    int ended;           /* not 0: the threads are to end; by TELL and SEEN alone */
} controller;

enum { CHANNEL_10_MS = 0, CHANNEL_CRANK = 1 /* the event channels, as engine.toml numbers them */ };

/* Sequentially consistent, in C and in C++. */
#define SEEN(place) __atomic_load_n(&(place), __ATOMIC_SEQ_CST)
#define TELL(place, value) __atomic_store_n(&(place), (value), __ATOMIC_SEQ_CST)

/* Opens a controller by the text of a layout file; it begins as zeros, so its handles are closed. False: it can't be opened, and
 * standard error says why. */
bool controller_open(controller *it, const uint8_t *text, size_t length);

/* Once no other thread uses it. */
void controller_close(controller *it);

/* Tells the slave the time of the monotonic clock, in the microseconds that engine.toml says. Under the lock. */
void controller_time(controller *it);

/* Raises an event of this moment with the signals as they were measured. Under the lock. */
void controller_event(controller *it, uint16_t channel);

/* Carries out a store, if the tool asked for one. Under the lock. */
void controller_store(controller *it);

#ifdef __cplusplus
}
#endif
#endif
