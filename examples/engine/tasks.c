#include "tasks.h"
#include "control.h"
#include "controller.h"
#include <math.h>
#include <time.h>

static const double CYCLE = 0.01;      /* seconds */
static const double MOST_LATE = 0.05;  /* seconds: a task that is later than that doesn't make up for it */

/* When a task's next turn is due, in seconds of the monotonic clock. */
static double now(void) {
    struct timespec time;
    clock_gettime(CLOCK_MONOTONIC, &time);
    return (double)time.tv_sec + 1e-9 * (double)time.tv_nsec;
}

/* Waits until the turn that follows the one at `due` by so many seconds, and gives its time. */
static double next_turn(double due, double seconds) {
    due += seconds;
    double late = now() - due;
    if (late > MOST_LATE) return due + late;
    struct timespec time;
    time.tv_sec = (time_t)due;
    time.tv_nsec = (long)((due - floor(due)) * 1e9);
    clock_nanosleep(CLOCK_MONOTONIC, TIMER_ABSTIME, &time, NULL);
    return due;
}

/* The parameters of the newest image: all of one and the same image, and without a lock, whatever a tool writes meanwhile. */
static void take_parameters(xcp_reader *reader, parameters *it) {
    uint8_t image[PARAMETER_BYTES] = {0};
    xcp_acquire(reader);
    xcp_read(reader, 0, image, sizeof image);
    parameters_from(it, image);
}

/* How far the driver has the pedal down, per cent: he tries to hold it, and doesn't quite. */
static double pedal_at(double seconds) {
    return 22.0 + 0.5 * sin(seconds * 1.9) + 0.3 * sin(seconds * 4.3);
}

void *cycle_task(void *shared) {
    controller *it = (controller *)shared;
    parameters known;
    double due = now();
    while (!SEEN(it->ended)) {
        take_parameters(&it->of_cycle, &known);
        pthread_mutex_lock(&it->lock);
        double pedal = pedal_at(CYCLE * it->measured.cycles);
        double throttle = control_throttle(&known, pedal, it->plant.speed, it->measured.throttle, CYCLE);
        engine_turn(&it->plant, throttle, CYCLE);
        it->measured.throttle = throttle;
        it->measured.speed = it->plant.speed;
        it->measured.pressure = it->plant.pressure;
        it->measured.cycles++;
        controller_event(it, CHANNEL_10_MS);
        controller_store(it);
        pthread_mutex_unlock(&it->lock);
        due = next_turn(due, CYCLE);
    }
    return NULL;
}

void *crank_task(void *shared) {
    controller *it = (controller *)shared;
    parameters known;
    double due = now();
    while (!SEEN(it->ended)) {
        take_parameters(&it->of_crank, &known);
        pthread_mutex_lock(&it->lock);
        double speed = it->plant.speed, pressure = it->plant.pressure;
        it->measured.injection = control_injection(&known, speed, pressure);
        it->measured.ignition = control_ignition(&known, speed, pressure);
        engine_burn(&it->plant, it->measured.injection, it->measured.ignition);
        it->measured.air = it->plant.air;
        it->measured.torque = it->plant.torque;
        it->measured.lambda = it->plant.lambda;
        it->measured.strokes++;
        controller_event(it, CHANNEL_CRANK);
        double stroke = engine_stroke_seconds(&it->plant);
        pthread_mutex_unlock(&it->lock);
        due = next_turn(due, stroke);
    }
    return NULL;
}
