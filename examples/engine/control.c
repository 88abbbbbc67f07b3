#include "control.h"

double control_throttle(const parameters *it, double pedal, double speed, double throttle, double seconds) {
    double wanted = pedal;
    if (speed < it->idle_speed) wanted += it->idle_gain * (it->idle_speed - speed);
    if (wanted > 100.0) wanted = 100.0;
    double most = it->rate * seconds, move = wanted - throttle;
    return throttle + (move > most ? most : move < -most ? -most : move);
}

double control_injection(const parameters *it, double speed, double pressure) {
    return map_at(&it->injection, speed, pressure) * it->correction + it->dead_time;
}

double control_ignition(const parameters *it, double speed, double pressure) {
    return map_at(&it->ignition, speed, pressure);
}
