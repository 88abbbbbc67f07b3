/* What the controller works out of its parameters and of what it measures. */
#ifndef CONTROL_H
#define CONTROL_H
#include "parameters.h"
#ifdef __cplusplus
extern "C" {
#endif

/* How far the throttle is to be open, per cent, some seconds after it was open by `throttle`: it follows the driver's
 * pedal, as fast as it may, and keeps the engine from stalling. */
double control_throttle(const parameters *it, double pedal, double speed, double throttle, double seconds);

/* How long an injector is to be open, microseconds. There is no lambda control behind it: what the map says is what the
 * engine gets. */
double control_injection(const parameters *it, double speed, double pressure);

/* The ignition angle, degrees before top dead centre. */
double control_ignition(const parameters *it, double speed, double pressure);

#ifdef __cplusplus
}
#endif
#endif
