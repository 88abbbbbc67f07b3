#include "model.h"
#include <math.h>

/* The engine's own numbers. The controller doesn't know them: its maps are what somebody found out about them. */
static const double AMBIENT = 100.0;         /* pressure before the throttle, kPa */
static const double FULL_FLOW = 150.0;       /* air through the open throttle, g/s, where the manifold doesn't hold it back */
static const double CHOKED = 0.53;           /* below this ratio of pressures the air is as fast as sound */
static const double CYLINDER_AIR = 5.81;     /* mg in a cylinder of 0.5 litres for each kPa, at 300 K */
static const double MANIFOLD_AIR = 34.8;     /* mg in a manifold of 3 litres for each kPa */
static const double INJECTOR_FLOW = 2.5;     /* mg of fuel for each millisecond that the injector is really open */
static const double INJECTOR_DEAD = 800.0;   /* microseconds until it opens */
static const double STOICHIOMETRIC = 14.7;   /* mg of air that burn one mg of fuel */
static const double TORQUE_OF_AIR = 0.33;    /* Nm for each mg, if all else is right */
static const double INERTIA = 0.5;           /* of engine and brake, kg m2 */
static const double PROBE_SECONDS = 0.08;    /* the probe follows the gas with this time constant */
static const double PI = 3.14159265358979;

static double within(double low, double value, double high) {
    return value < low ? low : value > high ? high : value;
}

/* How much of what would fill a cylinder gets into it: most at 3,500 rpm, where the pipes resonate. */
static double filling(double speed) {
    double off = (speed - 3500.0) / 3500.0;
    return 0.86 - 0.12 * off * off;
}

/* Air through the throttle, g/s: less where the pressures before and behind it come close to one another. */
static double throttle_flow(double throttle, double pressure) {
    double open = within(0.0, throttle / 100.0, 1.0);
    double over = within(0.0, (pressure / AMBIENT - CHOKED) / (1.0 - CHOKED), 1.0);
    return FULL_FLOW * open * sqrt(open) * sqrt(1.0 - over * over);
}

/* What friction and brake take at a speed, Nm: the brake takes more the faster it is turned, as a fan does. */
static double resistance(double speed) {
    double friction = 12.0 + 0.004 * speed;
    double fast = speed / 2400.0;
    return friction + 10.0 + 30.0 * fast * fast;
}

/* The share of the torque that is left with this mixture: most where it's a little rich. Too lean, it doesn't burn. */
static double mixture_share(double lambda) {
    double off = lambda - 0.93;
    return within(0.0, 1.0 - 3.0 * off * off, 1.0);
}

/* The share that is left with this ignition angle. The best one is earlier where the engine is fast, for the flame takes
 * its time, and later where the cylinders are full, for dense gas burns faster. */
static double ignition_share(const engine *it, double ignition) {
    double best = 10.0 + 0.006 * it->speed - 0.15 * (it->pressure - 40.0);
    double off = ignition - best;
    return within(0.0, 1.0 - 0.0004 * off * off, 1.0);
}

void engine_start(engine *it) {
    it->speed = 2300.0;
    it->pressure = 40.0;
    it->air = CYLINDER_AIR * it->pressure * filling(it->speed);
    it->torque = resistance(it->speed);
    for (int i = 0; i < EXHAUST_STROKES; i++) it->exhaust[i] = 1.0;
    it->newest = 0;
    it->lambda = 1.0;
}

double engine_stroke_seconds(const engine *it) {
    return 30.0 / it->speed;
}

void engine_turn(engine *it, double throttle, double seconds) {
    double in = 1000.0 * throttle_flow(throttle, it->pressure);
    double out = CYLINDER_AIR * it->pressure * filling(it->speed) / engine_stroke_seconds(it);
    it->pressure = within(10.0, it->pressure + (in - out) / MANIFOLD_AIR * seconds, AMBIENT);
    double faster = (it->torque - resistance(it->speed)) / INERTIA * 30.0 / PI; /* rpm a second */
    it->speed = within(400.0, it->speed + faster * seconds, 7000.0);
}

void engine_burn(engine *it, double injection, double ignition) {
    double fuel = INJECTOR_FLOW * within(50.0, injection - INJECTOR_DEAD, 30000.0) / 1000.0;
    it->air = CYLINDER_AIR * it->pressure * filling(it->speed);
    double lambda = within(0.5, it->air / (STOICHIOMETRIC * fuel), 2.0);
    it->torque = TORQUE_OF_AIR * it->air * mixture_share(lambda) * ignition_share(it, ignition);

    /* The gas that was burned EXHAUST_STROKES ago leaves the ring at the probe, and this stroke's takes its place. */
    it->newest = (it->newest + 1) % EXHAUST_STROKES;
    double at_probe = it->exhaust[it->newest];
    it->exhaust[it->newest] = lambda;
    double share = within(0.0, engine_stroke_seconds(it) / PROBE_SECONDS, 1.0);
    it->lambda += (at_probe - it->lambda) * share;
}
