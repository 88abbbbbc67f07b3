/* The engine on its test bench: what the controller controls and measures. It knows nothing of XCP.
 *
 * Four cylinders, 2.0 litres, petrol, injection into the intake pipes. Air comes through the throttle into the manifold,
 * each stroke draws some of it, burns it with the fuel that was injected, and pushes the crankshaft, which a brake holds
 * back. What was burned passes the lambda probe some strokes later. */
#ifndef MODEL_H
#define MODEL_H
#ifdef __cplusplus
extern "C" {
#endif

enum { EXHAUST_STROKES = 30 /* as many strokes of exhaust lie between the valves and the probe: 15 litres of pipe */ };

typedef struct {
    double speed;                    /* of the crankshaft, rpm */
    double pressure;                 /* in the manifold, kPa */
    double air;                      /* that the last stroke drew, mg */
    double torque;                   /* of the last stroke, before friction and brake, Nm */
    double exhaust[EXHAUST_STROKES]; /* lambda of the last strokes, in a ring */
    int newest;                      /* where the last stroke's stands in it */
    double lambda;                   /* what the probe says: 1 where the fuel fits the air, above 1 with too little fuel */
} engine;

/* It turns at 2,300 rpm, and was given the right fuel so far. */
void engine_start(engine *it);

/* Lets some time pass, in seconds (at most 0.02: the steps are explicit), with the throttle open by so many per cent. */
void engine_turn(engine *it, double throttle, double seconds);

/* One stroke of one cylinder: its injector was open for so many microseconds, and it was ignited so many degrees of the
 * crankshaft before top dead centre. */
void engine_burn(engine *it, double injection, double ignition);

/* Seconds from stroke to stroke: half a turn. */
double engine_stroke_seconds(const engine *it);

#ifdef __cplusplus
}
#endif
#endif
