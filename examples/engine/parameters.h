/* The controller's parameters: where they lie in the image that a task takes, and what their bytes say. The image has the
 * controller's pages of the layout's segments, one behind the other: engine.toml has both segments. */
#ifndef PARAMETERS_H
#define PARAMETERS_H
#include <stdint.h>
#ifdef __cplusplus
extern "C" {
#endif

enum { MAP_SPEEDS = 8, MAP_PRESSURES = 8 };

/* A value for each pressure and speed, and between these what lies between. */
typedef struct {
    double speed[MAP_SPEEDS];       /* rpm, rising */
    double pressure[MAP_PRESSURES]; /* kPa, rising */
    double value[MAP_PRESSURES][MAP_SPEEDS];
} map;

typedef struct {
    map injection;     /* how long the injector has to be open, microseconds */
    double correction; /* by how much the map's value is multiplied */
    double dead_time;  /* until an injector opens: added, microseconds */
    map ignition;      /* degrees before top dead centre */
    double idle_speed; /* below it the throttle is opened more than the driver wants, rpm */
    double idle_gain;  /* by so many per cent for each rpm below it */
    double rate;       /* how fast the throttle may move, per cent a second */
} parameters;

/* Where segments and parameters lie in the image. Words have their low byte first. */
enum {
    INJECTION_SPEEDS = 0,                                                /* words, rpm */
    INJECTION_PRESSURES = INJECTION_SPEEDS + 2 * MAP_SPEEDS,             /* words, 0.1 kPa */
    INJECTION_VALUES = INJECTION_PRESSURES + 2 * MAP_PRESSURES,          /* words, a microsecond; speed by speed */
    CORRECTION = INJECTION_VALUES + 2 * MAP_SPEEDS * MAP_PRESSURES,      /* word, 0.001 */
    DEAD_TIME = CORRECTION + 2,                                          /* word, a microsecond */
    INJECTION_BYTES = DEAD_TIME + 2,                                     /* segment 0 ends here */

    IGNITION_SPEEDS = INJECTION_BYTES,                                   /* words, rpm */
    IGNITION_PRESSURES = IGNITION_SPEEDS + 2 * MAP_SPEEDS,               /* words, 0.1 kPa */
    IGNITION_VALUES = IGNITION_PRESSURES + 2 * MAP_PRESSURES,            /* bytes, half a degree; speed by speed */
    IDLE_SPEED = IGNITION_VALUES + MAP_SPEEDS * MAP_PRESSURES,           /* word, rpm */
    IDLE_GAIN = IDLE_SPEED + 2,                                          /* word, 0.001 per cent for each rpm */
    THROTTLE_RATE = IDLE_GAIN + 2,                                       /* word, per cent a second */
    PARAMETER_BYTES = THROTTLE_RATE + 2                                  /* segment 1 ends here */
};

/* What the first PARAMETER_BYTES bytes of an image say. */
void parameters_from(parameters *it, const uint8_t *image);

/* A map's value at a speed and a pressure. Outside of the map it is that of its edge. */
double map_at(const map *it, double speed, double pressure);

#ifdef __cplusplus
}
#endif
#endif
