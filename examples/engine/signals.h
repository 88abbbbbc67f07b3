/* What the controller measures, as the bytes that an event gives to the slave: the layout's signals area. Words have their
 * low byte first. */
#ifndef SIGNALS_H
#define SIGNALS_H
#include <stdint.h>
#ifdef __cplusplus
extern "C" {
#endif

typedef struct {
    double speed;     /* rpm */
    double air;       /* mg a stroke */
    double throttle;  /* per cent */
    double pressure;  /* kPa */
    double lambda;    /* 1 where the fuel fits the air */
    double injection; /* microseconds */
    double ignition;  /* degrees before top dead centre */
    double torque;    /* Nm */
    uint32_t cycles;  /* of the 10 ms task: the engine's clock */
    uint32_t strokes; /* of the crank task */
} signals;

/* Where each stands in the signals area. */
enum {
    SPEED = 0,      /* word, 0.25 rpm */
    AIR = 2,        /* word, 0.1 mg */
    THROTTLE = 4,   /* word, 0.01 per cent */
    PRESSURE = 6,   /* word, 0.01 kPa */
    LAMBDA = 8,     /* word, 0.0001 */
    INJECTION = 10, /* word, a microsecond */
    IGNITION = 12,  /* signed word, 0.1 degrees */
    TORQUE = 14,    /* word, 0.1 Nm */
    CYCLES = 16,    /* double word */
    STROKES = 20,   /* double word */
    SIGNAL_BYTES = 24
};

void signals_into(const signals *it, uint8_t bytes[SIGNAL_BYTES]);

#ifdef __cplusplus
}
#endif
#endif
