#include "signals.h"

static void put(uint8_t *to, int count, uint32_t number) {
    for (int i = 0; i < count; i++) to[i] = (uint8_t)(number >> 8 * i);
}

/* The nearest number of units, as two bytes; beyond what a word can say, the last that it can. */
static void put_word(uint8_t *to, double value, double unit) {
    double units = value / unit + 0.5;
    put(to, 2, units < 0.0 ? 0 : units > 65535.0 ? 65535 : (uint32_t)units);
}

static void put_signed(uint8_t *to, double value, double unit) {
    double units = value / unit + (value < 0.0 ? -0.5 : 0.5);
    put(to, 2, (uint32_t)(units < -32768.0 ? -32768 : units > 32767.0 ? 32767 : (int32_t)units));
}

void signals_into(const signals *it, uint8_t bytes[SIGNAL_BYTES]) {
    put_word(bytes + SPEED, it->speed, 0.25);
    put_word(bytes + AIR, it->air, 0.1);
    put_word(bytes + THROTTLE, it->throttle, 0.01);
    put_word(bytes + PRESSURE, it->pressure, 0.01);
    put_word(bytes + LAMBDA, it->lambda, 0.0001);
    put_word(bytes + INJECTION, it->injection, 1.0);
    put_signed(bytes + IGNITION, it->ignition, 0.1);
    put_word(bytes + TORQUE, it->torque, 0.1);
    put(bytes + CYCLES, 4, it->cycles);
    put(bytes + STROKES, 4, it->strokes);
}
