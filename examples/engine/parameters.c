#include "parameters.h"

static double word_at(const uint8_t *image, int place) {
    return image[place] | image[place + 1] << 8;
}

static void words_from(double *to, int count, const uint8_t *image, int place, double unit) {
    for (int i = 0; i < count; i++) to[i] = word_at(image, place + 2 * i) * unit;
}

void parameters_from(parameters *it, const uint8_t *image) {
    words_from(it->injection.speed, MAP_SPEEDS, image, INJECTION_SPEEDS, 1.0);
    words_from(it->injection.pressure, MAP_PRESSURES, image, INJECTION_PRESSURES, 0.1);
    for (int row = 0; row < MAP_PRESSURES; row++)
        words_from(it->injection.value[row], MAP_SPEEDS, image, INJECTION_VALUES + 2 * MAP_SPEEDS * row, 1.0);
    it->correction = word_at(image, CORRECTION) * 0.001;
    it->dead_time = word_at(image, DEAD_TIME);

    words_from(it->ignition.speed, MAP_SPEEDS, image, IGNITION_SPEEDS, 1.0);
    words_from(it->ignition.pressure, MAP_PRESSURES, image, IGNITION_PRESSURES, 0.1);
    for (int row = 0; row < MAP_PRESSURES; row++)
        for (int i = 0; i < MAP_SPEEDS; i++)
            it->ignition.value[row][i] = image[IGNITION_VALUES + MAP_SPEEDS * row + i] * 0.5;
    it->idle_speed = word_at(image, IDLE_SPEED);
    it->idle_gain = word_at(image, IDLE_GAIN) * 0.001;
    it->rate = word_at(image, THROTTLE_RATE);
}

/* Where a value stands on an axis: the point before it, and how far it is from there to the next one, 0 to 1. A tool may
 * write any axis, also one that doesn't rise: then what comes of it is a wrong value of the map, and no division by 0. */
static int point_before(const double *axis, int count, double value, double *part) {
    int i = 0;
    while (i < count - 2 && value >= axis[i + 1]) i++;
    double width = axis[i + 1] - axis[i];
    *part = width > 0.0 ? (value - axis[i]) / width : 0.0;
    *part = *part < 0.0 ? 0.0 : *part > 1.0 ? 1.0 : *part;
    return i;
}

double map_at(const map *it, double speed, double pressure) {
    double right, up;
    int i = point_before(it->speed, MAP_SPEEDS, speed, &right);
    int row = point_before(it->pressure, MAP_PRESSURES, pressure, &up);
    const double *low = it->value[row], *high = it->value[row + 1];
    double at_low = low[i] + (low[i + 1] - low[i]) * right;
    double at_high = high[i] + (high[i + 1] - high[i]) * right;
    return at_low + (at_high - at_low) * up;
}
