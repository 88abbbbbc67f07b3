/* What the programs of this folder share. They compile as C11 and as C++17. */
#ifndef COMMON_H
#define COMMON_H
#include "billhookyew.h"
#include <pthread.h>
#include <stdio.h>
#include <stdlib.h>
#include <string.h>

/* Sequentially consistent, in both languages. */
#define SEEN(place) __atomic_load_n(&(place), __ATOMIC_SEQ_CST)
#define TELL(place, value) __atomic_store_n(&(place), (value), __ATOMIC_SEQ_CST)

static uint8_t layout[65536];
static size_t layout_length;

static inline void read_layout(int argc, char **argv) {
    FILE *file = argc > 1 ? fopen(argv[1], "rb") : NULL;
    if (!file) {
        fprintf(stderr, "usage: %s LAYOUT\n", argv[0]);
        exit(2);
    }
    layout_length = fread(layout, 1, sizeof layout, file);
    fclose(file);
}

/* Ends the program where something isn't as it should be. */
static inline void want(bool holds, const char *what) {
    if (holds) return;
    printf("WRONG: %s\n", what);
    exit(1);
}

static inline void start(pthread_t *thread, void *(*body)(void *), void *argument) {
    want(pthread_create(thread, NULL, body, argument) == 0, "a thread can be had");
}

static inline void show(const char *what, const uint8_t *bytes, size_t length) {
    printf("%-14s", what);
    for (size_t i = 0; i < length; i++) printf(" %02X", bytes[i]);
    printf("\n");
}
#endif
