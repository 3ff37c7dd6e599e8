/*
 * Builds the database or the board file of a pip bound, and writes it to standard output: in a
 * thread with a stack of so many KB, the thread's own needs and the thread library's included, or,
 * where that is 0, on the stack of the program itself, as the system gives it.
 *
 * usage: builds database|board PIPS KILOBYTES
 *
 * Ends with the status of the build.
 */
#define _POSIX_C_SOURCE 200809L
#include <pthread.h>
#include <stdio.h>
#include <stdlib.h>
#include <string.h>

#include "bearoff.h"

enum { OLD_BOUND = 44 };

static uint8_t work[BEAROFF_FILE], room[BEAROFF_FILE];
static size_t filled;
static uint32_t status;
static int is_board;

static void *build(void *of) {
    uint8_t pips = *(uint8_t *)of;
    uint16_t version = is_board ? 3 : pips > OLD_BOUND ? 2 : 1;
    status =
        bearoff_build(version, pips, work, is_board ? 0 : sizeof work, room, sizeof room, &filled);
    return NULL;
}

int main(int word_count, char **words) {
    pthread_attr_t attributes;
    pthread_t builder;
    if (word_count != 4) return 2;
    is_board = !strcmp(words[1], "board");
    uint8_t pips = (uint8_t)atoi(words[2]);
    size_t stack = 1024 * (size_t)atoi(words[3]);
    if (!stack) {
        build(&pips);
    } else {
        pthread_attr_init(&attributes);
        if (pthread_attr_setstacksize(&attributes, stack) ||
            pthread_create(&builder, &attributes, build, &pips))
            return 2;
        pthread_join(builder, NULL);
    }
    fwrite(room, 1, filled, stdout);
    return (int)status;
}
