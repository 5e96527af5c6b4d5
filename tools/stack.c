/* The stack that each question takes on the trace on standard input: it runs on a thread whose stack was filled with a pattern,
   and the bytes that changed are counted, less those of an empty thread. Not a test.

       tools/archive
       x86_64-linux-gnu-gcc -O2 -static -pthread -Iinclude -o stack tools/stack.c target/staticlib/libcabi.a
       qemu-x86_64 stack <FILE          (or, on x86-64, ./stack <FILE) */
#define _GNU_SOURCE
#include <pthread.h>
#include <stdint.h>
#include <stdio.h>
#include <string.h>

#include "mirzhelo.h"

enum { ROOM = 1 << 20, PATTERN = 0xaa };

static uint8_t file[12309], buffer[1024], stack[ROOM] __attribute__((aligned(4096)));
static size_t len;

static void *nothing(void *x) { return x; }

static void *verdict(void *x) { return mz_verdict(file, len, buffer, sizeof buffer), x; }

static void *knowledge(void *x) {
    size_t events = len < 20 ? 0 : file[18] + 256 * file[19];
    return mz_knowledge(file, len, events, buffer, sizeof buffer), x;
}

static void *fault(void *x) { return mz_fault(file, len), x; }

static long taken(void *(*question)(void *)) {
    pthread_attr_t attr;
    pthread_t thread;
    long untouched = 0;
    memset(stack, PATTERN, ROOM);
    pthread_attr_init(&attr);
    pthread_attr_setstack(&attr, stack, ROOM);
    if (pthread_create(&thread, &attr, question, NULL)) return -1;
    pthread_join(thread, NULL);
    while (untouched < ROOM && stack[untouched] == PATTERN) untouched++;
    return ROOM - untouched;
}

int main(void) {
    len = fread(file, 1, sizeof file, stdin);
    long empty = taken(nothing);
    printf("verdict %ld, knowledge %ld, fault %ld\n", taken(verdict) - empty, taken(knowledge) - empty, taken(fault) - empty);
    return 0;
}
