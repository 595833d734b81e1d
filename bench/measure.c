// Timing calls: rounds of equal calls, of which the least time counts.
#define _POSIX_C_SOURCE 199309L
#include "measure.h"

#include <time.h>

enum {
    ROUNDS = 25,
    ROUND_TIME = 5000000,    // nanoseconds that a round takes at the least
    LONGEST_TIME = 500000000 // nanoseconds after which no further round begins
};

// The rounds of one engine on one call.
typedef struct {
    Engine engine;
    const Call *call;
    uint32_t calls; // in a round
    double spent;
    double least;
} Rounds;

// The processor time of this process, which waiting for other processes does not lengthen.
static double now(void) {
    struct timespec time;
    clock_gettime(CLOCK_PROCESS_CPUTIME_ID, &time);
    return (double)time.tv_sec * 1e9 + (double)time.tv_nsec;
}

// Runs a round, and returns how long it took.
static double run_round(Rounds *rounds) {
    static Answer answer;
    double start = now();
    for (uint32_t index = 0; index < rounds->calls; index++) {
        engine_run(rounds->engine, rounds->call, &answer);
    }
    double time = now() - start;
    double time_of_call = time / rounds->calls;
    rounds->spent += time;
    if (time_of_call < rounds->least) {
        rounds->least = time_of_call;
    }
    return time;
}

// Finds how many calls fill a round; the rounds run meanwhile count.
static Rounds start_rounds(Engine engine, const Call *call) {
    Rounds rounds = {.engine = engine, .call = call, .calls = 1, .least = 1e300};
    while (run_round(&rounds) < ROUND_TIME) {
        rounds.calls *= 2;
    }
    return rounds;
}

static void next_round(Rounds *rounds) {
    if (rounds->spent < LONGEST_TIME) {
        run_round(rounds);
    }
}

double measure(Engine engine, const Call *call) {
    Rounds rounds = start_rounds(engine, call);
    for (int round = 1; round < ROUNDS; round++) {
        next_round(&rounds);
    }
    return rounds.least;
}

void measure_both(const Call *call, double time[ENGINE_COUNT]) {
    Rounds library = start_rounds(LIBRARY, call);
    Rounds second = start_rounds(SECOND, call);
    for (int round = 1; round < ROUNDS; round++) {
        next_round(&library);
        next_round(&second);
    }
    time[LIBRARY] = library.least;
    time[SECOND] = second.least;
}
