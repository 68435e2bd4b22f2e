/*
 * Answers each line of standard input, as our program `trial_runs` does with the word `each`: how many nanoseconds one call of the usual
 * program's own solver takes, and how many solutions it tells, at most 2. A line is a game, a class if there is one, and a game ID.
 *
 * It is one program for each game, since the two files have the same names in them: built with -DTOWERS, or without, in front of the files
 * of the usual program that `bench/usual/build` names.
 */
#include <stdint.h>
#include <stdio.h>
#include <string.h>
#include <time.h>

#ifdef TOWERS
#include "towers.c"

/* Its calculation is that of its own Solve: the solver at its greatest difficulty, on the givens. */
static int solutions(const game_state *state)
{
    int w = state->par.w, answer;
    digit *numbers = snewn(w * w, digit);

    memcpy(numbers, state->clues->immutable, w * w);
    answer = solver(w, state->clues->clues, numbers, DIFFCOUNT - 1);
    sfree(numbers);
    return answer == diff_impossible ? 0 : answer == diff_ambiguous ? 2 : 1;
}
#else
#include "unequal.c"

static int solutions(const game_state *state)
{
    game_state *solved = dup_game(state);
    int answer = solver_state(solved, DIFFCOUNT - 1);

    free_game(solved);
    return answer < 0 ? 0 : answer;
}
#endif

/* As many calls as fill so many nanoseconds are timed together, so that the clock's own cost doesn't count. */
#define BATCH_TIME 20000

/* There are at most so many batches, and none begins after so many nanoseconds. The fastest counts. */
#define BATCHES 15
#define ENOUGH 1000000

static uint64_t now(void)
{
    struct timespec time;

    clock_gettime(CLOCK_MONOTONIC, &time);
    return (uint64_t)time.tv_sec * 1000000000 + time.tv_nsec;
}

/* The mean time of so many calls. */
static uint64_t batch(const game_state *state, uint64_t calls, int *found)
{
    uint64_t start = now();
    uint64_t i;

    for (i = 0; i < calls; i++)
        *found = solutions(state);
    return (now() - start) / calls;
}

static void answer(const game_state *state)
{
    int found, i;
    uint64_t fastest = batch(state, 1, &found);
    uint64_t calls = BATCH_TIME / (fastest ? fastest : 1) + 1;
    uint64_t spent = fastest;

    for (i = 0; i < BATCHES && spent <= ENOUGH; i++) {
        uint64_t mean = batch(state, calls, &found);

        fastest = mean < fastest ? mean : fastest;
        spent += mean * calls;
    }
    printf("%llu %d\n", (unsigned long long)fastest, found);
}

/* The puzzle of an ID, or nothing where it isn't one. The colon in it is overwritten. */
static game_state *puzzle_of(char *id)
{
    char *description = strchr(id, ':');
    game_params *params = default_params();
    game_state *state = NULL;

    if (description) {
        *description++ = '\0';
        decode_params(params, id);
        if (!validate_params(params, false) && !validate_desc(params, description))
            state = new_game(NULL, params, description);
    }
    free_params(params);
    return state;
}

int main(void)
{
    static char line[4096];
    game_state *state;
    char *id;

    setvbuf(stdout, NULL, _IOLBF, 0);
    while (fgets(line, sizeof line, stdin)) {
        line[strcspn(line, "\n")] = '\0';
        id = strrchr(line, ' ');
        state = puzzle_of(id ? id + 1 : line);
        if (state) {
            answer(state);
            free_game(state);
        } else {
            puts("cannot read it");
        }
    }
    return 0;
}
