/* A plain simulator of agents: an array of states, a random pair for each meeting.
   agents MOST < TABLE: S, then for each ordered pair of states the number of results and these, then the S counts. It stops where no
   pair of states that are there changes anything, looked at after each n meetings, or after MOST meetings.
   Prints meetings, changes, seconds of a processor. */
#include <stdint.h>
#include <stdio.h>
#include <stdlib.h>
#include <time.h>

enum { MOST_STATES = 32, MOST_RESULTS = 4 };

static uint64_t s[4];
static int states, results[MOST_STATES][MOST_STATES];
static unsigned char made[MOST_STATES][MOST_STATES][MOST_RESULTS][2];
static long counts[MOST_STATES];

static inline uint64_t rotl(uint64_t x, int k) { return (x << k) | (x >> (64 - k)); }

/* xoshiro256** of Blackman and Vigna */
static inline uint64_t next(void) {
    uint64_t result = rotl(s[1] * 5, 7) * 9, t = s[1] << 17;
    s[2] ^= s[0]; s[3] ^= s[1]; s[1] ^= s[2]; s[0] ^= s[3]; s[2] ^= t; s[3] = rotl(s[3], 45);
    return result;
}

static inline uint64_t below(uint64_t n) { return (uint64_t)(((unsigned __int128)next() * n) >> 64); }

static int is_terminal(void) {
    for (int p = 0; p < states; p++)
        for (int q = 0; q < states; q++)
            if (results[p][q] && counts[p] && counts[q] - (p == q) > 0) return 0;
    return 1;
}

static unsigned char *read_table(long *agents) {
    if (scanf("%d", &states) != 1 || states > MOST_STATES) exit(2);
    for (int p = 0; p < states; p++)
        for (int q = 0; q < states; q++) {
            if (scanf("%d", &results[p][q]) != 1 || results[p][q] > MOST_RESULTS) exit(2);
            for (int k = 0; k < results[p][q]; k++)
                if (scanf("%hhu %hhu", &made[p][q][k][0], &made[p][q][k][1]) != 2) exit(2);
        }
    *agents = 0;
    for (int q = 0; q < states; q++) {
        if (scanf("%ld", &counts[q]) != 1) exit(2);
        *agents += counts[q];
    }
    unsigned char *crowd = malloc(*agents), *at = crowd;
    if (!crowd) exit(3);
    for (int q = 0; q < states; q++)
        for (long k = 0; k < counts[q]; k++) *at++ = q;
    return crowd;
}

int main(int argc, char **argv) {
    long n, most = argc > 1 ? atol(argv[1]) : 1, meetings = 0, changes = 0;
    unsigned char *crowd = read_table(&n);
    for (int i = 0; i < 4; i++) s[i] = 0x9E3779B97F4A7C15u * (i + 1);
    clock_t start = clock();
    while (meetings < most && !is_terminal()) {
        long stop = meetings + n < most ? meetings + n : most;
        for (; meetings < stop; meetings++) {
            uint64_t i = below(n), j = below(n - 1);
            j += j >= i;
            int p = crowd[i], q = crowd[j], of = results[p][q];
            if (!of) continue;
            int k = of == 1 ? 0 : (int)below(of);
            counts[p]--; counts[q]--;
            crowd[i] = made[p][q][k][0]; crowd[j] = made[p][q][k][1];
            counts[crowd[i]]++; counts[crowd[j]]++;
            changes++;
        }
    }
    printf("%ld %ld %.6f\n", meetings, changes, (double)(clock() - start) / CLOCKS_PER_SEC);
    return 0;
}
