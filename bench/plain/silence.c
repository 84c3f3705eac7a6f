/* Random meetings of one leaf until no meeting changes anything, by counts. Meetings that change nothing are skipped.

   Reads the numbers of states and of moves, the moves p q r s, how many agents are in each state, the number of runs,
   a seed and the most changes of a run. Prints for each run its meetings up to the last change, and 1 where it came to
   its end, 0 where it made too many changes. Build: cc -O2 -o silence silence.c -lm */
#include <math.h>
#include <stdint.h>
#include <stdio.h>
#include <stdlib.h>
#include <string.h>

typedef struct { int from[2], to[2]; } Move;

static int state_count, move_count;
static Move *moves;
static int **moves_of, *degree; /* the moves that take each state */
static int64_t *start, *crowd;
static double *weights, total; /* how many pairs each move has; whole numbers below 2^53 */
static uint64_t words[4];      /* of xoshiro256** */

static uint64_t turned(uint64_t x, int k) { return (x << k) | (x >> (64 - k)); }

static uint64_t next(void) {
  uint64_t result = turned(words[1] * 5, 7) * 9, shifted = words[1] << 17;
  words[2] ^= words[0];
  words[3] ^= words[1];
  words[1] ^= words[2];
  words[0] ^= words[3];
  words[2] ^= shifted;
  words[3] = turned(words[3], 45);
  return result;
}

static double uniform(void) { return (double)(next() >> 11) * 0x1p-53; }

/* Fills the generator's words by splitmix64. */
static void seed_words(uint64_t seed) {
  for (int i = 0; i < 4; i++) {
    uint64_t z = seed += 0x9e3779b97f4a7c15u;
    z = (z ^ (z >> 30)) * 0xbf58476d1ce4e5b9u;
    z = (z ^ (z >> 27)) * 0x94d049bb133111ebu;
    words[i] = z ^ (z >> 31);
  }
}

static double pairs_of(const Move *move) {
  double p = (double)crowd[move->from[0]], q = (double)crowd[move->from[1]];
  return move->from[0] == move->from[1] ? p * (p - 1) / 2 : p * q;
}

static int64_t number(void) {
  long long read;
  if (scanf("%lld", &read) != 1) exit(2);
  return read;
}

static void *room(size_t count, size_t size) {
  void *found = calloc(count + 1, size);
  if (!found) exit(3);
  return found;
}

static void read_leaf(void) {
  state_count = (int)number();
  move_count = (int)number();
  moves = room((size_t)move_count, sizeof *moves);
  weights = room((size_t)move_count, sizeof *weights);
  start = room((size_t)state_count, sizeof *start);
  crowd = room((size_t)state_count, sizeof *crowd);
  degree = room((size_t)state_count, sizeof *degree);
  moves_of = room((size_t)state_count, sizeof *moves_of);
  for (int q = 0; q < state_count; q++) moves_of[q] = room((size_t)move_count, sizeof **moves_of);
  for (int t = 0; t < move_count; t++) {
    for (int i = 0; i < 4; i++) (i < 2 ? moves[t].from : moves[t].to)[i % 2] = (int)number();
    int p = moves[t].from[0], q = moves[t].from[1];
    moves_of[p][degree[p]++] = t;
    if (p != q) moves_of[q][degree[q]++] = t;
  }
  for (int q = 0; q < state_count; q++) start[q] = number();
}

/* Puts the weights right of all moves that take this state. */
static void weigh(int state) {
  for (int i = 0; i < degree[state]; i++) {
    int t = moves_of[state][i];
    double weight = pairs_of(&moves[t]);
    total += weight - weights[t];
    weights[t] = weight;
  }
}

/* A move by its weight; `total` isn't 0. */
static const Move *chosen(void) {
  double left = floor(uniform() * total);
  int t = 0;
  while (left >= weights[t]) left -= weights[t++];
  return &moves[t];
}

static void make(const Move *move) {
  for (int i = 0; i < 2; i++) crowd[move->from[i]]--, crowd[move->to[i]]++;
  for (int i = 0; i < 2; i++) weigh(move->from[i]), weigh(move->to[i]);
}

/* One run: its meetings, and whether it came to its end. */
static int run(int64_t most, double *meetings) {
  double agents = 0;
  memcpy(crowd, start, sizeof *crowd * (size_t)state_count);
  for (int q = 0; q < state_count; q++) agents += (double)crowd[q];
  double pairs = agents * (agents - 1) / 2;
  total = 0;
  for (int t = 0; t < move_count; t++) total += weights[t] = pairs_of(&moves[t]);
  *meetings = 0;
  for (int64_t changes = 0; total > 0; changes++) {
    if (changes == most) return 0;
    double chance = total / pairs;
    *meetings += chance >= 1 ? 1 : 1 + floor(log1p(-uniform()) / log1p(-chance));
    make(chosen());
  }
  return 1;
}

int main(void) {
  read_leaf();
  int64_t runs = number();
  uint64_t seed = (uint64_t)number();
  int64_t most = number();
  for (int64_t i = 0; i < runs; i++) {
    double meetings;
    seed_words(seed + (uint64_t)i * 0xd1342543de82ef95u);
    int ended = run(most, &meetings);
    printf("%.0f %d\n", meetings, ended);
    fflush(stdout);
  }
  return 0;
}
