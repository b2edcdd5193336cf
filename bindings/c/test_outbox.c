/* The outbox of rolgunai_threads.h: in which order it sends what it is given, as rows; turns that are put while one is
 * sent; threads that put turns at once. The last line is 'N passed, M failed', and the status is 1 where one failed. */
#include "rolgunai_threads.h"

#include <stdatomic.h>
#include <stdio.h>
#include <stdlib.h>
#include <string.h>

static int passed, failed;
static char sent[256];

static void check_same(const char *found, const char *wanted, const char *what) {
  if (strcmp(found, wanted) == 0) passed++;
  else {
    failed++;
    printf("FAILED: %s\n  it is    %s\n  and not  %s\n", what, found, wanted);
  }
}

/* Turns in the order in which they are put: of changes by their numbers, and of other calls with an n before the number
 * of changes that they come after, and a letter behind it. */
static const struct {
  const char *put, *sent;
} rows[] = {
    {"1 2 3", "1 2 3"},
    {"3 2 1", "1 2 3"},
    {"2 1 4 3", "1 2 3 4"},
    {"2 3 4", ""},
    {"3 1", "1"},
    {"n0", "n0"},
    {"n0 n1 1", "n0 1 n1"},
    {"n1b n1a 1", "1 n1b n1a"},
    {"2 n1 1", "1 n1 2"},
    {"n2 2 n1 1 3", "1 n1 2 n2 3"},
    {"n3 3 1 2", "1 2 3 n3"},
    {"1 n1 n0", "1 n1 n0"},
    {"4 n5 n2 5 2 n4 3 1", "1 2 n2 3 4 n4 5 n5"},
};

enum { MOST = 16 };
static rolgunai_turn turns[MOST];
static char labels[MOST][8];

static void note(rolgunai_turn *turn) {
  if (sent[0]) strcat(sent, " ");
  strcat(sent, turn->with);
}

static void check_row(const char *put, const char *wanted) {
  rolgunai_outbox outbox = ROLGUNAI_OUTBOX_INITIALIZER;
  char words[64];
  size_t count = 0;
  sent[0] = 0;
  strcpy(words, put);
  for (char *word = strtok(words, " "); word; word = strtok(NULL, " "), count++) {
    rolgunai_turn *turn = &turns[count];
    strcpy(labels[count], word);
    turn->is_change = word[0] != 'n';
    turn->number = strtoull(word + !turn->is_change, NULL, 10);
    turn->send = note;
    turn->with = labels[count];
    rolgunai_outbox_put(&outbox, turn);
  }
  check_same(sent, wanted, put);
}

/* What is sent may put turns: 1 puts 3 and 2, and 2 puts 4. */
static rolgunai_outbox nested = ROLGUNAI_OUTBOX_INITIALIZER;

static void put_nested(int number);

static void note_and_put(rolgunai_turn *turn) {
  note(turn);
  if (turn->number == 1) put_nested(3), put_nested(2);
  if (turn->number == 2) put_nested(4);
  strcat(sent, ".");
}

static void put_nested(int number) {
  rolgunai_turn *turn = &turns[number];
  sprintf(labels[number], "%d", number);
  *turn = (rolgunai_turn){(uint64_t)number, 1, note_and_put, labels[number], NULL};
  rolgunai_outbox_put(&nested, turn);
}

/* Threads put so many turns, in an order of chance. */
enum { TURNS = 40000, THREADS = 4 };
static rolgunai_turn many[TURNS];
static uint64_t next_number = 1; /* read and written by whoever sends */
static _Atomic int next_turn, are_inside, wrong;
static rolgunai_outbox shared = ROLGUNAI_OUTBOX_INITIALIZER;

static void count(rolgunai_turn *turn) {
  if (are_inside++ || turn->number != next_number++) wrong++;
  are_inside--;
}

static void *puts_many(void *of) {
  for (int at; (at = next_turn++) < TURNS;) rolgunai_outbox_put(&shared, &many[at]);
  return of;
}

static void threads(void) {
  pthread_t all[THREADS];
  uint32_t chance = 1;
  for (int i = 0; i < TURNS; i++) many[i] = (rolgunai_turn){(uint64_t)i + 1, 1, count, NULL, NULL};
  for (int i = TURNS - 1; i > 0; i--) { /* each has its place within some hundreds */
    chance = chance * 1664525 + 1013904223;
    const int other = i > 300 ? i - (int)(chance >> 24) : 0;
    const uint64_t number = many[i].number;
    many[i].number = many[other].number;
    many[other].number = number;
  }
  for (int i = 0; i < THREADS; i++) pthread_create(&all[i], NULL, puts_many, NULL);
  for (int i = 0; i < THREADS; i++) pthread_join(all[i], NULL);
  char text[64];
  sprintf(text, "%d wrong, %d sent", wrong, (int)next_number - 1);
  check_same(text, "0 wrong, 40000 sent", "threads that put turns at once");
}

int main(void) {
  for (size_t i = 0; i < sizeof rows / sizeof *rows; i++) check_row(rows[i].put, rows[i].sent);
  sent[0] = 0;
  put_nested(1);
  check_same(sent, "1. 2. 3. 4.", "turns that are put while one is sent");
  threads();
  printf("%d passed, %d failed\n", passed, failed);
  return failed != 0;
}
