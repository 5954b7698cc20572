/*
 * A small line controller: it loads one profile and writes four cards from it.
 *
 * Card 1 meets a jam after every move, and each time the operator lets it go on. Card 2 is wound back after three
 * moves, so that the next card is written from links as loaded. Card 3 is written by one run and accepted. Card 4 is
 * written on a blank that element 3 is on already; it is wound back once, then written by one run and accepted.
 */
#include <stdio.h>
#include <string.h>

#include "profile_walker.h"

#if PROFILE_WALKER_VERSION != 3
#error "these calls are those of version 3 of profile_walker.h"
#endif

static const char profile_text[] =
    "elements,references,start\n"
    "3,4,1\n"
    "from,to\n"
    "1,2\n"
    "1,3\n"
    "2,3\n"
    "3,1\n";

/* One profile at a time, in areas that serve every text. */
static uint16_t n, m, start;
static uint16_t after[PROFILE_WALKER_MAX_N + PROFILE_WALKER_MAX_M];
static uint16_t tail[PROFILE_WALKER_MAX_M];
static uint16_t marks[PROFILE_WALKER_MAX_N + PROFILE_WALKER_MAX_M];

/* The elements already on the blank. The area is lent, with length 0, also where there are none. */
static uint16_t before[PROFILE_WALKER_MAX_N];
static size_t before_words;

/* The links as loaded, to show that they come back. */
static uint16_t loaded_after[PROFILE_WALKER_MAX_N + PROFILE_WALKER_MAX_M];
static uint16_t loaded_tail[PROFILE_WALKER_MAX_M];

static uint16_t state[PROFILE_WALKER_STATE_WORDS];
static uint16_t events[PROFILE_WALKER_MOVE_EVENTS * PROFILE_WALKER_MAX_MOVES];

/* What a run or a single move sets. */
static uint32_t steps;
static size_t made;
static uint16_t reason;

#define WORDS(area) (sizeof(area) / sizeof((area)[0]))

static const char *const kinds[] = {
    "",
    "label",
    "advance tree",
    "advance nontree",
    "retreat nontree",
    "retreat tree",
    "scan",
    "traverse",
};

static const char *const phases[] = {
    "", "walking", "restoring", "ended", "winding back", "withdrawn", "accepted",
};

/* Reports a call that was turned back. */
static uint16_t report(const char *call, uint16_t number)
{
    if (number != 0) {
        printf("%s: refused,%u\n", call, (unsigned)number);
    }
    return number;
}

static void print_events(size_t count)
{
    size_t i;

    for (i = 0; i < count; i++) {
        const uint16_t *event = events + 3 * i;
        printf("  %s, reference %u, element %u\n", kinds[event[0]], (unsigned)event[1], (unsigned)event[2]);
    }
}

static void print_tails(const char *when)
{
    uint16_t i;

    printf("%s the tails are", when);
    for (i = 0; i < m; i++) {
        printf(" %u", (unsigned)tail[i]);
    }
    printf("\n");
}

static void print_marks(const char *when)
{
    uint16_t i;

    printf("%s the marks of elements are", when);
    for (i = 0; i < n; i++) {
        printf(" %u", (unsigned)marks[i]);
    }
    printf("\n");
}

static uint16_t phase(void)
{
    return state[PROFILE_WALKER_STATE_PHASE];
}

static const char *links(void)
{
    size_t after_bytes = (size_t)(n + m) * sizeof(after[0]);
    size_t tail_bytes = (size_t)m * sizeof(tail[0]);

    if (memcmp(after, loaded_after, after_bytes) == 0 && memcmp(tail, loaded_tail, tail_bytes) == 0) {
        return "as loaded";
    }
    return "bent";
}

static uint16_t load(const char *text)
{
    uint16_t number = profile_walker_read_profile((const uint8_t *)text, strlen(text), after, WORDS(after), tail,
                                                  WORDS(tail), &n, &m, &start);

    if (report("load", number) == 0) {
        memcpy(loaded_after, after, sizeof(after));
        memcpy(loaded_tail, tail, sizeof(tail));
    }
    return number;
}

static uint16_t open_card(void)
{
    uint16_t number = profile_walker_open(n, m, start, after, WORDS(after), tail, WORDS(tail), before, before_words,
                                          marks, WORDS(marks), events, WORDS(events), state, WORDS(state));

    if (report("open", number) == 0) {
        print_events(1);
    }
    return number;
}

static uint16_t move(void)
{
    uint16_t number = profile_walker_step(state, WORDS(state), after, WORDS(after), tail, WORDS(tail), marks,
                                          WORDS(marks), events, WORDS(events), &steps, &made, &reason);

    if (report("move", number) == 0) {
        print_events(made);
    }
    return number;
}

/* A winding order, and moves until the walk is withdrawn; how many they were, or -1. */
static int wind_back(void)
{
    int moves;

    if (report("wind back", profile_walker_roll_back(state, WORDS(state))) != 0) {
        return -1;
    }
    for (moves = 0; phase() != PROFILE_WALKER_WITHDRAWN; moves++) {
        if (move() != 0) {
            return -1;
        }
    }
    return moves;
}

/* One run with a budget that ends any walk. */
static int run_to_the_end(void)
{
    uint16_t number =
        profile_walker_run(state, WORDS(state), PROFILE_WALKER_MAX_MOVES, after, WORDS(after), tail, WORDS(tail), marks,
                           WORDS(marks), events, WORDS(events), &steps, &made, &reason);

    return report("run", number) != 0 || reason != PROFILE_WALKER_RUN_ENDED;
}

/* A jam halts the line after every move; the state, links and marks are all that the next move needs. */
static int card_with_jams(void)
{
    unsigned moves = 0;

    printf("card 1: a jam after every move\n");
    if (open_card() != 0) {
        return 1;
    }
    while (phase() != PROFILE_WALKER_ENDED) {
        if (move() != 0) {
            return 1;
        }
        moves++;
        if (phase() != PROFILE_WALKER_ENDED) {
            printf("jam after move %u, %s, links %s: go on\n", moves, phases[phase()], links());
        }
    }
    printf("card 1: %s, links %s\n", phases[phase()], links());
    printf("card 1: %u moves, %u elements, circular %u\n", moves, state[PROFILE_WALKER_STATE_NEXT] - 1u,
           (unsigned)state[PROFILE_WALKER_STATE_CIRCULAR]);
    return 0;
}

/* The operator has the profile wound back: a winding order, then moves until the walk is withdrawn. */
static int card_wound_back(void)
{
    unsigned moves = 0;
    int wound;

    printf("card 2: wound back after 3 moves\n");
    if (open_card() != 0) {
        return 1;
    }
    while (moves < 3) {
        if (move() != 0) {
            return 1;
        }
        moves++;
    }
    printf("jam after move %u, %s, links %s: wind back\n", moves, phases[phase()], links());
    print_tails("bent,");
    wound = wind_back();
    if (wound < 0) {
        return 1;
    }
    printf("card 2: %s after %d moves, links %s\n", phases[phase()], wound, links());
    print_tails("wound back,");
    return 0;
}

/* One run; then the panel counts the card. */
static int card_accepted(uint32_t *figure)
{
    printf("card 3: one run\n");
    if (open_card() != 0 || run_to_the_end() != 0) {
        return 1;
    }
    printf("card 3: %lu moves, %lu more events, links %s\n", (unsigned long)steps, (unsigned long)made, links());
    if (report("accept", profile_walker_accept(state, WORDS(state), figure)) != 0) {
        return 1;
    }
    printf("card 3: %s, the panel shows %lu\n", phases[phase()], (unsigned long)*figure);
    return 0;
}

/* The chip maker has written element 3: it is labelled from the start, and keeps its mark when the card is wound back. */
static int card_on_a_written_blank(uint32_t *figure)
{
    printf("card 4: element 3 is already on the blank\n");
    before[0] = 3;
    before_words = 1;
    if (open_card() != 0 || move() != 0) {
        return 1;
    }
    print_marks("jam after move 1,");
    if (wind_back() < 0) {
        return 1;
    }
    print_marks("wound back,");
    if (open_card() != 0 || run_to_the_end() != 0) {
        return 1;
    }
    print_events(made);
    print_marks("ended,");
    printf("card 4: %lu moves, circular %u, links %s\n", (unsigned long)steps,
           (unsigned)state[PROFILE_WALKER_STATE_CIRCULAR], links());
    if (report("accept", profile_walker_accept(state, WORDS(state), figure)) != 0) {
        return 1;
    }
    printf("card 4: %s, the panel shows %lu\n", phases[phase()], (unsigned long)*figure);
    return 0;
}

/* A list that does not rise, and one with the start on it. */
static int lists_turned_back(void)
{
    before[0] = 3;
    before[1] = 2;
    before_words = 2;
    if (open_card() != 17) {
        return 1;
    }
    before[0] = 1;
    return open_card() != 18;
}

/* A call that is turned back says why and changes nothing. */
static int refusals(uint32_t *figure)
{
    printf("turned back\n");
    if (report("accept again", profile_walker_accept(state, WORDS(state), figure)) != 9) {
        return 1;
    }
    if (move() != 9) {
        return 1;
    }
    if (load("elements,references,start\n1,0,1\nfrom;to\n") != 12) {
        return 1;
    }
    if (lists_turned_back() != 0) {
        return 1;
    }
    printf("the panel still shows %lu, links %s\n", (unsigned long)*figure, links());
    return 0;
}

int main(void)
{
    uint32_t figure = 0; /* a new record */

    profile_walker_shift_start(&figure);
    if (load(profile_text) != 0) {
        return 1;
    }
    printf("loaded: %u elements, %u references, start %u\n", (unsigned)n, (unsigned)m, (unsigned)start);
    return card_with_jams() || card_wound_back() || card_accepted(&figure) || card_on_a_written_blank(&figure) ||
           refusals(&figure);
}
