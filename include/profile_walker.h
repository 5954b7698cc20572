/*
 * The profile walker, for line controllers.
 *
 * Build the library by `rt lib` in crates/profile_walker; link crates/profile_walker/out/libprofile_walker.a.
 * It needs no other library, allocates nothing, keeps nothing between calls and never blocks.
 * docs/INTEGRATION.md says in which order to call, and what to do at a jam.
 *
 * Elements (vertices) are nodes 1 to n, references (edges) are nodes n+1 to n+m, 0 is null;
 * n is 1 to 1,000 and m is 0 to 4,000.
 *
 * Areas. A pointer that a length follows is a lent area; the length counts its items: 16-bit words, 32-bit
 * words for a tally, bytes for a text or an output. The comment of a call says how many it needs. An area
 * that is longer serves as well: after words past n+m, tail words past m, marks past n+m, event words past the
 * last event and bytes past those printed are never written. No pointer is null, even where its length is 0;
 * each is aligned for its items; and an area or word that a call may write overlaps no other of that call.
 * `const` areas are only read. These few things nobody can test from inside, so the library relies on them;
 * every value in every area may be anything at all.
 *
 * Elements already on the blank. `before` lists the elements that the chip maker has written: element numbers,
 * strictly rising, the start not among them; length 0 where there are none, and then too its pointer is not null.
 * The list may have any length: none is too short, and one that is not as it must be is number 17 or 18. These
 * elements are labelled before the start is, without an event, and their marks are 65,535. A reference to one is
 * nontree and makes no profile circular; their own references are not met; and in a queue, parent or increment
 * area they stand as the unreached do.
 *
 * Numbers. A call returns 0 where it is taken, else the number with which it is turned back. A call that is
 * turned back has changed nothing, no area and no word. The conditions are tried in the order given with each call:
 *
 *    1  n is 0 or over 1,000
 *    2  m is over 4,000
 *    3  a lent area is shorter than stated
 *    4  the start is not in 1 to n
 *    5  an after word is neither 0 nor a reference; a first position breaks its rule
 *    6  a tail, or a from or to in a text, is not in 1 to n
 *    7  a reference is not on exactly one list, once
 *    8  a state field, or a word that the move reads, is out of kind
 *    9  a single move or winding order in phase 3, 5 or 6; accepting in phase 5 or 6
 *   10  accepting in phase 1, 2 or 4
 *   11  accepting when the figure is 999,999 or more
 *   12  a text not in its form
 *   13  a text over 65,536 bytes
 *   17  the list of elements already on the blank is not strictly rising, or leaves 1 to n
 *   18  the start is on that list
 */
#ifndef PROFILE_WALKER_H
#define PROFILE_WALKER_H

#include <stddef.h>
#include <stdint.h>

#ifdef __cplusplus
extern "C" {
#endif

/*
 * Raised whenever a signature changes, or what a call does. 1 was the header without this number, whose calls took no
 * list of elements already on the blank. 2 had no profile_walker_refusal_line: there profile_walker_walk_text printed
 * the line of a refusal itself, and set *printed even then. C links by name alone: compile everything that calls the
 * library with this header.
 */
#define PROFILE_WALKER_VERSION 3

/* Limits and lengths. */
enum {
    PROFILE_WALKER_MAX_N = 1000,
    PROFILE_WALKER_MAX_M = 4000,
    PROFILE_WALKER_MAX_TEXT = 65536,  /* bytes */
    PROFILE_WALKER_MAX_MOVES = 9000,  /* 2m + n at the limits: a run with this budget ends any walk */
    PROFILE_WALKER_STATE_WORDS = 9,
    PROFILE_WALKER_TALLY_WORDS = 7,
    PROFILE_WALKER_OPEN_EVENTS = 3,   /* words for the event of an opening */
    PROFILE_WALKER_MOVE_EVENTS = 6,   /* words for the events of one move */
    PROFILE_WALKER_REFUSAL_BYTES = 14, /* bytes for the line of any refusal */
    /* profile_walker_walk_text needs these, whatever the text: */
    PROFILE_WALKER_TEXT_AFTER = 5000,
    PROFILE_WALKER_TEXT_TAIL = 4000,
    PROFILE_WALKER_TEXT_MARKS = 5000,
    PROFILE_WALKER_TEXT_EVENTS = 54003,
    PROFILE_WALKER_TEXT_OUTPUT = 180066 /* bytes */
};

/* The words of a state. */
enum {
    PROFILE_WALKER_STATE_N = 0,
    PROFILE_WALKER_STATE_M = 1,
    PROFILE_WALKER_STATE_START = 2,
    PROFILE_WALKER_STATE_V = 3,        /* the element being scanned */
    PROFILE_WALKER_STATE_E = 4,        /* the reference next to traverse, or 0 */
    PROFILE_WALKER_STATE_F = 5,        /* the trailer */
    PROFILE_WALKER_STATE_PHASE = 6,
    PROFILE_WALKER_STATE_NEXT = 7,     /* the next label number */
    /* 1 where a reference was met that leads to an element labelled and not yet scanned, else 0; once the walk has
     * ended, 1 exactly if some element reached has a path of one reference or more back to itself that keeps to
     * elements not on the blank: */
    PROFILE_WALKER_STATE_CIRCULAR = 8
};

/* Phases. */
enum {
    PROFILE_WALKER_WALKING = 1,
    PROFILE_WALKER_RESTORING = 2,
    PROFILE_WALKER_ENDED = 3,
    PROFILE_WALKER_WINDING_BACK = 4,
    PROFILE_WALKER_WITHDRAWN = 5,
    PROFILE_WALKER_ACCEPTED = 6
};

/* Why a run stopped. */
enum {
    PROFILE_WALKER_NO_REASON = 0, /* a single move */
    PROFILE_WALKER_RUN_ENDED = 1, /* phase 3, 5 or 6: there is no move to come */
    PROFILE_WALKER_RUN_SPENT = 2, /* the budget is spent */
    PROFILE_WALKER_RUN_STUCK = 3  /* a word that the move to come reads is out of kind; the earlier moves stand */
};

/* Kinds of event. An event is three words: kind, reference, element. */
enum {
    PROFILE_WALKER_LABEL = 1,
    PROFILE_WALKER_ADVANCE_TREE = 2,
    PROFILE_WALKER_ADVANCE_NONTREE = 3,
    PROFILE_WALKER_RETREAT_NONTREE = 4,
    PROFILE_WALKER_RETREAT_TREE = 5,
    PROFILE_WALKER_SCAN = 6,
    PROFILE_WALKER_TRAVERSE = 7
};

/* ---- Profiles ---- */

/*
 * Checks a linked image: n+m after words, m tail words. It writes nothing.
 * 1, 2, 3, 5, 6, 7.
 */
uint16_t profile_walker_check_image(uint16_t n, uint16_t m,
                                    const uint16_t *after, size_t after_words,
                                    const uint16_t *tail, size_t tail_words);

/*
 * Reads a profile's text into the areas of a linked image: n+m after words and m tail words, by the n and m of
 * the text; 5,000 and 4,000 serve every text. A number in the text may have zeros before it, up to five digits in
 * all. *n, *m and *start are set where the text is taken.
 * 13, 12, 1, 2, 3, 4, 6.
 */
uint16_t profile_walker_read_profile(const uint8_t *text, size_t text_bytes,
                                     uint16_t *after, size_t after_words,
                                     uint16_t *tail, size_t tail_words,
                                     uint16_t *n, uint16_t *m, uint16_t *start);

/*
 * Converts a linked image (n+m after words, m tail words) to array form: n+1 first positions, m tails, and the
 * reference number of each of the m positions. The references of element u stand at positions firsts[u-1] to
 * firsts[u]-1, counted from 1.
 * 1, 2, 3, 5, 6, 7.
 */
uint16_t profile_walker_to_array(uint16_t n, uint16_t m,
                                 const uint16_t *after, size_t after_words,
                                 const uint16_t *tail, size_t tail_words,
                                 uint16_t *firsts, size_t firsts_words,
                                 uint16_t *tails, size_t tails_words,
                                 uint16_t *numbers, size_t numbers_words);

/*
 * Prints the folded walk of the profile that a text says, as the program `walk` does: its events, then elements
 * reached, moves and circular. It needs areas of 5,000, 4,000, 5,000 and 54,003 words and 180,066 bytes,
 * whatever the text, and leaves what a walk leaves: the links as loaded, the marks, the events from the first
 * word on. *printed is set where the text is taken: how many bytes of the output were printed. A text that is turned
 * back prints nothing; profile_walker_refusal_line prints its line.
 * 13, 12, 1, 2, 3, 4, 6.
 */
uint16_t profile_walker_walk_text(const uint8_t *text, size_t text_bytes,
                                  uint16_t *after, size_t after_words,
                                  uint16_t *tail, size_t tail_words,
                                  uint16_t *marks, size_t marks_words,
                                  uint16_t *events, size_t events_words,
                                  uint8_t *output, size_t output_bytes,
                                  size_t *printed);

/*
 * Prints the line that the program `walk` prints of a refusal, as `refused,6` and a line feed, at the front of the
 * output, and sets *printed to its bytes; the bytes behind it stay. Any number has a line, 0 too. 14 bytes serve every
 * number; 3 where the output is shorter than the line.
 * 3.
 */
uint16_t profile_walker_refusal_line(uint16_t number,
                                     uint8_t *output, size_t output_bytes,
                                     size_t *printed);

/* ---- Whole walks ----
 *
 * Each needs n+m marks, 6(n+m) event words and 7 words for the tally, and takes a list of elements already on the
 * blank. Marks at the end: 65,535 for these, 1 for the start, then 2, 3 and on in order of labelling, 0 for the
 * rest. Event words past the last event stay as they were; the number of events is the sum of the tally, which
 * counts the events by kind, kind 1 first.
 */

/* Depth-first, recursive: n+m after words, m tail words. It nests up to n calls: see docs/INTEGRATION.md for the
 * stack. 1, 2, 3, 4, 5, 6, 7, 17, 18. */
uint16_t profile_walker_dfs_recursive(uint16_t n, uint16_t m, uint16_t start,
                                      const uint16_t *after, size_t after_words,
                                      const uint16_t *tail, size_t tail_words,
                                      const uint16_t *before, size_t before_words,
                                      uint16_t *marks, size_t marks_words,
                                      uint16_t *events, size_t events_words,
                                      uint32_t *tally, size_t tally_words);

/* Depth-first, with n parent words: at the end the tree reference into each element's parent, 0 for the start, its
 * children and the unreached. 1, 2, 3, 4, 5, 6, 7, 17, 18. */
uint16_t profile_walker_dfs_parent(uint16_t n, uint16_t m, uint16_t start,
                                   const uint16_t *after, size_t after_words,
                                   const uint16_t *tail, size_t tail_words,
                                   const uint16_t *before, size_t before_words,
                                   uint16_t *marks, size_t marks_words,
                                   uint16_t *parents, size_t parents_words,
                                   uint16_t *events, size_t events_words,
                                   uint32_t *tally, size_t tally_words);

/* Depth-first, over the array form: n+1 first positions, m tails, n increments. Events name position p as n+p. The
 * tails are written while the walk is under way, and are as they were when the call returns. 1, 2, 3, 4, 5, 6,
 * 17, 18. */
uint16_t profile_walker_dfs_array(uint16_t n, uint16_t m, uint16_t start,
                                  const uint16_t *firsts, size_t firsts_words,
                                  uint16_t *tails, size_t tails_words,
                                  const uint16_t *before, size_t before_words,
                                  uint16_t *marks, size_t marks_words,
                                  uint16_t *increments, size_t increments_words,
                                  uint16_t *events, size_t events_words,
                                  uint32_t *tally, size_t tally_words);

/* Breadth-first, with n queue words: at the end the elements in order of labelling, then 0. 1, 2, 3, 4, 5, 6, 7, 17,
 * 18. */
uint16_t profile_walker_bfs_queue(uint16_t n, uint16_t m, uint16_t start,
                                  const uint16_t *after, size_t after_words,
                                  const uint16_t *tail, size_t tail_words,
                                  const uint16_t *before, size_t before_words,
                                  uint16_t *marks, size_t marks_words,
                                  uint16_t *queue, size_t queue_words,
                                  uint16_t *events, size_t events_words,
                                  uint32_t *tally, size_t tally_words);

/* Breadth-first, the queue folded into the links. The after words are written while the walk is under way, and are
 * as they were when the call returns. 1, 2, 3, 4, 5, 6, 7, 17, 18. */
uint16_t profile_walker_bfs_folded(uint16_t n, uint16_t m, uint16_t start,
                                   uint16_t *after, size_t after_words,
                                   const uint16_t *tail, size_t tail_words,
                                   const uint16_t *before, size_t before_words,
                                   uint16_t *marks, size_t marks_words,
                                   uint16_t *events, size_t events_words,
                                   uint32_t *tally, size_t tally_words);

/* ---- The folded depth-first walk, move by move ----
 *
 * A state is nine words (see above). From the opening to phase 3 or 5 the links are bent, and nobody else writes
 * links, marks or state.
 *
 * Marks. An element that is labelled gets its label number plus 32,768; its scan leaves the remainder by 32,768, the
 * number alone. So a mark from 32,768 to 65,534 is of an element not yet scanned, 65,535 is of one already on the
 * blank, and in phase 3 the marks are those of a whole walk. Winding back leaves marks alone before its last move,
 * which clears the n marks of elements, but for those of 65,535.
 *
 * Only the opening takes the list of elements already on the blank: from then on their marks say it.
 */

/*
 * Opens a walk: checks the image, clears the n+m marks, sets those of the elements already on the blank to 65,535,
 * labels the start (mark 32,769), writes one event (3 words) and the state (9 words). n+m after words, m tail words.
 * 1, 2, 3 (all areas, the state's too), 4, 5, 6, 7, 17, 18.
 */
uint16_t profile_walker_open(uint16_t n, uint16_t m, uint16_t start,
                             const uint16_t *after, size_t after_words,
                             const uint16_t *tail, size_t tail_words,
                             const uint16_t *before, size_t before_words,
                             uint16_t *marks, size_t marks_words,
                             uint16_t *events, size_t events_words,
                             uint16_t *state, size_t state_words);

/*
 * Makes one move. By the state's n and m: n+m after words, m tail words, n+m marks; 6 event words. Where the call
 * is taken, *steps is 1, *made is the number of events written (0, 1 or 2), *reason is 0.
 * 3 where the state has fewer than 9 words; then 1, 2, 3, 4, 8, 9.
 */
uint16_t profile_walker_step(uint16_t *state, size_t state_words,
                             uint16_t *after, size_t after_words,
                             uint16_t *tail, size_t tail_words,
                             uint16_t *marks, size_t marks_words,
                             uint16_t *events, size_t events_words,
                             uint32_t *steps, size_t *made, uint16_t *reason);

/*
 * Makes moves up to a budget: as profile_walker_step, with 6 event words for each move of the budget. Where the call
 * is taken, *steps is the number of moves made, *made the number of events written, *reason why it stopped.
 * 3 where the state has fewer than 9 words; then 1, 2, 3, 4, 8.
 */
uint16_t profile_walker_run(uint16_t *state, size_t state_words, uint32_t budget,
                            uint16_t *after, size_t after_words,
                            uint16_t *tail, size_t tail_words,
                            uint16_t *marks, size_t marks_words,
                            uint16_t *events, size_t events_words,
                            uint32_t *steps, size_t *made, uint16_t *reason);

/*
 * Orders the walk to be wound back: phase 4, from which further moves lead to phase 5. It is lent no links and no
 * marks.
 * 3 where the state has fewer than 9 words; then 1, 2, 4, 8, 9.
 */
uint16_t profile_walker_roll_back(uint16_t *state, size_t state_words);

/* ---- The panel ----
 *
 * The figure is one word, 0 in a new record; only these two calls write it.
 */

/*
 * Accepts a state in phase 3: the figure is one more, the phase is 6.
 * 3 where the state has fewer than 9 words; then 1, 2, 4, 8, 9, 10, 11.
 */
uint16_t profile_walker_accept(uint16_t *state, size_t state_words, uint32_t *figure);

/* Starts a shift: the figure is 0. It is never turned back. */
void profile_walker_shift_start(uint32_t *figure);

#ifdef __cplusplus
}
#endif

#endif
