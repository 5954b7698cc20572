/*
 * Writes the files of vectors/ for the line that it is linked with: the proved library, or another implementation of
 * the calls of profile_walker.h. What two lines write is compared by diff.
 *
 *   line depth   blanks/NAME.csv <profiles/NAME.csv     what depth/NAME.csv holds
 *   line breadth blanks/NAME.csv <profiles/NAME.csv     what breadth/NAME.csv holds
 *   line areas   blanks/NAME.csv <profiles/NAME.csv     what areas/NAME.csv holds
 *   line array                   <profiles/NAME.csv     what array/NAME.csv holds
 *   line script                  <scripts/PART/NAME.csv the same calls, with the answers of this line
 *   line images                  <refused/images.csv    the same images, with the numbers of this line
 *   line lists                   <refused/lists.csv     the same lists, with the numbers of this line
 *   line arrays                  <refused/arrays.csv    the same array forms, with the numbers of this line
 *   line lines                   <refused/lines.csv     the same refusals, with what this line prints of them
 *
 * The second word names a file with the elements already on the blank; there are none without it. A text that is turned
 * back prints one line, as `refused,6`. Walks that must agree and do not end the program with 1, and so does a file that
 * is not in its form.
 */
#include <stdio.h>
#include <stdlib.h>
#include <string.h>

#include "profile_walker.h"

#define NODES (PROFILE_WALKER_MAX_N + PROFILE_WALKER_MAX_M)
#define WORDS(area) (sizeof(area) / sizeof((area)[0]))

/* ---- What the calls are lent ---- */

static uint16_t n, m, start;
static uint16_t after[NODES];
static uint16_t tail[PROFILE_WALKER_MAX_M];
static uint16_t before[NODES]; /* the elements already on the blank */
static size_t before_words;
static uint16_t marks[NODES];
static uint16_t events[PROFILE_WALKER_TEXT_EVENTS];
static uint16_t state[PROFILE_WALKER_STATE_WORDS];

/* One byte more than a text may have, so that a longer one is seen. */
static uint8_t text[PROFILE_WALKER_MAX_TEXT + 1];
static size_t text_bytes;
static uint8_t output[PROFILE_WALKER_TEXT_OUTPUT];

static void fail(const char *why)
{
    fprintf(stderr, "line: %s\n", why);
    exit(1);
}

static void must(int holds, const char *what)
{
    if (!holds) {
        fail(what);
    }
}

static size_t nodes(void)
{
    return (size_t)n + m;
}

/* Reads a list: a line of its name, then an element to a line. */
static void read_list(const char *path)
{
    FILE *file = fopen(path, "r");
    char name[16];
    unsigned word;

    must(file != NULL, "the list is missing");
    must(fgets(name, sizeof(name), file) != NULL && strcmp(name, "element\n") == 0, "the list has no name");
    while (fscanf(file, "%u", &word) == 1) {
        must(before_words < WORDS(before), "the list is too long");
        before[before_words++] = (uint16_t)word;
    }
    must(feof(file), "the list is out of form");
    fclose(file);
}

static void write_refusal(uint16_t refusal)
{
    uint8_t line[PROFILE_WALKER_REFUSAL_BYTES];
    size_t printed;

    must(profile_walker_refusal_line(refusal, line, WORDS(line), &printed) == 0, "no room for the line of a refusal");
    fwrite(line, 1, printed, stdout);
}

/* Reads a profile; where it is turned back, prints that and gives 0. */
static int load(void)
{
    uint16_t number =
        profile_walker_read_profile(text, text_bytes, after, WORDS(after), tail, WORDS(tail), &n, &m, &start);

    if (number != 0) {
        write_refusal(number);
        return 0;
    }
    must(profile_walker_check_image(n, m, after, WORDS(after), tail, WORDS(tail)) == 0, "a loaded profile is no image");
    return 1;
}

/* ---- Whole walks ---- */

/* What a walk leaves. */
struct walk {
    uint16_t marks[NODES];
    uint16_t own[PROFILE_WALKER_MAX_N]; /* parents, queue or increments */
    uint16_t events[6 * NODES];
    uint32_t tally[PROFILE_WALKER_TALLY_WORDS];
};

static size_t event_count(const struct walk *w)
{
    size_t sum = 0;
    int kind;

    for (kind = 0; kind < PROFILE_WALKER_TALLY_WORDS; kind++) {
        sum += w->tally[kind];
    }
    return sum;
}

/* Walks of the same search leave the same marks, events and tally. */
static void agree(const struct walk *a, const struct walk *b)
{
    must(memcmp(a->tally, b->tally, sizeof(a->tally)) == 0, "two walks of one search differ in their tally");
    must(memcmp(a->marks, b->marks, nodes() * sizeof(a->marks[0])) == 0, "two walks of one search differ in their marks");
    must(memcmp(a->events, b->events, 3 * event_count(a) * sizeof(a->events[0])) == 0,
         "two walks of one search differ in their events");
}

static uint16_t firsts[PROFILE_WALKER_MAX_N + 1];
static uint16_t tails[PROFILE_WALKER_MAX_M];
static uint16_t numbers[PROFILE_WALKER_MAX_M];

static uint16_t convert_number(void)
{
    return profile_walker_to_array(n, m, after, WORDS(after), tail, WORDS(tail), firsts, WORDS(firsts), tails,
                                   WORDS(tails), numbers, WORDS(numbers));
}

static void convert(void)
{
    must(convert_number() == 0, "a loaded profile is not converted");
}

/* The number of each walk, which leaves its areas in w where it is taken. */

static uint16_t queue_number(struct walk *w)
{
    return profile_walker_bfs_queue(n, m, start, after, WORDS(after), tail, WORDS(tail), before, before_words, w->marks,
                                    WORDS(w->marks), w->own, WORDS(w->own), w->events, WORDS(w->events), w->tally,
                                    WORDS(w->tally));
}

static uint16_t folded_queue_number(struct walk *w)
{
    return profile_walker_bfs_folded(n, m, start, after, WORDS(after), tail, WORDS(tail), before, before_words, w->marks,
                                     WORDS(w->marks), w->events, WORDS(w->events), w->tally, WORDS(w->tally));
}

static uint16_t recursive_number(struct walk *w)
{
    return profile_walker_dfs_recursive(n, m, start, after, WORDS(after), tail, WORDS(tail), before, before_words,
                                        w->marks, WORDS(w->marks), w->events, WORDS(w->events), w->tally,
                                        WORDS(w->tally));
}

static uint16_t parent_number(struct walk *w)
{
    return profile_walker_dfs_parent(n, m, start, after, WORDS(after), tail, WORDS(tail), before, before_words, w->marks,
                                     WORDS(w->marks), w->own, WORDS(w->own), w->events, WORDS(w->events), w->tally,
                                     WORDS(w->tally));
}

static uint16_t array_number(struct walk *w)
{
    return profile_walker_dfs_array(n, m, start, firsts, WORDS(firsts), tails, WORDS(tails), before, before_words,
                                    w->marks, WORDS(w->marks), w->own, WORDS(w->own), w->events, WORDS(w->events),
                                    w->tally, WORDS(w->tally));
}

static void queue_walk(struct walk *w)
{
    must(queue_number(w) == 0, "bfs_queue turns a loaded profile back");
}

static void folded_queue_walk(struct walk *w)
{
    must(folded_queue_number(w) == 0, "bfs_folded turns a loaded profile back");
}

static void recursive_walk(struct walk *w)
{
    must(recursive_number(w) == 0, "dfs_recursive turns a loaded profile back");
}

static void parent_walk(struct walk *w)
{
    must(parent_number(w) == 0, "dfs_parent turns a loaded profile back");
}

/* The walk over the array form, its positions turned back into references. */
static void array_walk(struct walk *w)
{
    size_t i;

    convert();
    must(array_number(w) == 0, "dfs_array turns a converted profile back");
    for (i = 0; i < event_count(w); i++) {
        uint16_t *reference = &w->events[3 * i + 1];
        if (*reference != 0) {
            *reference = numbers[*reference - n - 1];
        }
    }
}

static struct walk recursive, by_parents, over_array, by_queue, folded_queue;

static void write_events(const uint16_t *words, size_t count)
{
    size_t i;

    printf("event,reference,element\n");
    for (i = 0; i < count; i++) {
        const uint16_t *event = words + 3 * i;
        printf("%u,%u,%u\n", (unsigned)event[0], (unsigned)event[1], (unsigned)event[2]);
    }
}

/* The folded walk of a loaded profile, as walk_text prints it, with the elements already on the blank. */
static void write_folded(void)
{
    uint32_t moves;
    size_t made;
    uint16_t reason;

    must(profile_walker_open(n, m, start, after, WORDS(after), tail, WORDS(tail), before, before_words, marks,
                             WORDS(marks), events, WORDS(events), state, WORDS(state)) == 0,
         "open turns a loaded profile back");
    must(profile_walker_run(state, WORDS(state), PROFILE_WALKER_MAX_MOVES, after, WORDS(after), tail, WORDS(tail), marks,
                            WORDS(marks), events + 3, WORDS(events) - 3, &moves, &made, &reason) == 0 &&
             reason == PROFILE_WALKER_RUN_ENDED,
         "a run does not end the walk of a loaded profile");
    write_events(events, 1 + made);
    printf("elements,moves,circular\n%u,%lu,%u\n", state[PROFILE_WALKER_STATE_NEXT] - 1u, (unsigned long)moves,
           (unsigned)state[PROFILE_WALKER_STATE_CIRCULAR]);
}

static void write_depth(void)
{
    size_t printed;
    uint16_t number;

    if (before_words > 0) {
        if (load()) {
            write_folded();
        }
        return;
    }
    number = profile_walker_walk_text(text, text_bytes, after, WORDS(after), tail, WORDS(tail), marks, WORDS(marks),
                                      events, WORDS(events), output, WORDS(output), &printed);
    if (number != 0) {
        write_refusal(number);
        return;
    }
    fwrite(output, 1, printed, stdout);
}

static void write_breadth(void)
{
    queue_walk(&by_queue);
    folded_queue_walk(&folded_queue);
    agree(&by_queue, &folded_queue);
    write_events(by_queue.events, event_count(&by_queue));
}

static void write_areas(void)
{
    uint16_t u;

    recursive_walk(&recursive);
    parent_walk(&by_parents);
    array_walk(&over_array);
    queue_walk(&by_queue);
    agree(&recursive, &by_parents);
    agree(&recursive, &over_array);
    printf("element,depth mark,breadth mark,parent,increment,queue\n");
    for (u = 0; u < n; u++) {
        printf("%u,%u,%u,%u,%u,%u\n", u + 1u, (unsigned)recursive.marks[u], (unsigned)by_queue.marks[u],
               (unsigned)by_parents.own[u], (unsigned)over_array.own[u], (unsigned)by_queue.own[u]);
    }
}

static void write_array(void)
{
    uint16_t k;

    convert();
    printf("element,first position\n");
    for (k = 0; k <= n; k++) {
        printf("%u,%u\n", k + 1u, (unsigned)firsts[k]);
    }
    printf("position,tail,reference\n");
    for (k = 0; k < m; k++) {
        printf("%u,%u,%u\n", k + 1u, (unsigned)tails[k], (unsigned)numbers[k]);
    }
}

/* ---- Lines of numbers ---- */

static char row[8 * NODES];

/* The next line, without its line feed; 0 at the end. */
static int next_row(void)
{
    if (fgets(row, sizeof(row), stdin) == NULL) {
        return 0;
    }
    row[strcspn(row, "\n")] = '\0';
    return 1;
}

/* What follows a word and a comma at the front of a line; NULL where the line does not begin so. */
static const char *behind(const char *line, const char *word)
{
    size_t length = strlen(word);

    if (strncmp(line, word, length) != 0 || (line[length] != ',' && line[length] != '\0')) {
        return NULL;
    }
    return line[length] == ',' ? line + length + 1 : line + length;
}

/* The number at a place, which then stands behind it and the character after it. */
static unsigned long number_at(const char **at)
{
    char *end;
    unsigned long number = strtoul(*at, &end, 10);

    must(end != *at, "a number is missing");
    *at = *end == '\0' ? end : end + 1;
    return number;
}

/* The numbers up to the end, or to a comma where they stand between spaces; how many there are. */
static size_t words_at(const char **at, char between, uint16_t *words, size_t most)
{
    size_t count = 0;

    while (**at != '\0' && **at != ',') {
        char *end;
        unsigned long word = strtoul(*at, &end, 10);
        must(end != *at && count < most, "words are out of form");
        words[count++] = (uint16_t)word;
        if (*end != between) {
            *at = end;
            break;
        }
        *at = end + 1;
    }
    return count;
}

static void write_words(const char *name, const uint16_t *words, size_t count)
{
    size_t i;

    printf("%s", name);
    for (i = 0; i < count; i++) {
        printf(",%u", (unsigned)words[i]);
    }
    printf("\n");
}

/* ---- Scripts: one line, call by call ---- */

static size_t after_words, tail_words, mark_words;
static uint32_t figure;

static void write_links(void)
{
    write_words("after", after, after_words);
    write_words("tail", tail, tail_words);
    write_words("marks", marks, mark_words);
}

/* The events written, then the state, links and marks as the call left them. */
static void write_left(size_t made)
{
    size_t i;

    for (i = 0; i < made; i++) {
        write_words("event", events + 3 * i, 3);
    }
    write_words("state", state, WORDS(state));
    write_links();
}

static size_t lent(unsigned long words)
{
    must(words <= WORDS(events), "more event words than this program has");
    return (size_t)words;
}

static void call_open(const char *at)
{
    uint16_t vertices = (uint16_t)number_at(&at);
    uint16_t edges = (uint16_t)number_at(&at);
    uint16_t first = (uint16_t)number_at(&at);
    size_t words = lent(number_at(&at));
    uint16_t number = profile_walker_open(vertices, edges, first, after, after_words, tail, tail_words, before,
                                          before_words, marks, mark_words, events, words, state, WORDS(state));

    printf("number,%u\n", (unsigned)number);
    write_left(number == 0 ? 1 : 0);
}

/* A single move, or a run with a budget. */
static void call_moves(int single, const char *at)
{
    uint32_t budget = single ? 1 : (uint32_t)number_at(&at);
    size_t words = lent(number_at(&at));
    uint32_t steps = 0;
    size_t made = 0;
    uint16_t reason = 0;
    uint16_t number = single ? profile_walker_step(state, WORDS(state), after, after_words, tail, tail_words, marks,
                                                   mark_words, events, words, &steps, &made, &reason)
                             : profile_walker_run(state, WORDS(state), budget, after, after_words, tail, tail_words,
                                                  marks, mark_words, events, words, &steps, &made, &reason);

    if (number == 0) {
        printf("number,0,%lu,%lu,%u\n", (unsigned long)steps, (unsigned long)made, (unsigned)reason);
    } else {
        printf("number,%u\n", (unsigned)number);
    }
    write_left(made);
}

static void call_roll_back(void)
{
    printf("number,%u\n", (unsigned)profile_walker_roll_back(state, WORDS(state)));
    write_left(0);
}

static void call_accept(void)
{
    printf("number,%u\n", (unsigned)profile_walker_accept(state, WORDS(state), &figure));
    write_left(0);
    printf("figure,%lu\n", (unsigned long)figure);
}

static void call_shift_start(void)
{
    profile_walker_shift_start(&figure);
    printf("figure,%lu\n", (unsigned long)figure);
}

static void perform(const char *call)
{
    const char *at;

    if ((at = behind(call, "open")) != NULL) {
        call_open(at);
    } else if ((at = behind(call, "move")) != NULL) {
        call_moves(1, at);
    } else if ((at = behind(call, "run")) != NULL) {
        call_moves(0, at);
    } else if (behind(call, "wind back") != NULL) {
        call_roll_back();
    } else if (behind(call, "accept") != NULL) {
        call_accept();
    } else if (behind(call, "shift start") != NULL) {
        call_shift_start();
    } else {
        fail("no such call");
    }
}

/* A word that the next call finds changed. */
static void change(const char *line)
{
    static const struct {
        const char *name;
        uint16_t *words;
        const size_t *count;
    } areas[] = {
        {"after", after, &after_words},
        {"tail", tail, &tail_words},
        {"marks", marks, &mark_words},
    };
    const char *at = behind(line, "figure");
    unsigned long place;
    size_t i;

    if (at != NULL) {
        number_at(&at);
        figure = (uint32_t)number_at(&at);
        return;
    }
    if ((at = behind(line, "state")) != NULL) {
        place = number_at(&at);
        must(place >= 1 && place <= WORDS(state), "no such word of the state");
        state[place - 1] = (uint16_t)number_at(&at);
        return;
    }
    for (i = 0; i < WORDS(areas); i++) {
        if ((at = behind(line, areas[i].name)) != NULL) {
            place = number_at(&at);
            must(place >= 1 && place <= *areas[i].count, "no such word of an area");
            areas[i].words[place - 1] = (uint16_t)number_at(&at);
            return;
        }
    }
    fail("no such area");
}

/* The words of an area as the first lines of a script give them. */
static size_t first_words(const char *name, uint16_t *words, size_t most)
{
    const char *at = next_row() ? behind(row, name) : NULL;

    must(at != NULL, "a script begins with its links, marks and list");
    return words_at(&at, ',', words, most);
}

/* The list that openings are lent from here on. */
static void lend(const char *at)
{
    before_words = words_at(&at, ',', before, WORDS(before));
    write_words("before", before, before_words);
}

static void write_script(void)
{
    after_words = first_words("after", after, WORDS(after));
    tail_words = first_words("tail", tail, WORDS(tail));
    mark_words = first_words("marks", marks, WORDS(marks));
    write_links();
    while (next_row()) {
        const char *call = behind(row, "call");
        const char *set = behind(row, "set");
        const char *list = behind(row, "before");
        if (call != NULL) {
            printf("%s\n", row);
            perform(call);
        } else if (set != NULL) {
            printf("%s\n", row);
            change(set);
        } else if (list != NULL) {
            lend(list);
        }
    }
}

/* ---- Images, lists and array forms that are judged ---- */

/* The words between spaces up to a comma, which is passed. */
static size_t words_before_comma(const char **at, uint16_t *words, size_t most)
{
    size_t count = words_at(at, ' ', words, most);

    must(**at == ',', "words are out of form");
    (*at)++;
    return count;
}

static void write_images(void)
{
    must(next_row(), "no line of names");
    printf("%s\n", row);
    while (next_row()) {
        const char *at = row;
        uint16_t vertices = (uint16_t)number_at(&at);
        uint16_t edges = (uint16_t)number_at(&at);
        size_t a = words_before_comma(&at, after, WORDS(after));
        size_t t = words_before_comma(&at, tail, WORDS(tail));

        printf("%.*s%u\n", (int)(at - row), row,
               (unsigned)profile_walker_check_image(vertices, edges, after, a, tail, t));
    }
}

/* The number of an opening, which every walk returns too; that over the array form where the image can be converted. */
static uint16_t list_number(void)
{
    uint16_t number = profile_walker_open(n, m, start, after, WORDS(after), tail, WORDS(tail), before, before_words,
                                          marks, WORDS(marks), events, WORDS(events), state, WORDS(state));

    must(recursive_number(&recursive) == number, "dfs_recursive and open differ in their numbers");
    must(parent_number(&by_parents) == number, "dfs_parent and open differ in their numbers");
    must(queue_number(&by_queue) == number, "bfs_queue and open differ in their numbers");
    must(folded_queue_number(&folded_queue) == number, "bfs_folded and open differ in their numbers");
    must(convert_number() != 0 || array_number(&over_array) == number, "dfs_array and open differ in their numbers");
    return number;
}

/* The sizes and the start at the front of a line. */
static void sizes_at(const char **at)
{
    n = (uint16_t)number_at(at);
    m = (uint16_t)number_at(at);
    start = (uint16_t)number_at(at);
}

/* The list, and behind it the number, which is that of this line. */
static void write_number(const char *at, uint16_t (*number)(void))
{
    before_words = words_before_comma(&at, before, WORDS(before));
    printf("%.*s%u\n", (int)(at - row), row, (unsigned)number());
}

static void write_lists(void)
{
    must(next_row(), "no line of names");
    printf("%s\n", row);
    while (next_row()) {
        const char *at = row;

        sizes_at(&at);
        must(words_before_comma(&at, after, WORDS(after)) == nodes(), "after words are missing");
        must(words_before_comma(&at, tail, WORDS(tail)) == m, "tail words are missing");
        write_number(at, list_number);
    }
}

static uint16_t array_list_number(void)
{
    return array_number(&over_array);
}

static void write_arrays(void)
{
    must(next_row(), "no line of names");
    printf("%s\n", row);
    while (next_row()) {
        const char *at = row;

        sizes_at(&at);
        must(words_before_comma(&at, firsts, WORDS(firsts)) == n + 1u, "first positions are missing");
        must(words_before_comma(&at, tails, WORDS(tails)) == m, "tails are missing");
        write_number(at, array_list_number);
    }
}

/* A refusal, the bytes lent and the word for those printed: what the call returns, and both as it leaves them. */
static void write_lines(void)
{
    must(next_row(), "no line of names");
    printf("%s\n", row);
    while (next_row()) {
        const char *at = row;
        uint16_t refusal = (uint16_t)number_at(&at);
        size_t bytes = number_at(&at);
        size_t printed = number_at(&at);
        uint16_t number;
        size_t i;

        must(bytes <= WORDS(output), "more bytes than this program has");
        memset(output, '.', bytes);
        printf("%.*s", (int)(at - row), row);
        number = profile_walker_refusal_line(refusal, output, bytes, &printed);
        printf("%u,%lu,", (unsigned)number, (unsigned long)printed);
        for (i = 0; i < bytes; i++) {
            printf(i == 0 ? "%u" : " %u", (unsigned)output[i]);
        }
        printf("\n");
    }
}

int main(int count, char **words)
{
    static const struct {
        const char *name;
        int reads_text;
        int loads;
        void (*write)(void);
    } parts[] = {
        {"depth", 1, 0, write_depth},   {"breadth", 1, 1, write_breadth}, {"areas", 1, 1, write_areas},
        {"array", 1, 1, write_array},   {"script", 0, 0, write_script},   {"images", 0, 0, write_images},
        {"lists", 0, 0, write_lists},   {"arrays", 0, 0, write_arrays},   {"lines", 0, 0, write_lines},
    };
    size_t i;

    if (count == 3) {
        read_list(words[2]);
    }
    for (i = 0; i < WORDS(parts); i++) {
        if ((count == 2 || count == 3) && strcmp(words[1], parts[i].name) == 0) {
            if (parts[i].reads_text) {
                text_bytes = fread(text, 1, sizeof(text), stdin);
            }
            if (!parts[i].loads || load()) {
                parts[i].write();
            }
            return 0;
        }
    }
    fail("usage: line depth|breadth|areas [LIST], or line array|script|images|lists|arrays|lines");
    return 1;
}
