//! The calls as include/profile_walker.h declares them.

extern "C" {
    pub fn profile_walker_check_image(
        n: u16,
        m: u16,
        after: *const u16,
        after_words: usize,
        tail: *const u16,
        tail_words: usize,
    ) -> u16;

    pub fn profile_walker_read_profile(
        text: *const u8,
        text_bytes: usize,
        after: *mut u16,
        after_words: usize,
        tail: *mut u16,
        tail_words: usize,
        n: *mut u16,
        m: *mut u16,
        start: *mut u16,
    ) -> u16;

    pub fn profile_walker_to_array(
        n: u16,
        m: u16,
        after: *const u16,
        after_words: usize,
        tail: *const u16,
        tail_words: usize,
        firsts: *mut u16,
        firsts_words: usize,
        tails: *mut u16,
        tails_words: usize,
        numbers: *mut u16,
        numbers_words: usize,
    ) -> u16;

    pub fn profile_walker_walk_text(
        text: *const u8,
        text_bytes: usize,
        after: *mut u16,
        after_words: usize,
        tail: *mut u16,
        tail_words: usize,
        marks: *mut u16,
        marks_words: usize,
        events: *mut u16,
        events_words: usize,
        output: *mut u8,
        output_bytes: usize,
        printed: *mut usize,
    ) -> u16;

    pub fn profile_walker_refusal_line(
        number: u16,
        output: *mut u8,
        output_bytes: usize,
        printed: *mut usize,
    ) -> u16;

    pub fn profile_walker_dfs_recursive(
        n: u16,
        m: u16,
        start: u16,
        after: *const u16,
        after_words: usize,
        tail: *const u16,
        tail_words: usize,
        before: *const u16,
        before_words: usize,
        marks: *mut u16,
        marks_words: usize,
        events: *mut u16,
        events_words: usize,
        tally: *mut u32,
        tally_words: usize,
    ) -> u16;

    pub fn profile_walker_dfs_parent(
        n: u16,
        m: u16,
        start: u16,
        after: *const u16,
        after_words: usize,
        tail: *const u16,
        tail_words: usize,
        before: *const u16,
        before_words: usize,
        marks: *mut u16,
        marks_words: usize,
        parents: *mut u16,
        parents_words: usize,
        events: *mut u16,
        events_words: usize,
        tally: *mut u32,
        tally_words: usize,
    ) -> u16;

    pub fn profile_walker_dfs_array(
        n: u16,
        m: u16,
        start: u16,
        firsts: *const u16,
        firsts_words: usize,
        tails: *mut u16,
        tails_words: usize,
        before: *const u16,
        before_words: usize,
        marks: *mut u16,
        marks_words: usize,
        increments: *mut u16,
        increments_words: usize,
        events: *mut u16,
        events_words: usize,
        tally: *mut u32,
        tally_words: usize,
    ) -> u16;

    pub fn profile_walker_bfs_queue(
        n: u16,
        m: u16,
        start: u16,
        after: *const u16,
        after_words: usize,
        tail: *const u16,
        tail_words: usize,
        before: *const u16,
        before_words: usize,
        marks: *mut u16,
        marks_words: usize,
        queue: *mut u16,
        queue_words: usize,
        events: *mut u16,
        events_words: usize,
        tally: *mut u32,
        tally_words: usize,
    ) -> u16;

    pub fn profile_walker_bfs_folded(
        n: u16,
        m: u16,
        start: u16,
        after: *mut u16,
        after_words: usize,
        tail: *const u16,
        tail_words: usize,
        before: *const u16,
        before_words: usize,
        marks: *mut u16,
        marks_words: usize,
        events: *mut u16,
        events_words: usize,
        tally: *mut u32,
        tally_words: usize,
    ) -> u16;

    pub fn profile_walker_open(
        n: u16,
        m: u16,
        start: u16,
        after: *const u16,
        after_words: usize,
        tail: *const u16,
        tail_words: usize,
        before: *const u16,
        before_words: usize,
        marks: *mut u16,
        marks_words: usize,
        events: *mut u16,
        events_words: usize,
        state: *mut u16,
        state_words: usize,
    ) -> u16;

    pub fn profile_walker_step(
        state: *mut u16,
        state_words: usize,
        after: *mut u16,
        after_words: usize,
        tail: *mut u16,
        tail_words: usize,
        marks: *mut u16,
        marks_words: usize,
        events: *mut u16,
        events_words: usize,
        steps: *mut u32,
        made: *mut usize,
        reason: *mut u16,
    ) -> u16;

    pub fn profile_walker_run(
        state: *mut u16,
        state_words: usize,
        budget: u32,
        after: *mut u16,
        after_words: usize,
        tail: *mut u16,
        tail_words: usize,
        marks: *mut u16,
        marks_words: usize,
        events: *mut u16,
        events_words: usize,
        steps: *mut u32,
        made: *mut usize,
        reason: *mut u16,
    ) -> u16;

    pub fn profile_walker_roll_back(state: *mut u16, state_words: usize) -> u16;

    pub fn profile_walker_accept(state: *mut u16, state_words: usize, figure: *mut u32) -> u16;

    pub fn profile_walker_shift_start(figure: *mut u32);
}
