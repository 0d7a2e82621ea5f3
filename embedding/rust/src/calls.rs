//! The library's calls as ../../skydoublet.h declares them. Each is safe on slices of any length with any numbers in them, as
//! long as a pointer and its count belong to one slice.

extern "C" {
    pub fn skydoublet_rules_for(places: usize) -> usize;
    pub fn skydoublet_cells_for(sets: usize) -> usize;
    pub fn skydoublet_words_for(sets: usize) -> usize;
    pub fn skydoublet_links_for(pool: usize) -> usize;
    pub fn skydoublet_new(
        rules: *mut u8,
        rules_len: usize,
        cells: *mut u8,
        cells_len: usize,
        words: *mut u64,
        words_len: usize,
        sets: usize,
        places: usize,
    ) -> u8;
    pub fn skydoublet_add(
        rules: *mut u8,
        rules_len: usize,
        cells: *mut u8,
        cells_len: usize,
        words: *mut u64,
        words_len: usize,
        left: u8,
        right: *const u8,
        right_len: usize,
        number: *mut usize,
    ) -> u8;
    pub fn skydoublet_delete(
        rules: *mut u8,
        rules_len: usize,
        cells: *mut u8,
        cells_len: usize,
        words: *mut u64,
        words_len: usize,
        left: u8,
        right: *const u8,
        right_len: usize,
        number: *mut usize,
    ) -> u8;
    pub fn skydoublet_collect(rules: *mut u8, rules_len: usize, cells: *mut u8, cells_len: usize, words: *mut u64, words_len: usize) -> u8;
    pub fn skydoublet_restart(rules: *mut u8, rules_len: usize, cells: *mut u8, cells_len: usize, words: *mut u64, words_len: usize) -> u8;
    pub fn skydoublet_parse(
        rules: *mut u8,
        rules_len: usize,
        cells: *mut u8,
        cells_len: usize,
        words: *mut u64,
        words_len: usize,
        links: *mut u16,
        links_len: usize,
        pool: usize,
        line: *const u8,
        line_len: usize,
        number: *mut usize,
    ) -> u8;
    pub fn skydoublet_formed(
        rules: *const u8,
        rules_len: usize,
        cells: *const u8,
        cells_len: usize,
        words: *const u64,
        words_len: usize,
    ) -> bool;
    pub fn skydoublet_rule_number(rules: *const u8, rules_len: usize, r: usize, k: usize) -> u8;
    pub fn skydoublet_sets_in_use(rules: *const u8, rules_len: usize, cells: *const u8, cells_len: usize) -> usize;
    pub fn skydoublet_mark(cells: *const u8, cells_len: usize, s: usize) -> u8;
    pub fn skydoublet_target(cells: *const u8, cells_len: usize, s: usize, x: usize) -> usize;
    pub fn skydoublet_next_item(words: *const u64, words_len: usize, s: usize, from: usize) -> usize;
    pub fn skydoublet_next_reduction(words: *const u64, words_len: usize, s: usize, from: usize) -> usize;
}
