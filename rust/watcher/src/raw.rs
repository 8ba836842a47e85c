/*!
The C functions with safe signatures: the same parameters, the same results.

Each function but [`symbol`] returns 0 or a refusal's number, and writes its other results to `out`. Programs will
want [`read_rules`](crate::read_rules), [`compile`](crate::compile),
[`check_table`](crate::check_table) and [`Monitor`](crate::Monitor) instead; these are for those that
look at `out` beside a refusal or keep head and areas themselves, as the tests do.

# Head and areas

A monitor is a head of four words, an area of 2,048 bytes and one of 2,048 words. The head is the
settled count, the waiting count, the verdict + 1 or 0 for none, and the verdict's rule. The settled
symbols are the first bytes, the waiting symbols the last, and the first words are the table's states
after each settled symbol; all other bytes and words are 0. The functions take any head and areas of
any length, and refuse those that are not so.

# Answers

0 is Quiet, 1 Spent, 2 Full, and 16 + a verdict that verdict.
*/

// The functions here have the parameters that the C functions have.
#![allow(clippy::too_many_arguments)]

extern "C" {
    fn watcher_read_rules(
        text: *const u8,
        text_len: usize,
        image: *mut u8,
        image_len: usize,
        names: *mut u8,
        names_len: usize,
        out: *mut u64,
    ) -> u32;

    fn watcher_symbol(names: *const u8, names_len: usize, name: *const u8, name_len: usize) -> u32;

    fn watcher_compile(
        image: *const u8,
        image_len: usize,
        table: *mut u16,
        table_len: usize,
        out: *mut u64,
    ) -> u32;

    fn watcher_check_table(
        image: *const u8,
        image_len: usize,
        table: *const u16,
        table_len: usize,
    ) -> u32;

    fn watcher_fresh(
        head: *mut u64,
        bytes: *mut u8,
        bytes_len: usize,
        words: *mut u16,
        words_len: usize,
    ) -> u32;

    fn watcher_offer(
        image: *const u8,
        image_len: usize,
        table: *const u16,
        table_len: usize,
        head: *mut u64,
        bytes: *mut u8,
        bytes_len: usize,
        words: *mut u16,
        words_len: usize,
        event: u8,
        fuel: u32,
        out: *mut u64,
    ) -> u32;

    fn watcher_go_on(
        image: *const u8,
        image_len: usize,
        table: *const u16,
        table_len: usize,
        head: *mut u64,
        bytes: *mut u8,
        bytes_len: usize,
        words: *mut u16,
        words_len: usize,
        fuel: u32,
        out: *mut u64,
    ) -> u32;

    fn watcher_batch(
        image: *const u8,
        image_len: usize,
        table: *const u16,
        table_len: usize,
        head: *mut u64,
        bytes: *mut u8,
        bytes_len: usize,
        words: *mut u16,
        words_len: usize,
        events: *const u8,
        events_len: usize,
        fuel: u32,
        answers: *mut u8,
        answers_len: usize,
        out: *mut u64,
    ) -> u32;
}

// SAFETY, of each call below: each pointer comes from a reference and goes with its length in
// elements, so it is aligned and valid for as many elements: those from `&` for reads, those from
// `&mut` for reads and writes. `head` and `out` go without a length, but point to arrays of the length
// that the function reads and writes. The borrow checker keeps them apart and alive during the call.
// The function reads and writes within these lengths only, keeps no pointer and does not unwind.

/// Writes the image of a rule text into `image` and its names into `names`: returns 0, or refusal 1, 2,
/// 3, 4, 5 or 6.
///
/// Afterwards `out` holds the image's length and 0; beside a refusal 0 and its place.
///
/// # Example
///
/// ```
/// use watcher::raw;
///
/// let (mut image, mut names) = ([9; 1_284], [9; 1_200]);
/// let mut out = [5; 2];
/// assert_eq!(raw::read_rules(b"events a .", &mut image, &mut names, &mut out), 0);
/// assert_eq!(out, [4, 0]);
/// assert_eq!(image[..5], [1, 0, 2, 1, 9]);
/// assert_eq!(names[..3], [1, b'a', 0]);
/// assert_eq!(raw::read_rules(b"events a.", &mut image, &mut names, &mut out), 3);
/// assert_eq!(out, [0, 7]);
/// ```
pub fn read_rules(text: &[u8], image: &mut [u8], names: &mut [u8], out: &mut [u64; 2]) -> u32 {
    // SAFETY: as above.
    unsafe {
        watcher_read_rules(
            text.as_ptr(),
            text.len(),
            image.as_mut_ptr(),
            image.len(),
            names.as_mut_ptr(),
            names.len(),
            out.as_mut_ptr(),
        )
    }
}

/// Says which symbol has a name, by the name slots that [`read_rules`] writes: returns its number, or 32
/// if none has it.
///
/// # Example
///
/// ```
/// let mut names = [0; 1_200];
/// watcher::raw::read_rules(b"events up down .", &mut [0; 1_284], &mut names, &mut [0; 2]);
/// assert_eq!(watcher::raw::symbol(&names, b"down"), 1);
/// assert_eq!(watcher::raw::symbol(&names, b"left"), 32);
/// ```
pub fn symbol(names: &[u8], name: &[u8]) -> u32 {
    // SAFETY: as above.
    unsafe { watcher_symbol(names.as_ptr(), names.len(), name.as_ptr(), name.len()) }
}

/// Writes the table of a rule image into `table`: returns 0, or refusal 7 or 8.
///
/// Afterwards `out` holds the number of words written; 0 beside a refusal.
///
/// # Example
///
/// ```
/// let mut out = [5];
/// assert_eq!(watcher::raw::compile(&[1, 0, 2, 1], &mut [0; 3], &mut out), 8);
/// assert_eq!(out, [0]);
/// ```
pub fn compile(image: &[u8], table: &mut [u16], out: &mut [u64; 1]) -> u32 {
    // SAFETY: as above.
    unsafe {
        watcher_compile(
            image.as_ptr(),
            image.len(),
            table.as_mut_ptr(),
            table.len(),
            out.as_mut_ptr(),
        )
    }
}

/// Says whether `table` begins with the table of a rule image: returns 0, or refusal 7 or 9.
///
/// # Example
///
/// ```
/// assert_eq!(watcher::raw::check_table(&[1, 0, 2, 1], &[1, 1, 0, 0]), 0);
/// ```
pub fn check_table(image: &[u8], table: &[u16]) -> u32 {
    // SAFETY: as above.
    unsafe { watcher_check_table(image.as_ptr(), image.len(), table.as_ptr(), table.len()) }
}

/// Makes head and areas those of a monitor that holds nothing: returns 0, or refusal 10.
///
/// Beside the refusal `head` is the empty one too, and the areas are as they were.
///
/// # Example
///
/// ```
/// let mut head = [5; 4];
/// assert_eq!(watcher::raw::fresh(&mut head, &mut [7; 2_048], &mut [7; 2_048]), 0);
/// assert_eq!(head, [0; 4]);
/// assert_eq!(watcher::raw::fresh(&mut head, &mut [7; 2_048], &mut [7; 2_047]), 10);
/// ```
pub fn fresh(head: &mut [u64; 4], bytes: &mut [u8], words: &mut [u16]) -> u32 {
    // SAFETY: as above.
    unsafe {
        watcher_fresh(
            head.as_mut_ptr(),
            bytes.as_mut_ptr(),
            bytes.len(),
            words.as_mut_ptr(),
            words.len(),
        )
    }
}

/// Takes an event and runs: returns 0, or refusal 7, 9, 10, 11, 12, 13, 14 or 15.
///
/// Afterwards `out` holds the answer, the steps, the rewrites and the symbols put back; zeros beside a
/// refusal.
///
/// # Example
///
/// ```
/// use watcher::raw;
///
/// let (mut head, mut bytes, mut words) = ([0; 4], [0; 2_048], [0; 2_048]);
/// // One event and no rules.
/// let (image, table) = ([1, 0, 2, 1], [1, 1, 0, 0]);
/// let mut out = [5; 4];
/// let result = raw::offer(
///     &image, &table, &mut head, &mut bytes, &mut words, 0, 1_000, &mut out,
/// );
/// assert_eq!((result, out), (0, [0, 1, 0, 0]));
/// assert_eq!(head, [1, 0, 0, 0]);
/// ```
pub fn offer(
    image: &[u8],
    table: &[u16],
    head: &mut [u64; 4],
    bytes: &mut [u8],
    words: &mut [u16],
    event: u8,
    fuel: u32,
    out: &mut [u64; 4],
) -> u32 {
    // SAFETY: as above.
    unsafe {
        watcher_offer(
            image.as_ptr(),
            image.len(),
            table.as_ptr(),
            table.len(),
            head.as_mut_ptr(),
            bytes.as_mut_ptr(),
            bytes.len(),
            words.as_mut_ptr(),
            words.len(),
            event,
            fuel,
            out.as_mut_ptr(),
        )
    }
}

/// Runs: returns 0, or refusal 7, 9, 10, 11, 13 or 14.
///
/// Afterwards `out` holds the answer, the steps, the rewrites and the symbols put back; zeros beside a
/// refusal.
///
/// # Example
///
/// ```
/// use watcher::raw;
///
/// let (mut head, mut bytes, mut words) = ([0; 4], [0; 2_048], [0; 2_048]);
/// let (image, table) = ([1, 0, 2, 1], [1, 1, 0, 0]);
/// let mut out = [5; 4];
/// let result = raw::go_on(&image, &table, &mut head, &mut bytes, &mut words, 65_536, &mut out);
/// assert_eq!((result, out), (13, [0; 4]));
/// ```
pub fn go_on(
    image: &[u8],
    table: &[u16],
    head: &mut [u64; 4],
    bytes: &mut [u8],
    words: &mut [u16],
    fuel: u32,
    out: &mut [u64; 4],
) -> u32 {
    // SAFETY: as above.
    unsafe {
        watcher_go_on(
            image.as_ptr(),
            image.len(),
            table.as_ptr(),
            table.len(),
            head.as_mut_ptr(),
            bytes.as_mut_ptr(),
            bytes.len(),
            words.as_mut_ptr(),
            words.len(),
            fuel,
            out.as_mut_ptr(),
        )
    }
}

/// Takes events one after another and runs after each: returns 0, or refusal 7, 9, 10, 11, 13 or 16.
///
/// Afterwards `out` holds the stop (0, or 12, 14 or 15, for which the first event not accepted was
/// refused), the number of events accepted, and the steps, rewrites and symbols put back of them all;
/// zeros beside a refusal. The first of the answer bytes hold the answers to the events accepted.
///
/// # Example
///
/// ```
/// use watcher::raw;
///
/// let (mut head, mut bytes, mut words) = ([0; 4], [0; 2_048], [0; 2_048]);
/// let (image, table) = ([1, 0, 2, 1], [1, 1, 0, 0]);
/// let mut answers = [9; 3];
/// let mut out = [5; 5];
/// let result = raw::batch(
///     &image, &table, &mut head, &mut bytes, &mut words, &[0, 0], 0, &mut answers, &mut out,
/// );
/// assert_eq!((result, out), (0, [0, 2, 0, 0, 0]));
/// assert_eq!(answers, [1, 1, 9]);
/// ```
pub fn batch(
    image: &[u8],
    table: &[u16],
    head: &mut [u64; 4],
    bytes: &mut [u8],
    words: &mut [u16],
    events: &[u8],
    fuel: u32,
    answers: &mut [u8],
    out: &mut [u64; 5],
) -> u32 {
    // SAFETY: as above.
    unsafe {
        watcher_batch(
            image.as_ptr(),
            image.len(),
            table.as_ptr(),
            table.len(),
            head.as_mut_ptr(),
            bytes.as_mut_ptr(),
            bytes.len(),
            words.as_mut_ptr(),
            words.len(),
            events.as_ptr(),
            events.len(),
            fuel,
            answers.as_mut_ptr(),
            answers.len(),
            out.as_mut_ptr(),
        )
    }
}
