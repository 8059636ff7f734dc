//! The calls of libgenerator.a (include/cemilovash.h), with a guard around what they may write.

#[link(name = "generator", kind = "static")]
extern "C" {
    fn cemilovash_text(
        set: *const u8,
        set_length: usize,
        options: *const u8,
        options_length: usize,
        file: usize,
        text: *mut u8,
        text_length: usize,
        place: *mut usize,
    ) -> u32;

    #[cfg(names_call)]
    fn cemilovash_names(
        set: *const u8,
        set_length: usize,
        options: *const u8,
        options_length: usize,
        place: *mut usize,
    ) -> u32;

    fn cemilovash_convert(
        name: *const u8,
        name_length: usize,
        snake: *mut [u8; 106],
        snake_length: *mut usize,
        camel: *mut [u8; 64],
        camel_length: *mut usize,
    ) -> u8;
}

/// Number and place of a refusal; or 0 and a length.
pub type Outcome = (u32, usize);

/// The text call into a lent buffer.
pub fn text(set: &[u8], options: &[u8], file: usize, buffer: &mut [u8]) -> Outcome {
    let mut place = 0;
    // SAFETY: pointers and lengths are those of slices that live through the call.
    let number = unsafe {
        cemilovash_text(
            set.as_ptr(),
            set.len(),
            options.as_ptr(),
            options.len(),
            file,
            buffer.as_mut_ptr(),
            buffer.len(),
            &mut place,
        )
    };
    (number, place)
}

/// The name check: 0 and 1 for yes or 0 for no, or a refusal. None where the library lacks it.
pub fn names(set: &[u8], options: &[u8]) -> Option<Outcome> {
    #[cfg(names_call)]
    {
        let mut place = 2;
        // SAFETY: as above.
        let number = unsafe {
            cemilovash_names(
                set.as_ptr(),
                set.len(),
                options.as_ptr(),
                options.len(),
                &mut place,
            )
        };
        return Some((number, place));
    }
    #[cfg(not(names_call))]
    {
        let _ = (set, options);
        None
    }
}

/// The convert call: snake and camel name; none where it is refused. Panics where its number is
/// neither 0 nor 6, or bytes behind a name aren't 0.
pub fn convert(name: &[u8]) -> Option<(Vec<u8>, Vec<u8>)> {
    let (mut snake, mut camel) = ([1; 106], [1; 64]);
    let (mut snake_length, mut camel_length) = (1, 1);
    // SAFETY: as above; the arrays have the lengths that the call writes.
    let number = unsafe {
        cemilovash_convert(
            name.as_ptr(),
            name.len(),
            &mut snake,
            &mut snake_length,
            &mut camel,
            &mut camel_length,
        )
    };
    let behind = [&snake[snake_length..], &camel[camel_length..]];
    assert!(behind.concat().iter().all(|byte| *byte == 0));
    assert!(number == 0 || (number, snake_length, camel_length) == (6, 0, 0));
    let both = (
        snake[..snake_length].to_vec(),
        camel[..camel_length].to_vec(),
    );
    (number == 0).then_some(both)
}

/// Bytes before and behind the lent buffer.
const GUARD: usize = 64;

/// A byte of the pattern that a buffer holds before the call.
fn pattern(at: usize) -> u8 {
    (at * 7 + at / 251 + 13) as u8
}

/// The outcome with a buffer of so many bytes, and how many bytes at its start were changed as the
/// text says: on success those of the text, otherwise none. `None` where any other byte changed.
pub fn guarded(set: &[u8], options: &[u8], file: usize, size: usize) -> (Outcome, Option<Vec<u8>>) {
    let mut bytes: Vec<u8> = (0..size + 2 * GUARD).map(pattern).collect();
    let outcome = text(set, options, file, &mut bytes[GUARD..GUARD + size]);
    let length = if outcome.0 == 0 { outcome.1 } else { 0 };
    if length > size {
        return (outcome, None);
    }
    let untouched =
        |range: std::ops::Range<usize>| range.into_iter().all(|at| bytes[at] == pattern(at));
    let whole = untouched(0..GUARD) && untouched(GUARD + length..size + 2 * GUARD);
    let written = bytes[GUARD..GUARD + length].to_vec();
    (outcome, whole.then_some(written))
}
