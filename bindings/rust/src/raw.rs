//! The four calls as include/goqhari.h has them, on slices of any length: each answers 0, or the number of a refusal.
//! A [`Strip`](crate::Strip) makes them for you; the harness, which lends too little on purpose, uses them too.
#![allow(clippy::too_many_arguments)]

/// `goqhari_open`. The setup's numbers and flags stand in the header's order.
pub fn open(
    singles: &[f32; 8],
    doubles: &[f64; 4],
    flags: u64,
    positions: &[u64],
    values: &[f64],
    kicks: &[u64],
    numbers: &mut [f64],
    words: &mut [u64],
    store: &mut [f64],
    counts: &mut [u64],
) -> u64 {
    // SAFETY, here and below: each pointer is of a slice or an array, and has its length beside it, which is a u64 on every machine.
    unsafe {
        goqhari_open(
            singles,
            doubles,
            flags,
            positions.as_ptr(),
            positions.len() as u64,
            values.as_ptr(),
            values.len() as u64,
            kicks.as_ptr(),
            kicks.len() as u64,
            numbers.as_mut_ptr(),
            numbers.len() as u64,
            words.as_mut_ptr(),
            words.len() as u64,
            store.as_mut_ptr(),
            store.len() as u64,
            counts.as_mut_ptr(),
            counts.len() as u64,
        )
    }
}

/// `goqhari_run`.
pub fn run(
    numbers: &mut [f64],
    words: &mut [u64],
    samples: &[f64],
    drums: u64,
    frames: &mut [f32],
    gains: &mut [u64],
    store: &mut [f64],
    counts: &mut [u64],
) -> u64 {
    unsafe {
        goqhari_run(
            numbers.as_mut_ptr(),
            numbers.len() as u64,
            words.as_mut_ptr(),
            words.len() as u64,
            samples.as_ptr(),
            samples.len() as u64,
            drums,
            frames.as_mut_ptr(),
            frames.len() as u64,
            gains.as_mut_ptr(),
            gains.len() as u64,
            store.as_mut_ptr(),
            store.len() as u64,
            counts.as_mut_ptr(),
            counts.len() as u64,
        )
    }
}

/// `goqhari_latch`.
pub fn latch(
    numbers: &mut [f64],
    words: &mut [u64],
    daylight: f32,
    grading: u64,
    rain: f32,
    darkening: u64,
    store: &[f64],
    counts: &[u64],
) -> u64 {
    unsafe {
        goqhari_latch(
            numbers.as_mut_ptr(),
            numbers.len() as u64,
            words.as_mut_ptr(),
            words.len() as u64,
            daylight,
            grading,
            rain,
            darkening,
            store.as_ptr(),
            store.len() as u64,
            counts.as_ptr(),
            counts.len() as u64,
        )
    }
}

/// `goqhari_rest`.
pub fn rest(numbers: &[f64], words: &[u64], rests: &mut [u64; 1], store: &[f64], counts: &[u64]) -> u64 {
    unsafe {
        goqhari_rest(
            numbers.as_ptr(),
            numbers.len() as u64,
            words.as_ptr(),
            words.len() as u64,
            rests,
            store.as_ptr(),
            store.len() as u64,
            counts.as_ptr(),
            counts.len() as u64,
        )
    }
}

unsafe extern "C" {
    fn goqhari_open(
        singles: &[f32; 8],
        doubles: &[f64; 4],
        flags: u64,
        positions: *const u64,
        positions_len: u64,
        values: *const f64,
        values_len: u64,
        kicks: *const u64,
        kicks_len: u64,
        numbers: *mut f64,
        numbers_len: u64,
        words: *mut u64,
        words_len: u64,
        store: *mut f64,
        store_len: u64,
        counts: *mut u64,
        counts_len: u64,
    ) -> u64;
    fn goqhari_run(
        numbers: *mut f64,
        numbers_len: u64,
        words: *mut u64,
        words_len: u64,
        samples: *const f64,
        samples_len: u64,
        drums: u64,
        frames: *mut f32,
        frames_len: u64,
        gains: *mut u64,
        gains_len: u64,
        store: *mut f64,
        store_len: u64,
        counts: *mut u64,
        counts_len: u64,
    ) -> u64;
    fn goqhari_latch(
        numbers: *mut f64,
        numbers_len: u64,
        words: *mut u64,
        words_len: u64,
        daylight: f32,
        grading: u64,
        rain: f32,
        darkening: u64,
        store: *const f64,
        store_len: u64,
        counts: *const u64,
        counts_len: u64,
    ) -> u64;
    fn goqhari_rest(
        numbers: *const f64,
        numbers_len: u64,
        words: *const u64,
        words_len: u64,
        rests: &mut [u64; 1],
        store: *const f64,
        store_len: u64,
        counts: *const u64,
        counts_len: u64,
    ) -> u64;
}
