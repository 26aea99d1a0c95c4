//! What a caller gets: results, refusals by number and in words, and no panic on any input.

use nuqtelya::*;
use std::alloc::{GlobalAlloc, Layout, System};

/// Memory that is short: no piece of it is larger than this, which all event slots fit.
struct Short;

const LARGEST_PIECE: usize = 1 << 26;

unsafe impl GlobalAlloc for Short {
    unsafe fn alloc(&self, layout: Layout) -> *mut u8 {
        if layout.size() > LARGEST_PIECE {
            return std::ptr::null_mut();
        }
        System.alloc(layout)
    }

    unsafe fn dealloc(&self, piece: *mut u8, layout: Layout) {
        System.dealloc(piece, layout)
    }
}

#[global_allocator]
static SHORT: Short = Short;

fn profile() -> Profile<'static> {
    let default = Profile::paper_default(4, 2, 2, 7).unwrap();
    Profile { training_samples: 3, restarts: 1, iterations: 1, ..default }
}

#[test]
fn refusals_in_words() {
    let words = |refusal: Refusal| (refusal.number(), refusal.values().to_vec(), refusal.to_string());
    let refusal = Profile::paper_default(4, 3, 2, 7).unwrap_err();
    assert_eq!(words(refusal), (3, vec![4, 3], "3: ambient dimension 4 is not divisible by block dimension 3".into()));
    let refusal = Profile { wire_rate: 9.0, ..profile() }.validate().unwrap_err();
    assert_eq!(words(refusal), (6, vec![7], "6: profile field unfit: wire rate 9, expected 0.5".into()));
    assert_eq!(refusal.rates(), Some((9.0, 0.5)));
    let refusal = train(&profile(), &[0.0; 4], &[0.0; 5], &[], 0).unwrap_err();
    assert_eq!(words(refusal), (7, vec![2], "7: wrong length: samples".into()));
    let refusal = train(&profile(), &[0.0, 0.0, f64::NAN, 0.0], &[0.0; 6], &[], 0).unwrap_err();
    assert_eq!(words(refusal), (18, vec![1, 2], "18: value 2 of initial codebook is not finite or too large".into()));
    let refusal = unpack_indices(&[0xdd, 0x03], 3, 3, &mut [0; 3]).unwrap_err();
    assert_eq!(words(refusal), (9, vec![3], "9: packed indices: padding bit set".into()));
}

#[test]
fn a_repair_needs_a_slot() {
    let samples = [0.0, 0.0, 1.0, 0.0, 3.0, 0.0];
    let same = [1.0, 0.0, 1.0, 0.0];
    let refusal = train(&profile(), &same, &samples, &[], 0).unwrap_err();
    assert_eq!((refusal.number(), refusal.values()), (19, &[0][..]));
    let trained = train(&profile(), &same, &samples, &[], 1).unwrap();
    assert_eq!((trained.report.events_used, trained.events.len()), (1, 1));
    assert_eq!(trained.events[0].empty_cell, 1);
    trained.report.validate(REPORT_SCHEMA, &profile()).unwrap();
    let refusal = trained.report.validate(b"", &profile()).unwrap_err();
    assert_eq!((refusal.number(), refusal.values()), (20, &[1][..]));
    let closed = Profile { empty_cell_policy: FAIL_CLOSED, ..profile() };
    assert_eq!(train(&closed, &same, &samples, &[], 1).unwrap_err().number(), 14);
}

#[test]
fn no_input_is_too_odd() {
    let huge = Profile { ambient_dim: u32::MAX, codebook_size: u32::MAX, training_samples: u32::MAX, ..profile() };
    assert!(train(&huge, &[], &[], &[], usize::MAX).is_err());
    assert!(Coder::new(huge, &[], &[]).is_err());
    let slots = train(&profile(), &[0.0; 4], &[0.0; 6], &[], usize::MAX).unwrap_err();
    assert_eq!((slots.number(), slots.values()), (7, &[9][..]));
    let mut coder = Coder::new(profile(), &[], &[]).unwrap();
    assert_eq!(coder.encode(&[]).unwrap_err().values(), [3]);
    assert_eq!(coder.decode(&[]).unwrap_err().number(), 8);
    assert_eq!(coder.blocks(&[]).unwrap_err().values(), [3]);
    assert!(nearest(&[], u64::MAX, u64::MAX, &[]).is_err());
    assert!(codewords_within(&[], u64::MAX, u64::MAX, &[], f64::NAN, &mut []).is_err());
    assert!(Profile::paper_default(u64::MAX, 0, 1, 0).is_err());
}

/// The lengths of what is handed in come before any room is taken, and the answer is the one that `refine` gives.
#[test]
fn a_profile_alone_takes_no_room() {
    let huge = Profile::paper_default(128, 64, 1 << 20, 7).unwrap();
    let refusal = train(&huge, &[], &[], &[], usize::MAX).unwrap_err();
    assert_eq!((refusal.number(), refusal.values()), (7, &[1][..]));
    let refusal = train(&Profile { restarts: 0, ..huge }, &[], &[], &[], usize::MAX).unwrap_err();
    assert_eq!((refusal.number(), refusal.values()), (6, &[9][..]));

    // Each slice one value short, right, or one too long; the first that is wrong is named.
    let two = Profile { restarts: 2, ..profile() };
    let zeros = [0.0; 7];
    for lengths in 0..27 {
        let [a, b, c] = [4 + lengths % 3 - 1, 6 + lengths / 3 % 3 - 1, 4 + lengths / 9 - 1];
        let (initial, samples, matrices) = (&zeros[..a], &zeros[..b], &zeros[..c]);
        let (mut work, mut counts, mut events) = ([0.0; 16], [0; 4], [Event::default(); 8]);
        let refined = refine(&two, initial, samples, matrices, &mut [0.0; 4], &mut work, &mut counts, &mut events);
        let refusal = train(&two, initial, samples, matrices, 8).unwrap_err();
        assert_eq!(refined, Err(refusal));
        // All samples are the same: nothing can be repaired.
        let wrong = [a != 4, b != 6, c != 4].iter().position(|wrong| *wrong);
        let expected = wrong.map_or((16, 0), |place| (7, place as u64 + 1));
        assert_eq!((refusal.number(), refusal.values()[0]), expected, "{a} {b} {c}");
    }
}

/// Work of any other length than a room's is refused and left as it was, document 01's longer one too.
#[test]
fn the_room_of_a_training() {
    let profile = profile();
    let room = Room::of(&profile).unwrap();
    assert_eq!((room.floats, room.counts), (16, 4));
    assert_eq!(Room::of(&Profile { training_samples: 10_000_000, ..profile }), Ok(room));
    assert_eq!(Room::of(&Profile { restarts: 0, ..profile }).unwrap_err().number(), 6);

    let (initial, samples) = ([0.0, 0.0, 4.0, 4.0], [0.0, 0.0, 2.0, 2.0, 4.0, 4.0]);
    for (floats, counts) in (0..=21).flat_map(|floats| (0..=6).map(move |counts| (floats, counts))) {
        let (mut codewords, mut work, mut numbers) = ([7.0; 4], vec![7.0; floats], vec![7; counts]);
        let answer = refine(&profile, &initial, &samples, &[], &mut codewords, &mut work, &mut numbers, &mut []);
        let (refused, left) = match (floats, counts) {
            (16, 4) => (None, 0),
            (16, _) => (Some("7: wrong length: integer work"), 7),
            _ => (Some("7: wrong length: float work"), 7),
        };
        assert_eq!(answer.err().map(|refusal| refusal.to_string()).as_deref(), refused, "{floats} {counts}");
        assert!(work.iter().all(|value| *value == f64::from(left)) && numbers.iter().all(|number| *number == left));
        assert_eq!(codewords, if left == 0 { [1.0, 1.0, 4.0, 4.0] } else { [7.0; 4] });
    }
}

#[test]
fn default_samples() {
    let samples = [8, 9, 333_333, 333_334, 1 << 20].map(|n| default_training_samples(n).unwrap());
    assert_eq!(samples, [256, 270, 9_999_990, 10_000_000, 10_000_000]);
}

/// NaNs of any sign and payload in a lent buffer are still the same bits after a refusal; the proofs don't tell them apart.
#[test]
fn refused_calls_keep_every_bit() {
    let nan = |place: usize| f64::from_bits(0x7ff0_0000_0000_0001 + (place as u64) * 0x8000_0000_0000_0007);
    let bits = |values: &[f64]| values.iter().map(|value| value.to_bits()).collect::<Vec<_>>();
    let (mut codebook, mut work): (Vec<f64>, Vec<f64>) = ((0..2).map(nan).collect(), (0..8).map(nan).collect());
    let before = (bits(&codebook), bits(&work));
    let terms = UpdateTerms { codebook_size: 2, block_dim: 1, policy: FAIL_CLOSED, restart: 0, iteration: 0 };
    let answer = update(terms, &mut codebook, &[1.0, 2.0], &[0, 1], &mut work, &mut [7; 2], &mut []);
    assert_eq!(answer.unwrap_err().number(), 18);
    assert_eq!((bits(&codebook), bits(&work)), before);
    let (matrix, mut frame) = ([1.0; 16], [9; 14]);
    let refused = encode(&profile(), &matrix, &[1.0, 0.0, -1.0, 0.0], &[f32::NAN; 4], &mut frame, &mut work);
    assert_eq!((refused.unwrap_err().number(), bits(&work), frame), (12, before.1.clone(), [9; 14]));
    let refused = decode(&profile(), &matrix, &[1.0, 0.0, -1.0, 0.0], &frame, &mut [0.0; 4], &mut work);
    assert_eq!((refused.unwrap_err().number(), bits(&work)), (8, before.1));
}
