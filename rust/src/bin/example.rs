//! The exported functions on the worked example of document 01, by the wrappers of `frames_check::library`.

use frames_check::library::{self, text_bound, IMAGE_MOST, SESSION_MOST, WAYS_MOST};
use std::fmt::Debug;

/// T = 48; links 0 and 1 have K 8 and Z 2.
const NET: [u8; 9] = [0x30, 0x00, 0x02, 0x03, 0x08, 0x02, 0x03, 0x08, 0x02];

/// The same, but that link 1 has a least hold Y of 0: its switch needs no frame to turn round.
const NO_HOLD: [u8; 10] = [0x30, 0x00, 0x02, 0x03, 0x08, 0x02, 0x0b, 0x08, 0x02, 0x00];

const CALLS: [u8; 21] = [
    0x01, 0x05, 0x00, 0x02, 0x00, 0x01, // set-up 5 over 0 1: frames 7 0, cycles 0 1, delay 6
    0x01, 0x05, 0x00, 0x02, 0x00, 0x01, // set-up 5 again: refused with 16
    0x03, 0x05, 0x00, // release 5
    0x02, 0x01, 0x00, // quote over 0
    0x03, 0x05, 0x00, // release 5: refused with 19
];

/// So many bytes of the calls leave session 5 live, and so many release it.
const LIVE: usize = 6;
const LIVE_STILL: usize = 12;
const RELEASED: usize = 15;

/// Set-ups of 5 and 6 over 0 1: what 5 holds leaves 6 frames 0 1, delay 6.
const TWO: [u8; 12] = [
    0x01, 0x05, 0x00, 0x02, 0x00, 0x01, 0x01, 0x06, 0x00, 0x02, 0x00, 0x01,
];

const TEXT: &str =
    "1 S ok 6 16 7 0 / 0 1\n2 S no 16\n3 R ok\n4 Q ok 0 0 0 / 0\n5 R no 19\nlive 0\n";

/// Numbers of two bytes and of four; 65,541 has the low 16 bits of 5.
const MIXED: [u8; 27] = [
    0x01, 0x05, 0x00, 0x02, 0x00, 0x01, // set-up 5 over 0 1
    0x04, 0x05, 0x00, 0x01, 0x00, 0x02, 0x00, 0x01, // set-up 65,541 over 0 1: as 6 above
    0x05, 0x05, 0x00, 0x00, 0x00, // release 5
    0x03, 0x05, 0x00, // release 5: refused with 19, since 65,541 is another number
    0x05, 0x05, 0x00, 0x01, 0x00, // release 65,541
];

/// So many bytes of these leave both sessions live, and so many 65,541 alone.
const BOTH: usize = 14;
const ONE: usize = 22;

const MIXED_TEXT: &str =
    "1 S ok 6 16 7 0 / 0 1\n2 S ok 6 13 0 1 / 0 0\n3 R ok\n4 R no 19\n5 R ok\nlive 0\n";

/// The bytes that `report` demands for its text on the calls.
const TEXT_BOUND: usize = text_bound(CALLS.len());

fn main() {
    try_report();
    try_lookup();
    try_free_frames();
    try_ways();
    try_image();
    try_write();
}

/// What a call writes into a buffer of so many places, or its refusal. All other places must stay as they were.
fn written<T: Copy + Debug + PartialEq + From<u8>>(
    room: usize,
    call: impl FnOnce(&mut [T]) -> Result<usize, u64>,
) -> Result<Vec<T>, u64> {
    let untouched = T::from(0xa5);
    let mut places = vec![untouched; room + 8];
    let answer = call(&mut places[..room]);
    let rest = places.split_off(answer.unwrap_or(0));
    assert_eq!(rest, vec![untouched; rest.len()]);
    answer.map(|_| places)
}

fn try_report() {
    let mut text = [0; TEXT_BOUND];
    let length = library::report(&NET, &CALLS, &mut text).expect("the buffer serves");
    assert_eq!(&text[..length], TEXT.as_bytes());

    let report = |calls, room| written(room, |out| library::report(&NET, calls, out));
    assert_eq!(TEXT_BOUND, 22 + 11 * 21);
    assert_eq!(report(&CALLS, TEXT_BOUND), Ok(TEXT.into()));
    assert_eq!(report(&CALLS, TEXT_BOUND - 1), Err(20));
    assert_eq!(report(&[], 22), Ok("live 0\n".into()));
    assert_eq!(report(&[], 21), Err(20));
    let mixed = |length| report(&MIXED[..length], text_bound(length));
    assert_eq!(mixed(MIXED.len()), Ok(MIXED_TEXT.into()));
    // the second record is cut in its route
    let cut = "1 S ok 6 16 7 0 / 0 1\n2 ? no 11\nlive 1\n";
    assert_eq!(mixed(BOTH - 1), Ok(cut.into()));
    // with Y 0 on link 1 frame 0 is sent on within frame 0; from each of 8 frames there are the holds 0, 1 and 2
    let text = |file, calls| written(text_bound(4), |out| library::report(file, calls, out));
    let quote = [0x02, 0x02, 0x00, 0x01];
    let no_hold = "1 Q ok 0 24 0 0 / 0 0\nlive 0\n";
    assert_eq!(text(&NO_HOLD, &quote), Ok(no_hold.into()));
    assert_eq!(text(&ABOVE_RANGE, &quote), Ok("net no 21\n".into()));
    println!("library::report: as expected");
}

fn try_lookup() {
    let mut session = [0; SESSION_MOST];
    let length = library::lookup(&NET, &CALLS[..LIVE], 5, &mut session).expect("5 is live");
    // two hops, a delay of 6 ticks, links 0 1, frames 7 0, cycles 0 1: reference frame 7 and hold 1 aren't below K 8
    let shown = [2, 6, 0, 1, 7, 0, 0, 1];
    assert_eq!(session[..length], shown);

    let lookup =
        |calls, number, room| written(room, |out| library::lookup(&NET, calls, number, out));
    assert_eq!(lookup(&CALLS[..LIVE], 5, SESSION_MOST), Ok(shown.into()));
    assert_eq!(lookup(&CALLS[..LIVE_STILL], 5, 8), Ok(shown.into()));
    assert_eq!(lookup(&CALLS[..LIVE], 5, 7), Err(20));
    assert_eq!(lookup(&CALLS[..RELEASED], 5, SESSION_MOST), Err(19));
    assert_eq!(lookup(&CALLS[..LIVE], 6, 0), Err(19));
    // reference frame 0 and hold 1 are below K 8
    let beside = [2, 6, 0, 1, 0, 1, 0, 0];
    assert_eq!(lookup(&TWO, 5, SESSION_MOST), Ok(shown.into()));
    assert_eq!(lookup(&TWO, 6, SESSION_MOST), Ok(beside.into()));
    assert_eq!(lookup(&MIXED[..BOTH], 5, 8), Ok(shown.into()));
    assert_eq!(lookup(&MIXED[..BOTH], 65_541, 8), Ok(beside.into()));
    assert_eq!(lookup(&MIXED[..BOTH], 131_077, 8), Err(19));
    assert_eq!(lookup(&MIXED[..ONE], 5, 8), Err(19));
    assert_eq!(lookup(&MIXED[..ONE], 65_541, 8), Ok(beside.into()));
    assert_eq!(lookup(&MIXED, 65_541, 8), Err(19));
    let no_hold = written(8, |out| library::lookup(&NO_HOLD, &CALLS[..LIVE], 5, out));
    assert_eq!(no_hold, Ok(vec![2, 0, 0, 1, 0, 0, 0, 0]));
    println!("library::lookup: as expected");
}

fn try_free_frames() {
    let count = library::free_frames(&NET, &CALLS[..LIVE], 0);
    // frame 7 of link 0 is held
    assert_eq!(count, Ok(7));

    let free_frames = |length, link| library::free_frames(&NET, &CALLS[..length], link);
    assert_eq!(free_frames(LIVE, 1), Ok(7));
    assert_eq!(free_frames(RELEASED, 0), Ok(8));
    assert_eq!(free_frames(LIVE, 2), Err(13));
    println!("library::free_frames: as expected");
}

/// Question four's A{3} B{6}: links of K 8 and Z 2 on which those frames alone are free.
const BLOCKED: [u8; 25] = [
    0x30, 0x00, 0x02, 0x07, 0x08, 0x02, 0xf7, 0, 0, 0, 0, 0, 0, 0, 0x07, 0x08, 0x02, 0xbf, 0, 0, 0,
    0, 0, 0, 0,
];

/// Question four's D and F: links of K 4 and K 6.
const UNFIT: [u8; 9] = [0x30, 0x00, 0x02, 0x03, 0x04, 0x02, 0x03, 0x06, 0x02];

fn try_ways() {
    let mut number = [0];
    library::ways(&NET, &CALLS[..LIVE], &[0, 1], &mut number).expect("the route passes");
    // from each of the frames 0 to 5 of link 0 two holds; from 6 one, since frame 0 of link 1 is held; 7 is held: 6 * 2 + 1
    assert_eq!(number, [13]);

    let ways =
        |file, calls, route, room| written(room, |out| library::ways(file, calls, route, out));
    assert_eq!(ways(&NET, &[], &[0, 1], 1), Ok(vec![8 * 2]));
    assert_eq!(ways(&NET, &CALLS[..RELEASED], &[0, 1], 1), Ok(vec![16]));
    assert_eq!(ways(&NET, &CALLS[..LIVE], &[0, 1], 5), Ok(vec![13]));
    // frames 1 to 7 of link 1, two holds each, but 5 and 6 one each, since frame 7 of link 0 is held
    assert_eq!(ways(&NET, &CALLS[..LIVE], &[1, 0], 1), Ok(vec![7 * 2 - 2]));
    // frames 1 to 6 of link 0, two holds each into frames 2 to 7 of link 1, but 6 one
    assert_eq!(ways(&NET, &TWO, &[0, 1], 1), Ok(vec![6 * 2 - 1]));
    assert_eq!(ways(&NET, &CALLS[..LIVE], &[0], 1), Ok(vec![7]));
    assert_eq!(ways(&BLOCKED, &[], &[0, 1], 1), Ok(vec![0]));
    assert_eq!(ways(&NO_HOLD, &[], &[0, 1], 1), Ok(vec![8 * 3]));
    assert_eq!(ways(&NO_HOLD, &[], &[1, 0], 1), Ok(vec![8 * 2]));
    assert_eq!(ways(&ABOVE_RANGE, &[], &[], 0), Err(21));
    assert_eq!(ways(&NET, &CALLS[..LIVE], &[], 1), Err(12));
    assert_eq!(ways(&NET, &CALLS[..LIVE], &[0, 0, 2], 1), Err(13));
    assert_eq!(ways(&NET, &CALLS[..LIVE], &[0, 0], 1), Err(14));
    assert_eq!(ways(&UNFIT, &[], &[0, 1], 1), Err(15));
    assert_eq!(ways(&NET, &CALLS[..LIVE], &[0, 1], 0), Err(20));
    assert_eq!(ways(&NET[..2], &CALLS[..LIVE], &[0, 1], 0), Err(1));

    // eight links of K 64 and Z 64 in a cycle of 64 ticks
    let largest = [&[0x40, 0x00, 0x08][..], &[0x03, 0x40, 0x40].repeat(8)].concat();
    let route = [0, 1, 2, 3, 4, 5, 6, 7];
    assert_eq!(ways(&largest, &[], &route, 1), Ok(vec![WAYS_MOST]));
    println!("library::ways: as expected");
}

fn try_image() {
    let mut image = [0; IMAGE_MOST];
    let length = library::image(&NET, &mut image).expect("the file passes");
    assert_eq!(image[..length], NET);

    let image = |file, room| written(room, |out| library::image(file, out));
    assert_eq!(image(&NET, 9), Ok(NET.into()));
    assert_eq!(image(&NET, 8), Err(20));
    // the last record has no Z
    assert_eq!(image(&NET[..8], 8), Err(4));
    assert_eq!(image(&[], 0), Err(1));
    assert_eq!(image(&NO_HOLD, 10), Ok(NO_HOLD.into()));
    // the last record has no Y
    assert_eq!(image(&NO_HOLD[..9], 9), Err(4));
    assert_eq!(image(&ABOVE_RANGE, 0), Err(21));
    println!("library::image: as expected");
}

/// One link of K 16 and Z 4 with Y 5.
const ABOVE_RANGE: [u8; 5] = [0x30, 0x00, 0x01, 0x08, 0x05];

fn try_write() {
    let mut image = [0; IMAGE_MOST];
    let answer = library::write(48, &[16, 8], &[4, 2], &[0, 0], &[1, 1], &mut image);
    let length = answer.expect("the values pass");
    // link 0 has the absent values alone, K 16, Z 4 and Y 1; link 1 has K 8 and Z 2
    let expected = [0x30, 0x00, 0x02, 0x00, 0x03, 0x08, 0x02];
    assert_eq!(image[..length], expected);

    let two = |least, room| {
        written(room, |out| {
            library::write(48, &[8, 8], &[2, 2], &[0, 0], least, out)
        })
    };
    assert_eq!(two(&[1, 1], 9), Ok(NET.into()));
    assert_eq!(two(&[1, 0], 10), Ok(NO_HOLD.into()));
    assert_eq!(two(&[1, 0], 9), Err(20));
    assert_eq!(two(&[1, 3], 9), Err(21));
    assert_eq!(
        two(&[1], 6),
        Ok([0x30, 0x00, 0x01, 0x03, 0x08, 0x02].into())
    );
    assert_eq!(two(&[], IMAGE_MOST), Err(2));

    let write = |ticks, frames, range, closed, least| {
        written(IMAGE_MOST, |out| {
            library::write(ticks, &[frames], &[range], &[closed], &[least], out)
        })
    };
    assert_eq!(write(961, 8, 2, 0, 1), Err(3));
    assert_eq!(write(48, 5, 2, 0, 1), Err(7));
    assert_eq!(write(48, 8, 9, 0, 1), Err(8));
    // Y above Z, Y 0 with Z K, and of 21 and 9 the first
    assert_eq!(write(48, 8, 2, 0, 3), Err(21));
    assert_eq!(write(48, 8, 8, 0, 0), Err(21));
    assert_eq!(write(48, 8, 2, 1 << 8, 3), Err(21));
    assert_eq!(write(48, 8, 2, 1 << 8, 2), Err(9));
    println!("library::write: as expected");
}
