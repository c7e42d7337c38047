//! The program `frames` as a plain model: the calls, their refusals, the ledger and the text; lookup, free frames and ways.

use crate::call_records::{read_call, Call, Read};
use crate::network_file::{read_network, refuse, Link, Network, Refusal};
use crate::route::{self, Answer, Hop, MAX_HOPS};
use crate::ways;
use std::io::Write;

/// The bytes of call records that count.
pub const INPUT_LIMIT: usize = 65_536;

/// What a call answers: a schedule, a release done, or a refusal; 18 has its count.
enum Outcome {
    Schedule(Found),
    Released,
    Refused(Refusal),
    Blocked(u32),
}

/// A schedule that was found.
struct Found {
    delay: u32,
    count: u32,
    frames: Vec<u8>,
    cycles: Vec<u8>,
}

/// An entry of the ledger: a live session's number, route, frames, their cycles and delay.
#[derive(Clone)]
pub struct Session {
    pub number: u32,
    pub route: Vec<u8>,
    pub frames: Vec<u8>,
    pub cycles: Vec<u8>,
    pub delay: u32,
}

/// The live sessions, and for each link the word of the frames they hold.
pub struct Ledger {
    pub sessions: Vec<Session>,
    pub held: Vec<u64>,
}

/// A network with the ledger of the calls that were served on it.
pub struct State {
    pub network: Network,
    pub ledger: Ledger,
}

/// The state after a list of calls, or the refusal of the file.
pub type Stored = Result<State, Refusal>;

/// What a run comes to: its text, and the state after its calls.
pub struct Run {
    pub text: Vec<u8>,
    pub state: Stored,
}

/// The rules that a run goes by. What stands here is the document; `wrong` replaces single rules.
pub trait Rules {
    /// The search for the least-delay schedule.
    fn least(&self, ticks: u32, hops: &[Hop]) -> Answer;

    /// How many bytes of the calls count.
    fn input_limit(&self) -> usize {
        INPUT_LIMIT
    }

    /// Reads the call record at the start of the bytes.
    fn read_call<'a>(&self, bytes: &'a [u8]) -> Read<'a> {
        read_call(bytes)
    }

    /// Where a record can't be read: the bytes from which on calls are served all the same, here none.
    fn after_unreadable<'a>(&self, _rest: &'a [u8]) -> &'a [u8] {
        &[]
    }

    /// How many sessions can be live.
    fn places(&self) -> usize {
        96
    }

    /// Reads the network file.
    fn read(&self, file: &[u8]) -> Result<Network, Refusal> {
        read_network(file)
    }

    /// The checks of a route, 12 to 15.
    fn check_route(&self, network: &Network, route: &[u8]) -> Result<(), Refusal> {
        check_route(network, route)
    }

    /// All checks of a set-up before its search, 12 to 17.
    fn check_set_up(
        &self,
        network: &Network,
        ledger: &Ledger,
        number: u32,
        route: &[u8],
    ) -> Result<(), Refusal> {
        self.check_route(network, route)?;
        self.check_number(ledger, number)?;
        self.check_places(ledger)
    }

    /// Check 16 of a set-up.
    fn check_number(&self, ledger: &Ledger, number: u32) -> Result<(), Refusal> {
        refuse(16, ledger.place_of(number).is_some())
    }

    /// Check 17 of a set-up.
    fn check_places(&self, ledger: &Ledger) -> Result<(), Refusal> {
        refuse(17, ledger.sessions.len() >= self.places())
    }

    /// The number that a session is entered with.
    fn entered(&self, number: u32) -> u32 {
        number
    }

    /// Where the session stands that a release of that number strikes out; check 19.
    fn to_release(&self, ledger: &Ledger, number: u32) -> Option<usize> {
        ledger.place_of(number)
    }

    /// Frees the frames of a session that has just been struck out.
    fn free(&self, ledger: &mut Ledger, session: &Session) {
        for (&link, &frame) in session.route.iter().zip(&session.frames) {
            ledger.held[link as usize] &= !(1 << frame);
        }
    }

    /// What a quote leaves behind: nothing.
    fn after_quote(&self, _ledger: &mut Ledger, _route: &[u8], _frames: &[u8]) {}
}

/// The document's rules with a search of the caller's choice.
struct Document<F>(F);

impl<F: Fn(u32, &[Hop]) -> Answer> Rules for Document<F> {
    fn least(&self, ticks: u32, hops: &[Hop]) -> Answer {
        (self.0)(ticks, hops)
    }
}

/// The run of the program on a network file and its calls, with the search handed in.
pub fn run(file: &[u8], calls: &[u8], least: impl Fn(u32, &[Hop]) -> Answer) -> Run {
    run_by(&Document(least), file, calls)
}

/// The text of that run.
pub fn transcript(file: &[u8], calls: &[u8], least: impl Fn(u32, &[Hop]) -> Answer) -> Vec<u8> {
    run(file, calls, least).text
}

/// The run of the program by the rules handed in.
pub fn run_by(rules: &impl Rules, file: &[u8], calls: &[u8]) -> Run {
    let mut text = Vec::new();
    let state = rules.read(file).map(|network| {
        let calls = &calls[..calls.len().min(rules.input_limit())];
        let ledger = serve_all(rules, &network, calls, &mut text);
        State { network, ledger }
    });
    match &state {
        Err(refusal) => line(&mut text, format_args!("net no {refusal}")),
        Ok(state) => {
            let live = state.ledger.sessions.len();
            line(&mut text, format_args!("live {live}"));
        }
    }
    Run { text, state }
}

/// A run is refused with 20 where its buffer is shorter than this, whatever the text.
pub fn room_for_run(calls: &[u8]) -> usize {
    22 + 11 * calls.len().min(INPUT_LIMIT)
}

/// Serves the calls in turn, a line for each, and answers the ledger at the end.
fn serve_all(rules: &impl Rules, network: &Network, calls: &[u8], text: &mut Vec<u8>) -> Ledger {
    let mut ledger = Ledger::new(network);
    let mut rest = calls;
    let mut place = 0;
    while !rest.is_empty() {
        place += 1;
        match rules.read_call(rest) {
            Err(refusal) => {
                line(text, format_args!("{place} ? no {refusal}"));
                rest = rules.after_unreadable(rest);
            }
            Ok((call, used)) => {
                let outcome = serve(rules, network, &mut ledger, call);
                write_outcome(text, place, letter(call), &outcome);
                rest = &rest[used..];
            }
        }
    }
    ledger
}

// ---- The calls ----

/// Checks 12 to 15 of a route, each for the whole route before the next.
pub fn check_route(network: &Network, route: &[u8]) -> Result<(), Refusal> {
    refuse(12, route.is_empty() || route.len() > MAX_HOPS)?;
    for &link in route {
        refuse(13, usize::from(link) >= network.links.len())?;
    }
    for (j, link) in route.iter().enumerate() {
        refuse(14, route[..j].contains(link))?;
    }
    for pair in route.windows(2) {
        let before = network.links[usize::from(pair[0])].frames;
        let here = network.links[usize::from(pair[1])].frames;
        refuse(15, before % here != 0 && here % before != 0)?;
    }
    Ok(())
}

/// Serves one call and keeps the ledger.
fn serve(rules: &impl Rules, network: &Network, ledger: &mut Ledger, call: Call<'_>) -> Outcome {
    match call {
        Call::SetUp { number, route } => {
            if let Err(refusal) = rules.check_set_up(network, ledger, number, route) {
                return Outcome::Refused(refusal);
            }
            let outcome = search(rules, network, ledger, route);
            if let Outcome::Schedule(found) = &outcome {
                ledger.enter(rules.entered(number), route, found);
            }
            outcome
        }
        Call::Quote { route } => {
            if let Err(refusal) = rules.check_route(network, route) {
                return Outcome::Refused(refusal);
            }
            let outcome = search(rules, network, ledger, route);
            if let Outcome::Schedule(found) = &outcome {
                rules.after_quote(ledger, route, &found.frames);
            }
            outcome
        }
        Call::Release { number } => match rules.to_release(ledger, number) {
            None => Outcome::Refused(19),
            Some(place) => {
                let session = ledger.sessions.swap_remove(place);
                rules.free(ledger, &session);
                Outcome::Released
            }
        },
    }
}

/// Searches over the frames of a checked route that are neither closed nor held.
fn search(rules: &impl Rules, network: &Network, ledger: &Ledger, route: &[u8]) -> Outcome {
    let hops = hops_of(network, ledger, route);
    match rules.least(network.ticks, &hops[..route.len()]) {
        Answer::Blocked { count } => Outcome::Blocked(count),
        Answer::Found {
            delay,
            count,
            frames,
            cycles,
        } => Outcome::Schedule(Found {
            delay,
            count,
            frames,
            cycles,
        }),
    }
}

/// The hops of a checked route over the frames that are neither closed nor held; the places after them unused.
pub fn hops_of(network: &Network, ledger: &Ledger, route: &[u8]) -> [Hop; MAX_HOPS] {
    let unused = Hop {
        frames: 1,
        range: 1,
        least: 1,
        free: 0,
    };
    let mut hops = [unused; MAX_HOPS];
    for (hop, &number) in hops.iter_mut().zip(route) {
        let link = &network.links[usize::from(number)];
        let held = ledger.held[usize::from(number)];
        *hop = Hop {
            frames: link.frames,
            range: link.range,
            least: link.least,
            free: route::ones(link.frames) & !link.closed & !held,
        };
    }
    hops
}

impl Ledger {
    /// The empty ledger of a network.
    pub fn new(network: &Network) -> Self {
        Ledger {
            sessions: Vec::new(),
            held: vec![0; network.links.len()],
        }
    }

    /// Where the live session of that number stands.
    pub fn place_of(&self, number: u32) -> Option<usize> {
        self.sessions.iter().position(|s| s.number == number)
    }

    /// Enters a session and holds its frames.
    fn enter(&mut self, number: u32, route: &[u8], found: &Found) {
        for (&link, &frame) in route.iter().zip(&found.frames) {
            self.held[usize::from(link)] |= 1 << frame;
        }
        self.sessions.push(Session {
            number,
            route: route.to_vec(),
            frames: found.frames.clone(),
            cycles: found.cycles.clone(),
            delay: found.delay,
        });
    }

    /// Has an entry this frame of this link?
    fn holds(&self, link: u8, frame: u32) -> bool {
        self.sessions.iter().any(|session| {
            let mut hops = session.route.iter().zip(&session.frames);
            hops.any(|(&l, &f)| l == link && u32::from(f) == frame)
        })
    }
}

// ---- Lookup, free frames and ways ----

impl Session {
    /// What a lookup hands out: the number of hops, the delay, and of each hop the link, then the frame, then the cycle.
    pub fn shown(&self) -> Vec<u16> {
        let head = [self.route.len() as u16, self.delay as u16];
        let hops = [&self.route[..], &self.frames, &self.cycles].concat();
        head.into_iter()
            .chain(hops.into_iter().map(u16::from))
            .collect()
    }
}

impl State {
    /// The live session of that number; check 19.
    pub fn lookup(&self, number: u32) -> Result<&Session, Refusal> {
        let place = self.ledger.place_of(number).ok_or(19u32)?;
        Ok(&self.ledger.sessions[place])
    }

    /// How many frames of a link are neither closed nor held, counted one by one; check 13.
    pub fn free_frames(&self, link: u8) -> Result<u64, Refusal> {
        let Link { frames, closed, .. } = *self.link(link)?;
        let free = (0..frames).filter(|&i| !route::has(closed, i) && !self.ledger.holds(link, i));
        Ok(free.count() as u64)
    }

    /// The hops of a route over the frames that are neither closed nor held; checks 12 to 15.
    pub fn hops(&self, route: &[u8]) -> Result<Vec<Hop>, Refusal> {
        check_route(&self.network, route)?;
        Ok(hops_of(&self.network, &self.ledger, route)[..route.len()].to_vec())
    }

    /// The link of that number; check 13.
    pub fn link(&self, link: u8) -> Result<&Link, Refusal> {
        self.network.links.get(usize::from(link)).ok_or(13)
    }
}

/// What a lookup after the calls hands out, where so many numbers are room for it: the refusal of the file, 19, 20.
pub fn lookup(stored: &Stored, number: u32, room: usize) -> Result<Vec<u16>, Refusal> {
    let state = stored.as_ref().map_err(Refusal::clone)?;
    let shown = state.lookup(number)?.shown();
    refuse(20, room < shown.len())?;
    Ok(shown)
}

/// The number of free frames of a link after the calls: the refusal of the file, 13.
pub fn free_frames(stored: &Stored, link: u8) -> Result<u64, Refusal> {
    stored.as_ref().map_err(Refusal::clone)?.free_frames(link)
}

/// The number of schedules over a route after the calls, where so many numbers are room for it: the refusal of the file,
/// 12 to 15, 20. There is no 18: a blocked route has the number 0.
pub fn ways(stored: &Stored, route: &[u8], room: usize) -> Result<u64, Refusal> {
    let hops = stored.as_ref().map_err(Refusal::clone)?.hops(route)?;
    refuse(20, room < 1)?;
    Ok(ways::number(&hops))
}

// ---- The text ----

/// Adds a line with its newline.
fn line(text: &mut Vec<u8>, words: std::fmt::Arguments<'_>) {
    text.write_fmt(words).expect("a vector takes every byte");
    text.push(b'\n');
}

/// The letter of a call.
fn letter(call: Call<'_>) -> char {
    match call {
        Call::SetUp { .. } => 'S',
        Call::Quote { .. } => 'Q',
        Call::Release { .. } => 'R',
    }
}

/// Adds the line of an answered call.
fn write_outcome(text: &mut Vec<u8>, place: usize, letter: char, outcome: &Outcome) {
    match outcome {
        Outcome::Released => line(text, format_args!("{place} {letter} ok")),
        Outcome::Refused(refusal) => line(text, format_args!("{place} {letter} no {refusal}")),
        Outcome::Blocked(count) => line(text, format_args!("{place} {letter} no 18 {count}")),
        Outcome::Schedule(found) => {
            let (delay, count) = (found.delay, found.count);
            write!(text, "{place} {letter} ok {delay} {count}").expect("a vector takes every byte");
            write_numbers(text, &found.frames);
            text.extend(b" /");
            write_numbers(text, &found.cycles);
            text.push(b'\n');
        }
    }
}

/// Adds numbers, each with a space before it.
fn write_numbers(text: &mut Vec<u8>, numbers: &[u8]) {
    for number in numbers {
        write!(text, " {number}").expect("a vector takes every byte");
    }
}

#[cfg(test)]
mod tests {
    use super::*;
    use crate::random::Random;
    use crate::{dijkstra, inputs, listing};

    const TWO_LINKS: [u8; 9] = [0x30, 0, 2, 3, 8, 2, 3, 8, 2];

    /// The text of both searches, which must be the same.
    fn text(file: &[u8], calls: &[u8]) -> String {
        let listed = transcript(file, calls, listing::least);
        assert_eq!(listed, transcript(file, calls, dijkstra::least));
        String::from_utf8(listed).unwrap()
    }

    #[test]
    fn worked_example() {
        let calls = [
            1, 5, 0, 2, 0, 1, 1, 5, 0, 2, 0, 1, 3, 5, 0, 2, 1, 0, 3, 5, 0,
        ];
        let expected =
            "1 S ok 6 16 7 0 / 0 1\n2 S no 16\n3 R ok\n4 Q ok 0 0 0 / 0\n5 R no 19\nlive 0\n";
        assert_eq!(text(&TWO_LINKS, &calls), expected);
    }

    #[test]
    fn refused_files() {
        assert_eq!(text(&[0x30, 0], &[2, 1, 0]), "net no 1\n");
        assert_eq!(text(&[0x30, 0, 1, 0, 0], &[2, 1, 0]), "net no 10\n");
    }

    #[test]
    fn refused_routes() {
        // Links 0 and 1 have K 8, link 2 has K 4, link 3 has K 6.
        let file = [0x30, 0, 4, 3, 8, 2, 3, 8, 2, 3, 4, 2, 3, 6, 2];
        let network = read_network(&file).unwrap();
        let cases: [(&[u8], Result<(), u32>); 10] = [
            (&[], Err(12)),
            (&[9; 9], Err(12)),
            (&[0; 200], Err(12)),
            (&[4], Err(13)),
            (&[0, 0, 4], Err(13)),
            (&[0, 0], Err(14)),
            (&[2, 3, 2], Err(14)),
            (&[2, 3], Err(15)),
            (&[3, 0], Err(15)),
            (&[0, 2, 1], Ok(())),
        ];
        for (route, expected) in cases {
            assert_eq!(check_route(&network, route), expected, "{route:?}");
        }
    }

    #[test]
    fn broken_call_records() {
        assert_eq!(text(&TWO_LINKS, &[]), "live 0\n");
        assert_eq!(text(&TWO_LINKS, &[0, 1, 0]), "1 ? no 11\nlive 0\n");
        assert_eq!(text(&TWO_LINKS, &[6; 20]), "1 ? no 11\nlive 0\n");
        assert_eq!(
            text(&TWO_LINKS, &[1, 7, 0, 1, 0, 0]),
            "1 S ok 0 0 0 / 0\n2 ? no 11\nlive 1\n"
        );
        for cut in [&[1, 7, 0, 2, 0][..], &[4, 7, 0, 0, 0, 2, 0], &[5, 7, 0, 0]] {
            for length in 1..=cut.len() {
                assert_eq!(text(&TWO_LINKS, &cut[..length]), "1 ? no 11\nlive 0\n");
            }
        }
        let mut long = vec![2, 200];
        long.extend([0; 200]);
        assert_eq!(text(&TWO_LINKS, &long[..201]), "1 ? no 11\nlive 0\n");
        long.extend([2, 1, 1]);
        assert_eq!(
            text(&TWO_LINKS, &long),
            "1 Q no 12\n2 Q ok 0 0 0 / 0\nlive 0\n"
        );
    }

    #[test]
    fn bytes_beyond_the_limit() {
        // 21,845 releases fill 65,535 bytes; one byte of the next record is left.
        let calls = [3, 0, 0].repeat(21_846);
        let text = text(&TWO_LINKS, &calls);
        assert!(text.ends_with("21845 R no 19\n21846 ? no 11\nlive 0\n"));
        // With numbers of four bytes 13,107 fill as many, and four bytes of the next record lie beyond the limit.
        let calls = [5, 0, 0, 0, 0].repeat(13_108);
        let text = self::text(&TWO_LINKS, &calls);
        assert!(text.ends_with("13107 R no 19\n13108 ? no 11\nlive 0\n"));
        // 32,768 empty quotes fill the bytes that count; what follows is ignored.
        let calls = [2, 0].repeat(40_000);
        let text = String::from_utf8(transcript(&TWO_LINKS, &calls, dijkstra::least)).unwrap();
        assert!(text.ends_with("\n32768 Q no 12\nlive 0\n"));
    }

    #[test]
    fn one_number_in_two_bytes_and_in_four() {
        let calls: [&[u8]; 7] = [
            &[4, 5, 0, 0, 0, 1, 0],
            &[1, 5, 0, 1, 1],
            &[3, 5, 0],
            &[1, 5, 0, 1, 0],
            &[4, 5, 0, 0, 0, 1, 1],
            &[5, 5, 0, 0, 0],
            &[3, 5, 0],
        ];
        assert_eq!(
            text(&TWO_LINKS, &calls.concat()),
            "1 S ok 0 0 0 / 0\n2 S no 16\n3 R ok\n4 S ok 0 0 0 / 0\n5 S no 16\n6 R ok\n7 R no 19\nlive 0\n"
        );
    }

    #[test]
    fn numbers_alike_in_their_low_16_bits() {
        // 65,541 gets frame 0 of link 0, is not released by 5, and stands beside 5 with frame 1 and 16,777,221 with frame 2.
        let calls: [&[u8]; 8] = [
            &[4, 5, 0, 1, 0, 1, 0],
            &[3, 5, 0],
            &[5, 5, 0, 0, 0],
            &[1, 5, 0, 1, 0],
            &[4, 5, 0, 0, 1, 1, 0],
            &[5, 5, 0, 0, 1],
            &[3, 5, 0],
            &[2, 1, 0],
        ];
        let calls = calls.concat();
        assert_eq!(
            text(&TWO_LINKS, &calls),
            "1 S ok 0 0 0 / 0\n2 R no 19\n3 R no 19\n4 S ok 0 0 1 / 0\n5 S ok 0 0 2 / 0\n6 R ok\n7 R ok\n\
             8 Q ok 0 0 1 / 0\nlive 1\n"
        );
        let stored = after(&TWO_LINKS, &calls);
        assert_eq!(lookup(&stored, 65_541, 5), Ok(vec![1, 0, 0, 0, 0]));
        assert_eq!(lookup(&stored, 5, 5), Err(19));
        assert_eq!(lookup(&stored, 16_777_221, 5), Err(19));
    }

    #[test]
    fn release_frees_its_own_frames_only() {
        // Two sessions hold frame 0, one on each link; the release of one leaves the other's frame held.
        let calls = [1, 1, 0, 1, 0, 1, 2, 0, 1, 1, 3, 1, 0, 2, 1, 0, 2, 1, 1];
        assert_eq!(
            text(&TWO_LINKS, &calls),
            "1 S ok 0 0 0 / 0\n2 S ok 0 0 0 / 0\n3 R ok\n4 Q ok 0 0 0 / 0\n5 Q ok 0 0 1 / 0\nlive 1\n"
        );
    }

    #[test]
    fn full_network_and_full_ledger() {
        // T 64, two links of 64 frames: 96 sessions fit, the next is 17; a live number is 16 before.
        let file = [64, 0, 2, 1, 64, 1, 64];
        let mut calls = Vec::new();
        for number in 0..96 {
            calls.extend([1, number, 0, 1, number / 64]);
        }
        calls.extend([1, 200, 0, 1, 0, 1, 95, 0, 1, 1, 1, 200, 0, 1, 9]);
        calls.extend([3, 95, 0, 1, 200, 0, 1, 0, 1, 200, 0, 1, 1, 2, 1, 0]);
        let text = text(&file, &calls);
        let tail = "96 S ok 0 0 31 / 0\n97 S no 17\n98 S no 16\n99 S no 13\n100 R ok\n\
                    101 S no 18 0\n102 S ok 0 0 31 / 0\n103 Q no 18 0\nlive 96\n";
        assert!(text.ends_with(tail), "{text}");
    }

    // ---- Lookup and free frames ----

    /// Set-ups of 5 over 0 1 and of 6 over 1 0: both get frames 7 0 in cycles 0 1 with delay 6, as in the document's example.
    const TWO_SESSIONS: [u8; 12] = [1, 5, 0, 2, 0, 1, 1, 6, 0, 2, 1, 0];

    /// The state after calls on a file.
    fn after(file: &[u8], calls: &[u8]) -> Stored {
        run(file, calls, listing::least).state
    }

    /// The free frames of links 0, 1 and 2.
    fn free(stored: &Stored) -> [Result<u64, Refusal>; 3] {
        [0, 1, 2].map(|link| free_frames(stored, link))
    }

    #[test]
    fn lookup_shows_hops_delay_links_frames_and_cycles() {
        let stored = after(&TWO_LINKS, &TWO_SESSIONS);
        assert_eq!(lookup(&stored, 5, 8), Ok(vec![2, 6, 0, 1, 7, 0, 0, 1]));
        assert_eq!(lookup(&stored, 6, 8), Ok(vec![2, 6, 1, 0, 7, 0, 0, 1]));
        assert_eq!(lookup(&stored, 7, 8), Err(19));
        assert_eq!(lookup(&stored, 5 + 256, 8), Err(19));
        assert_eq!(lookup(&stored, 5 + 65_536, 8), Err(19));
        let released = after(&TWO_LINKS, &[&TWO_SESSIONS[..], &[3, 5, 0]].concat());
        assert_eq!(lookup(&released, 5, 8), Err(19));
        assert_eq!(lookup(&released, 6, 8), Ok(vec![2, 6, 1, 0, 7, 0, 0, 1]));
    }

    #[test]
    fn lookup_from_slow_to_fast() {
        // Question four's A{3} C{10} by W-201: T 48, link 0 has K 8 and Z 2, link 1 has K 16 and Z 4; 9 ticks.
        let file = [
            0x30, 0, 2, 7, 8, 2, 0xf7, 0, 0, 0, 0, 0, 0, 0, 4, 0xff, 0xfb, 0, 0, 0, 0, 0, 0,
        ];
        let stored = after(&file, &[1, 0, 0, 2, 0, 1]);
        assert_eq!(lookup(&stored, 0, 8), Ok(vec![2, 9, 0, 1, 3, 10, 0, 0]));
        assert_eq!(free(&stored), [Ok(0), Ok(0), Err(13)]);
        assert_eq!(free(&after(&file, &[])), [Ok(1), Ok(1), Err(13)]);
    }

    #[test]
    fn refused_lookups() {
        let stored = after(&TWO_LINKS, &TWO_SESSIONS);
        assert_eq!(lookup(&stored, 5, 7), Err(20));
        assert_eq!(lookup(&stored, 5, 0), Err(20));
        assert_eq!(lookup(&stored, 7, 0), Err(19));
        let unread = after(&[0x30, 0], &TWO_SESSIONS);
        assert_eq!(lookup(&unread, 5, 0), Err(1));
        assert_eq!(free_frames(&unread, 9), Err(1));
    }

    #[test]
    fn free_frames_are_neither_closed_nor_held() {
        let calls = [&TWO_SESSIONS[..], &[3, 5, 0]].concat();
        assert_eq!(free(&after(&TWO_LINKS, &[])), [Ok(8), Ok(8), Err(13)]);
        let one = after(&TWO_LINKS, &calls[..6]);
        assert_eq!(free(&one), [Ok(7), Ok(7), Err(13)]);
        let two = after(&TWO_LINKS, &calls[..12]);
        assert_eq!(free(&two), [Ok(6), Ok(6), Err(13)]);
        assert_eq!(free(&after(&TWO_LINKS, &calls)), [Ok(7), Ok(7), Err(13)]);
        // Frames 0 to 3 of link 1 are closed: 5 over 1 gets frame 4. A quote holds nothing.
        let file = [0x30, 0, 2, 3, 8, 2, 7, 8, 2, 0x0f, 0, 0, 0, 0, 0, 0, 0];
        let stored = after(&file, &[1, 5, 0, 1, 1, 2, 1, 0]);
        assert_eq!(lookup(&stored, 5, 5), Ok(vec![1, 0, 1, 4, 0]));
        assert_eq!(free(&stored), [Ok(8), Ok(3), Err(13)]);
    }

    #[test]
    fn ways_in_the_frames_now_free() {
        let ways_over = |calls: &[u8], route: &[u8]| ways(&after(&TWO_LINKS, calls), route, 1);
        // 8 frames of hop 0 with two holds each. Without frame 7 of link 0 there are 7, and frame 6 has hold 1 alone, since
        // frame 0 of link 1 is held.
        assert_eq!(ways_over(&[], &[0, 1]), Ok(16));
        assert_eq!(ways_over(&TWO_SESSIONS[..6], &[0, 1]), Ok(13));
        // The way back: without frame 0 of link 1 there are 7, and of these 5 and 6 have one hold each, to frames 6 and 0.
        assert_eq!(ways_over(&TWO_SESSIONS[..6], &[1, 0]), Ok(12));
        assert_eq!(ways_over(&TWO_SESSIONS, &[1]), Ok(6));
    }

    #[test]
    fn a_blocked_route_has_no_way_and_no_refusal() {
        // K 8, Z 2: frame 3 alone is free on link 0, frame 6 alone on link 1.
        let frame = |frame: u8| [7, 8, 2, !(1 << frame), 0, 0, 0, 0, 0, 0, 0];
        let file = [&[0x30, 0, 2][..], &frame(3), &frame(6)].concat();
        assert_eq!(ways(&after(&file, &[]), &[0, 1], 1), Ok(0));
        assert_eq!(ways(&after(&file, &[]), &[0], 1), Ok(1));
        assert_eq!(ways(&after(&file, &[1, 5, 0, 1, 0]), &[0], 1), Ok(0));
    }

    #[test]
    fn refused_ways() {
        // T 48; link 0 has K 4, links 1 and 2 have K 6.
        let file = [0x30, 0, 3, 3, 4, 2, 3, 6, 2, 3, 6, 2];
        let stored = after(&file, &[]);
        let cases: [(&[u8], Refusal); 10] = [
            (&[], 12),
            (&[0; 9], 12),
            (&[9; 9], 12),
            (&[3], 13),
            (&[1, 1, 3], 13),
            (&[0, 1, 3], 13),
            (&[1, 1], 14),
            (&[0, 1, 0], 14),
            (&[0, 1], 15),
            (&[1, 2, 0], 15),
        ];
        for (route, refusal) in cases {
            for room in [0, 1, 2] {
                assert_eq!(ways(&stored, route, room), Err(refusal), "{route:?}");
            }
        }
        assert_eq!(ways(&stored, &[1, 2], 0), Err(20));
        assert_eq!(ways(&stored, &[1, 2], 1), Ok(12));
        assert_eq!(ways(&after(&file[..2], &[]), &[], 0), Err(1));
    }

    #[test]
    fn calls_that_are_not_served() {
        // After a record that can't be read.
        let stored = after(&TWO_LINKS, &[1, 5, 0, 1, 0, 6, 1, 6, 0, 1, 0]);
        assert_eq!(lookup(&stored, 5, 5), Ok(vec![1, 0, 0, 0, 0]));
        assert_eq!(lookup(&stored, 6, 5), Err(19));
        // Set-ups of five bytes and of seven that end with the bytes that count, and ones that end after them.
        for set_up in [&[1, 5, 0, 1, 0][..], &[4, 5, 0, 0, 0, 1, 0]] {
            let quotes = [2, 0].repeat((65_536 - set_up.len()) / 2 - 1);
            let last = [&quotes[..], &[3, 9, 9], set_up].concat();
            assert_eq!(last.len(), 65_536);
            assert_eq!(
                lookup(&after(&TWO_LINKS, &last), 5, 5),
                Ok(vec![1, 0, 0, 0, 0])
            );
            let across = [&quotes[..], &[2, 0, 2, 0], set_up].concat();
            assert_eq!(across.len(), 65_537);
            assert_eq!(lookup(&after(&TWO_LINKS, &across), 5, 5), Err(19));
        }
    }

    #[test]
    fn room_for_every_text() {
        assert_eq!(room_for_run(&[]), 22);
        assert_eq!(room_for_run(&[0; 21]), 253);
        assert_eq!(room_for_run(&[0; 65_536]), 720_918);
        assert_eq!(room_for_run(&[0; 65_537]), 720_918);
    }

    /// What is entered as a session's delay and cycles are those of its frames, and the words of held frames are the entries'.
    #[test]
    fn entries_and_held_words_agree() {
        let mut random = Random::new(6);
        for _ in 0..2_000 {
            let input = inputs::input(&mut random);
            let calls = &input.calls[..input.calls.len().min(1_000)];
            if let Ok(state) = run(&input.file, calls, dijkstra::least).state {
                for session in &state.ledger.sessions {
                    let hops = hops_of(&state.network, &state.ledger, &session.route);
                    assert_eq!(session.cycles, route::cycles(&hops, &session.frames));
                    assert_eq!(session.delay, delay_of(&state.network, session));
                }
                for link in 0..state.network.links.len() {
                    let hop = hops_of(&state.network, &state.ledger, &[link as u8])[0];
                    let free = u64::from(hop.free.count_ones());
                    assert_eq!(state.free_frames(link as u8), Ok(free));
                }
            }
        }
    }

    /// The sum over the transitions of a session of hold times T / K.
    fn delay_of(network: &Network, session: &Session) -> u32 {
        let hops = hops_of(network, &Ledger::new(network), &session.route);
        let frame = |j: usize| u32::from(session.frames[j]);
        let delay = |j: usize| {
            let hold = route::hold_between(frame(j - 1), &hops[j - 1], frame(j), &hops[j]);
            route::delay(hold.expect("a schedule"), network.ticks, &hops[j])
        };
        (1..session.frames.len()).map(delay).sum()
    }
}
