//! Times the static library beside plain Rust, in one process, and prints a table of runs and one of numbers of ways, with the ratios.
//! A list is timed only once the outputs of the sides that it is timed on are the same bytes. A third table gives the stack of calls.

use std::hint::black_box;
use std::time::{Duration, Instant};

use frames_check::call_records::{push_quote, push_release, push_set_up};
use frames_check::library::{self, CALLS_MOST, TEXT_MOST};
use frames_check::model::State;
use frames_check::network_file::{image, Link, Network, ABSENT};
use frames_check::networks::{closed_frames, large_network, Closing};
use frames_check::random::Random;
use frames_check::route::{Answer, Hop, MAX_HOPS};
use frames_check::{by_holds, dijkstra, inputs, model, running_sums, stack, survivors, ways};

/// The quotes over 8 hops of a short list.
const FEW: usize = 100;

/// As many of them as the calls' bytes hold.
const QUOTES: usize = CALLS_MOST / (2 + MAX_HOPS);

/// The calls in turn that a number of ways is timed by.
const COUNTS: usize = 200;

/// The bytes of net.bin: in a cycle of 960 ticks, links with 64 frames, one range and a least hold of 1.
fn file_of(range: u32, closed: impl Iterator<Item = u64>) -> Vec<u8> {
    let link = |closed| Link {
        frames: 64,
        range,
        closed,
        least: ABSENT.least,
    };
    image(&Network {
        ticks: 960,
        links: closed.map(link).collect(),
    })
}

/// A search in plain Rust.
type Search = fn(u32, &[Hop]) -> Answer;

/// What runs a list of calls: the library, or the model with a search in plain Rust.
#[derive(Clone, Copy)]
enum Side {
    Library,
    Model(Search),
}

/// The sides of the table of runs, in the order of its columns.
const SIDES: [Side; 4] = [
    Side::Library,
    Side::Model(by_holds::least),
    Side::Model(survivors::least),
    Side::Model(dijkstra::least),
];

/// The library beside the sharper survivor search.
const SHARPER: [Side; 2] = [Side::Library, Side::Model(survivors::least_by_comparison)];

/// A network file, and a list of calls on it.
struct Work {
    file: Vec<u8>,
    calls: Vec<u8>,
}

impl Work {
    fn library(&self, out: &mut [u8]) -> usize {
        library::report(&self.file, &self.calls, out).expect("the buffer is long enough")
    }

    fn model(&self, search: Search) -> Vec<u8> {
        model::transcript(&self.file, &self.calls, search)
    }

    /// Runs the list on a side.
    fn run(&self, side: Side, out: &mut [u8]) {
        match side {
            Side::Library => {
                black_box(self.library(out));
            }
            Side::Model(search) => {
                black_box(self.model(search));
            }
        }
    }

    /// All of the sides answer the bytes that the library answers.
    fn compare(&self, sides: &[Side], out: &mut [u8]) {
        let length = self.library(out);
        for &side in sides {
            if let Side::Model(search) = side {
                assert!(
                    out[..length] == self.model(search)[..],
                    "the library and a search in plain Rust differ"
                );
            }
        }
    }

    /// The text has a line for each call, and one more.
    fn number_of_calls(&self) -> usize {
        let text = self.model(survivors::least);
        text.iter().filter(|&&byte| byte == b'\n').count() - 1
    }
}

/// The best times of some sides on each of some lists, in turn. On each list all sides answer the same bytes; that comparison is the
/// warm-up.
fn times<const N: usize, const S: usize>(
    works: [&Work; N],
    sides: &[Side; S],
    out: &mut [u8],
    limit: Duration,
) -> [[f64; S]; N] {
    for work in works {
        work.compare(sides, out);
    }
    let mut best = [[f64::INFINITY; S]; N];
    repeat(limit, || {
        for (work, best) in works.iter().zip(&mut best) {
            for (&side, best) in sides.iter().zip(best) {
                keep_best(best, || work.run(side, out));
            }
        }
    });
    best
}

/// Goes round 3 to 60 times; past the third, no round begins once the time is up.
fn repeat(limit: Duration, mut round: impl FnMut()) {
    let begun = Instant::now();
    for number in 0..60 {
        if number >= 3 && begun.elapsed() > limit {
            break;
        }
        round();
    }
}

/// Runs once, and keeps the time in seconds where it is the best so far.
fn keep_best(best: &mut f64, run: impl FnOnce()) {
    let begun = Instant::now();
    run();
    *best = best.min(begun.elapsed().as_secs_f64());
}

fn heading() {
    println!(
        "{:<44} {:>9} {:>9} {:>9} {:>9} {:>9} {:>9} {:>9}",
        "microseconds",
        "library",
        "by holds",
        "survivors",
        "Dijkstra",
        "lib/holds",
        "lib/surv",
        "lib/Dijk"
    );
}

/// A line of the table, from the seconds of each side that was timed.
fn line(name: &str, times: [Option<f64>; 4]) {
    let [library, rivals @ ..] = times;
    print!("{name:<44}");
    for time in times {
        cell(time.map(|time| time * 1e6));
    }
    for rival in rivals {
        cell(library.zip(rival).map(|(library, rival)| library / rival));
    }
    println!();
}

fn cell(number: Option<f64>) {
    match number {
        Some(number) => print!(" {number:>9.2}"),
        None => print!(" {:>9}", "-"),
    }
}

/// So many quotes over a route.
fn list_of_quotes(route: &[u8], number: usize) -> Vec<u8> {
    let mut calls = Vec::new();
    for _ in 0..number {
        push_quote(&mut calls, route);
    }
    calls
}

/// The time of a quote on each side, the better of those by a short list and by the longest.
fn per_quote<const S: usize>(
    few: &Work,
    all: &Work,
    sides: &[Side; S],
    out: &mut [u8],
) -> [f64; S] {
    let [short] = times([few], sides, out, Duration::from_secs(1));
    let [long] = times([all], sides, out, Duration::from_millis(200));
    std::array::from_fn(|side| (short[side] / FEW as f64).min(long[side] / QUOTES as f64))
}

/// (a) Quotes over 8 hops of 64 frames: the better of a list of as many as the calls' bytes hold and of a short list, which goes round more
/// often.
fn quotes(out: &mut [u8], random: &mut Random) {
    for (frames, closing) in [
        ("all free", Closing::None),
        ("half free", Closing::ExactlyHalf),
    ] {
        for range in [4, 16, 64] {
            let file = file_of(range, (0..8).map(|_| closed_frames(random, 64, closing)));
            lines_of_quotes(range, frames, &file, out);
        }
    }
    // The range that costs the search by windows most: a second block of one frame has a whole window behind it.
    lines_of_quotes(63, "all free", &file_of(63, [0; 8].into_iter()), out);
}

/// Quotes over the eight links of a file, on all sides, and beside the sharper survivor search.
fn lines_of_quotes(range: u32, frames: &str, file: &[u8], out: &mut [u8]) {
    let [few, all] = [FEW, QUOTES].map(|number| Work {
        file: file.to_vec(),
        calls: list_of_quotes(&[0, 1, 2, 3, 4, 5, 6, 7], number),
    });
    line(
        &format!("quote, 8 hops of 64 frames, Z {range}, {frames}"),
        per_quote(&few, &all, &SIDES, out).map(Some),
    );
    let [library, sharper] = per_quote(&few, &all, &SHARPER, out);
    line(
        "  beside the survivor search by comparison",
        [Some(library), None, Some(sharper), None],
    );
}

/// Quotes over ever other routes, of 8 among 32 links of which half of the frames are free: no processor learns the branches of so many
/// quotes by heart, as it does those of one that is repeated.
fn quotes_over_other_routes(out: &mut [u8], random: &mut Random) {
    for range in [4, 16, 64] {
        let closed = (0..32).map(|_| closed_frames(random, 64, Closing::ExactlyHalf));
        let file = file_of(range, closed);
        let mut calls = Vec::new();
        for _ in 0..QUOTES {
            push_quote(&mut calls, &inputs::distinct_links(random, 32, MAX_HOPS));
        }
        let work = &Work { file, calls };
        let [all] = times([work], &SIDES, out, Duration::from_secs(3));
        line(
            &format!("quote, ever other routes, Z {range}, half free"),
            all.map(|time| Some(time / QUOTES as f64)),
        );
    }
}

/// (b) Pairs of a set-up and a release over 2 hops while sessions on other links are live, beside as many quotes over the same route.
/// The time of the list that only makes those sessions live is taken off.
fn pairs(out: &mut [u8]) {
    let route = [0, 1];
    let file = file_of(4, [0; 32].into_iter());
    for live in [10u16, 50, 90] {
        let mut prefix = Vec::new();
        for number in 0..live {
            let link = 2 + 2 * (number % 15) as u8;
            push_set_up(&mut prefix, number, &[link, link + 1]);
        }
        let mut with_pairs = prefix.clone();
        let mut with_quotes = prefix.clone();
        let mut number = 0;
        while with_pairs.len() + 9 <= CALLS_MOST {
            push_set_up(&mut with_pairs, live, &route);
            push_release(&mut with_pairs, live);
            push_quote(&mut with_quotes, &route);
            number += 1;
        }
        let works = [prefix, with_pairs, with_quotes].map(|calls| Work {
            file: file.clone(),
            calls,
        });
        let [prefix, with_pairs, with_quotes] =
            times(works.each_ref(), &SIDES, out, Duration::from_secs(2));
        let each = |list: [f64; 4]| -> [f64; 4] {
            std::array::from_fn(|side| (list[side] - prefix[side]) / number as f64)
        };
        let (pair, one) = (each(with_pairs), each(with_quotes));
        line(
            &format!("set-up and release, 2 hops, {live} live"),
            pair.map(Some),
        );
        line(&format!("quote, 2 hops, {live} live"), one.map(Some));
        let name = format!("  ratio of the pair to the quote, {live} live");
        print!("{name:<44}");
        for (pair, one) in pair.into_iter().zip(one) {
            cell(Some(pair / one));
        }
        println!();
    }
}

/// As many bytes of mixed calls as count, on 32 links of 8 to 64 frames, some of them closed.
fn mixed_calls(random: &mut Random) -> Work {
    let network = large_network(random);
    Work {
        file: image(&network),
        calls: inputs::calls_of_length(random, network.links.len(), CALLS_MOST),
    }
}

/// (c) Whole runs of mixed calls.
fn runs(out: &mut [u8], random: &mut Random) {
    let work = mixed_calls(random);
    let number = work.number_of_calls();
    let [run] = times([&work], &SIDES, out, Duration::from_secs(2));
    line(
        &format!("run of {CALLS_MOST} bytes, {number} mixed calls"),
        run.map(Some),
    );
    line("  per call", run.map(|time| Some(time / number as f64)));
}

/// A network file, the state that it gives, and a route.
struct Counting {
    file: Vec<u8>,
    state: State,
    route: Vec<u8>,
}

impl Counting {
    fn new(file: Vec<u8>, route: &[u8]) -> Self {
        let state = model::run(&file, &[], dijkstra::least).state;
        Counting {
            file,
            state: state.expect("the file passes"),
            route: route.to_vec(),
        }
    }

    /// The library's number for a route; nothing where it is refused.
    fn library(&self, route: &[u8]) -> Option<u64> {
        let mut out = [0];
        let answer = library::ways(&self.file, &[], route, &mut out);
        answer.ok().map(|_| out[0])
    }

    /// The number in plain Rust on the state that was read, with the checks of the route and its hops.
    fn plain(&self, number: fn(&[Hop]) -> u64) -> u64 {
        let hops = self.state.hops(&self.route);
        number(&hops.expect("the route passes"))
    }

    /// The best times in seconds of a call of the library, of one that is refused for its empty route, of running sums and of
    /// all pairs. The three numbers are the same; that comparison is the warm-up.
    fn times(&self) -> [f64; 4] {
        let (sums, pairs) = (running_sums::number, ways::number);
        let numbers = [self.plain(sums), self.plain(pairs)];
        assert_eq!(numbers.map(Some), [self.library(&self.route); 2]);
        let mut best = [f64::INFINITY; 4];
        repeat(Duration::from_secs(1), || {
            keep_best_of_many(&mut best[0], || self.library(black_box(&self.route)));
            keep_best_of_many(&mut best[1], || self.library(black_box(&[])));
            keep_best_of_many(&mut best[2], || black_box(self).plain(sums));
            keep_best_of_many(&mut best[3], || black_box(self).plain(pairs));
        });
        best.map(|time| time / COUNTS as f64)
    }
}

/// Runs as often as a number of ways is counted, and keeps the time in seconds of all where it is the best so far.
fn keep_best_of_many<T>(best: &mut f64, run: impl Fn() -> T) {
    keep_best(best, || {
        for _ in 0..COUNTS {
            black_box(run());
        }
    });
}

fn heading_of_ways() {
    println!(
        "{:<44} {:>9} {:>9} {:>9} {:>9} {:>9}",
        "microseconds", "library", "sums", "pairs", "lib/sums", "lib/pairs"
    );
}

/// (d) Numbers of ways over 8 hops of 64 frames. Of the library's time that of a call with an empty route is taken off, which reads
/// the file too and then is refused.
fn numbers_of_ways(random: &mut Random) {
    let route = [0, 1, 2, 3, 4, 5, 6, 7];
    for (frames, closing) in [
        ("all free", Closing::None),
        ("half free", Closing::ExactlyHalf),
    ] {
        for range in [4, 16, 64] {
            let file = file_of(range, (0..8).map(|_| closed_frames(random, 64, closing)));
            let [whole, refused, sums, pairs] = Counting::new(file, &route).times();
            let library = whole - refused;
            println!(
                "{:<44} {:>9.2} {:>9.2} {:>9.2} {:>9.2} {:>9.2}",
                format!("ways, 8 hops of 64 frames, Z {range}, {frames}"),
                library * 1e6,
                sums * 1e6,
                pairs * 1e6,
                library / sums,
                library / pairs
            );
            println!(
                "{:<44} {:>9.2} {:>9.2}",
                "  the whole call, and one refused with 12",
                whole * 1e6,
                refused * 1e6
            );
        }
    }
}

/// The stack of the library's run on a list. Its text is the same on all sides, and begins so.
fn stack_of_run(work: &Work, beginning: &str, out: &mut [u8]) -> usize {
    work.compare(&SIDES, out);
    assert!(out.starts_with(beginning.as_bytes()));
    stack::depth(|| {
        black_box(work.library(out));
    })
}

fn heading_of_stacks() {
    println!("{:<44} {:>9}", "bytes", "stack");
}

fn line_of_stack(name: &str, depth: usize) {
    println!("{name:<44} {depth:>9}");
}

/// (e) The stack of a quote over 8 hops of 64 frames, of one that is refused, of a number of ways and of a whole run. Before them stands
/// that of a function whose stack is known; where it is measured wrong, there is no table.
fn stacks(out: &mut [u8], random: &mut Random) {
    let known = stack::known_depth();
    let route = [0, 1, 2, 3, 4, 5, 6, 7];
    let closed = (0..8).map(|_| closed_frames(random, 64, Closing::ExactlyHalf));
    let file = file_of(16, closed);
    let of_one_quote = |route: &[u8]| Work {
        file: file.clone(),
        calls: list_of_quotes(route, 1),
    };
    let quote = stack_of_run(&of_one_quote(&route), "1 Q ok ", out);
    let refused = stack_of_run(&of_one_quote(&[]), "1 Q no 12\n", out);
    let counting = Counting::new(file.clone(), &route);
    let ways = stack::depth(|| {
        black_box(counting.library(&route));
    });
    let mixed = stack_of_run(&mixed_calls(random), "1 ", out);

    heading_of_stacks();
    line_of_stack(
        &format!("an array of {} bytes, in plain Rust", stack::KNOWN),
        known,
    );
    line_of_stack("frames_report, a quote", quote);
    line_of_stack("frames_report, a quote refused with 12", refused);
    line_of_stack("frames_ways, the same route", ways);
    line_of_stack(
        &format!("frames_report, {CALLS_MOST} bytes of mixed calls"),
        mixed,
    );
}

fn main() {
    let mut out = vec![0u8; TEXT_MOST];
    let mut random = Random::new(0x2545_f491_4f6c_dd1d);
    println!("Best of several repetitions after a warm-up, the sides in turn, in one process; all are release builds.");
    println!(
        "The lent buffer of {TEXT_MOST} bytes is allocated once and is not cleared between runs."
    );
    println!("Quotes over 8 hops: the better of lists of {FEW} and of {QUOTES}, as many as {CALLS_MOST} bytes hold; over ever other routes, of {QUOTES}.");
    println!(
        "By holds: the search before W-204. Survivors: the transcription of the papers' search."
    );
    heading();
    quotes(&mut out, &mut random);
    quotes_over_other_routes(&mut out, &mut Random::new(0x6a09_e667_f3bc_c908));
    pairs(&mut out);
    runs(&mut out, &mut random);
    println!("Numbers of ways: {COUNTS} calls in turn; the library's time is that of a call less that of one refused with 12, which reads the file too.");
    heading_of_ways();
    numbers_of_ways(&mut random);
    println!("Stack below the caller, painted before a call and read back after it: a quote over 8 hops of 64 frames, Z 16, half free.");
    stacks(&mut out, &mut Random::new(0xbb67_ae85_84ca_a73b));
}
