//! Compares the library with the model on random inputs, and then shows that wrong ones would be found.

use frames_check::compared::Compared;
use frames_check::inputs::{self, Case, Input};
use frames_check::least_holds::LeastHolds;
use frames_check::listing::{Listed, MOST_PATHS};
use frames_check::model::Run;
use frames_check::network_file::Values;
use frames_check::quotes::Quotes;
use frames_check::random::Random;
use frames_check::route::{Answer, Hop};
use frames_check::runs::Runs;
use frames_check::state_calls::StateCalls;
use frames_check::tried::Tried;
use frames_check::way_calls::WayCalls;
use frames_check::widths::Widths;
use frames_check::writing::Writing;
use frames_check::{dijkstra, library, listing, model, wrong};
use std::cell::{Cell, RefCell};
use std::process::exit;
use std::time::{Duration, Instant};

const INPUTS: usize = 200_000;
const QUOTES: usize = 150_000;
const SEED: u64 = 0x0960_0064_0096_0032;

/// Each refusal has to be seen at least so often.
const LEAST_SEEN: usize = 20;

/// The refusals that a text can show: 1 to 19 and 21.
fn refusals() -> impl Iterator<Item = usize> {
    (1..=19).chain([21])
}

fn main() {
    let start = Instant::now();
    let mut check = Check::new();
    check.worked_example();
    let mut random = Random::new(SEED);
    for _ in 0..INPUTS {
        check.one_input(&mut random);
    }
    check.compare_every_link();
    check.compare_quotes();
    check.print_counts();
    check.print_times(start.elapsed());
    check.demand_wrong_ones_found();
    check.demand_refusals_seen();
    check.demand_sorts_seen();
    println!("cross-check: {} inputs, 0 differed", check.inputs);
}

/// Ends the check as failed.
fn fail(message: &str) -> ! {
    eprintln!("cross-check failed: {message}");
    exit(1);
}

// ---- The search of the model ----

/// How often the model searched, and how. `unread` holds for each search since the last comparison what the
/// listing gave, or nothing where it wasn't used.
#[derive(Default)]
struct Searches {
    by_both: Cell<usize>,
    by_dijkstra: Cell<usize>,
    unread: RefCell<Vec<Option<Listed>>>,
}

impl Searches {
    /// By listing where that is short, and then Dijkstra's method must agree; else by Dijkstra's method.
    fn least(&self, ticks: u32, hops: &[Hop]) -> Answer {
        let found = dijkstra::least(ticks, hops);
        if listing::paths(hops.iter().map(|hop| hop.frames)) > MOST_PATHS {
            self.by_dijkstra.set(self.by_dijkstra.get() + 1);
            self.unread.borrow_mut().push(None);
            return found;
        }
        self.by_both.set(self.by_both.get() + 1);
        let listed = listing::list(ticks, hops);
        let answer = listed.answer.clone();
        if answer != found {
            println!("T {ticks}, route {hops:?}\nlisting:  {answer:?}\nDijkstra: {found:?}");
            fail("the model's two searches differ");
        }
        self.unread.borrow_mut().push(Some(listed));
        answer
    }
}

// ---- The comparison ----

/// What has been seen so far.
struct Check {
    inputs: usize,
    calls: usize,
    schedules: usize,
    blocked: usize,
    released: usize,
    refusals: [usize; 22],
    searches: Searches,
    widths: Widths,
    least_holds: LeastHolds,
    listed: Compared,
    wrong_models: Tried<wrong::Text>,
    runs: Runs,
    state_calls: StateCalls,
    way_calls: WayCalls,
    writing: Writing,
    quotes: Quotes,
    times: Times,
}

/// The time of each part.
#[derive(Default)]
struct Times {
    inputs: Duration,
    model: Duration,
    runs: Duration,
    wrong_models: Duration,
    state_calls: Duration,
    way_calls: Duration,
    writing: Duration,
    quotes: Duration,
}

/// Runs a part and adds its time.
fn timed<T>(time: &mut Duration, part: impl FnOnce() -> T) -> T {
    let start = Instant::now();
    let result = part();
    *time += start.elapsed();
    result
}

/// The library's writer, handed its values in one.
fn write(values: &Values, out: &mut [u8]) -> Result<usize, u64> {
    let Values {
        ticks,
        frames,
        range,
        closed,
        least,
    } = values;
    library::write(*ticks, frames, range, closed, least, out)
}

impl Check {
    fn new() -> Self {
        let state_calls = StateCalls::new(
            Box::new(library::lookup),
            Box::new(library::free_frames),
            SEED + 2,
        );
        Check {
            inputs: 0,
            calls: 0,
            schedules: 0,
            blocked: 0,
            released: 0,
            refusals: [0; 22],
            searches: Searches::default(),
            widths: Widths::default(),
            least_holds: LeastHolds::default(),
            listed: Compared::default(),
            wrong_models: Tried::new("model", wrong::all()),
            runs: Runs::new(Box::new(library::report), SEED + 1),
            state_calls,
            way_calls: WayCalls::new(Box::new(library::ways), SEED + 4),
            writing: Writing::new(Box::new(library::image), Box::new(write), SEED + 3),
            quotes: Quotes::new(Box::new(library::report), SEED + 5),
            times: Times::default(),
        }
    }

    /// The document's example, library and model, against the text written there; and other calls on its network, against what
    /// is worked out by hand.
    fn worked_example(&mut self) {
        let file = [0x30, 0, 2, 3, 8, 2, 3, 8, 2];
        let calls = [
            1, 5, 0, 2, 0, 1, 1, 5, 0, 2, 0, 1, 3, 5, 0, 2, 1, 0, 3, 5, 0,
        ];
        let expected =
            "1 S ok 6 16 7 0 / 0 1\n2 S no 16\n3 R ok\n4 Q ok 0 0 0 / 0\n5 R no 19\nlive 0\n";
        self.worked_text(&file, &calls, expected);
        self.worked_numbers(&file);
        self.worked_least_holds();
        self.worked_calls(&file);
        println!("worked example: as in the document");
    }

    /// The text of calls, library and model, against the one that is expected.
    fn worked_text(&mut self, file: &[u8], calls: &[u8], expected: &str) {
        let input = Input {
            file: file.to_vec(),
            calls: calls.to_vec(),
        };
        let run = self.model_run(&input);
        if run.text != expected.as_bytes() {
            fail("the model's text of a worked example isn't the one expected");
        }
        self.compare_runs(&input, &run);
    }

    /// Numbers of two bytes and of four: 5 by 01, and 65,541 by 04 in the frames that 5 leaves; 5 released by 05, but not
    /// 65,541 by 03 with 5; and 65,541 released by 05.
    fn worked_numbers(&mut self, file: &[u8]) {
        let calls = [
            1, 5, 0, 2, 0, 1, 4, 5, 0, 1, 0, 2, 0, 1, 5, 5, 0, 0, 0, 3, 5, 0, 5, 5, 0, 1, 0,
        ];
        let expected =
            "1 S ok 6 16 7 0 / 0 1\n2 S ok 6 13 0 1 / 0 0\n3 R ok\n4 R no 19\n5 R ok\nlive 0\n";
        self.worked_text(file, &calls, expected);
        let shown = |length, number| {
            let mut shown = [0; 8];
            let lookup = library::lookup(file, &calls[..length], number, &mut shown);
            lookup.map(|_| shown)
        };
        let (short, long) = ([2, 6, 0, 1, 7, 0, 0, 1], [2, 6, 0, 1, 0, 1, 0, 0]);
        if [shown(14, 5), shown(14, 65_541)] != [Ok(short), Ok(long)] {
            fail("lookups of 5 and of 65,541 aren't the answers to their set-ups");
        }
        if [shown(22, 5), shown(22, 65_541)] != [Err(19), Ok(long)] {
            fail("5 isn't released, or 65,541 is with it");
        }
    }

    /// The case of W-206, Y 0 and Z 2 on link B; with Y 2 and Z 3 instead, frame 6 and a hold of 2 lead to frame 0 of the next
    /// cycle; and a Y above Z.
    fn worked_least_holds(&mut self) {
        let file = |range, least| [0x30, 0, 2, 3, 8, 2, 0x0b, 8, range, least];
        let quote = [2, 2, 0, 1];
        self.worked_text(&file(2, 0), &quote, "1 Q ok 0 24 0 0 / 0 0\nlive 0\n");
        self.worked_text(&file(3, 2), &quote, "1 Q ok 12 16 6 0 / 0 1\nlive 0\n");
        self.worked_text(&file(2, 3), &quote, "net no 21\n");
        self.worked_text(&file(8, 0), &quote, "net no 21\n");
        let mut number = [0];
        let answer = library::ways(&file(2, 0), &[], &[0, 1], &mut number);
        if (answer, number) != (Ok(1), [24]) {
            fail("the ways over the route of W-206 aren't 24");
        }
        let mut image = [0; 10];
        let length = library::write(48, &[8, 8], &[2, 2], &[0, 0], &[1, 0], &mut image);
        if (length, image) != (Ok(10), file(2, 0)) {
            fail("the file of the values of W-206 isn't its file");
        }
    }

    /// The library's lookup, free frames, ways and writer on the document's examples, worked out by hand.
    fn worked_calls(&self, file: &[u8]) {
        let calls = [1, 5, 0, 2, 0, 1];
        let mut shown = [0; 8];
        let lookup = library::lookup(file, &calls, 5, &mut shown);
        if (lookup, shown) != (Ok(8), [2, 6, 0, 1, 7, 0, 0, 1]) {
            fail("a lookup after the example's first call isn't its answer");
        }
        let free = [0, 1, 2].map(|link| library::free_frames(file, &calls, link));
        if free != [Ok(7), Ok(7), Err(13)] {
            fail("the free frames after the example's first call aren't seven of each link");
        }
        self.worked_ways(file, &calls);
        let mut image = [0; 7];
        let length = library::write(48, &[16, 8], &[4, 2], &[0, 0], &[1, 1], &mut image);
        if (length, image) != (Ok(7), [0x30, 0, 2, 0, 3, 8, 2]) {
            fail("the file of the example's values isn't the document's");
        }
    }

    /// Numbers of schedules: on the example's fresh network K of hop 0 times Z, 8 * 2; after its first call, which holds frame 7
    /// of link 0 and frame 0 of link 1, two each from frames 0 to 5 and one from frame 6; and the largest.
    fn worked_ways(&self, file: &[u8], calls: &[u8]) {
        let ways = |file: &[u8], calls: &[u8], route: &[u8]| {
            let mut number = [0];
            let answer = library::ways(file, calls, route, &mut number);
            (answer, number[0])
        };
        if [ways(file, &[], &[0, 1]), ways(file, calls, &[0, 1])] != [(Ok(1), 16), (Ok(1), 13)] {
            fail("the ways over the example's route aren't 16 and then 13");
        }
        let large = [&[64, 0, 8][..], &[3, 64, 64].repeat(8)].concat();
        if ways(&large, &[], &[0, 1, 2, 3, 4, 5, 6, 7]) != (Ok(1), library::WAYS_MOST) {
            fail("the ways over eight links with 64 frames and the whole cycle as range aren't 64 to the power 8");
        }
    }

    fn model_run(&self, input: &Input) -> Run {
        let least = |ticks, hops: &[Hop]| self.searches.least(ticks, hops);
        model::run(&input.file, &input.calls, least)
    }

    /// One random input: the library's run and the wrong models; lookups, free frames and ways after its calls; its file and
    /// a network given as values written.
    fn one_input(&mut self, random: &mut Random) {
        let mut times = std::mem::take(&mut self.times);
        let input = timed(&mut times.inputs, || inputs::input(random));
        let run = timed(&mut times.model, || self.model_run(&input));
        self.inputs += 1;
        timed(&mut times.runs, || self.compare_runs(&input, &run));
        timed(&mut times.wrong_models, || {
            self.try_wrong_models(&input, &run)
        });
        timed(&mut times.state_calls, || {
            self.compare_state_calls(&input, &run)
        });
        timed(&mut times.way_calls, || {
            self.compare_way_calls(&input, &run)
        });
        timed(&mut times.writing, || self.compare_writing(&input));
        self.times = times;
    }

    /// Compares the library's run with the model's, and the text that it wrote with the listing; counts what it answered.
    fn compare_runs(&mut self, input: &Input, run: &Run) {
        let inputs = self.inputs;
        let written = match self.runs.compare(Case { input, inputs, run }) {
            Ok(written) => written,
            Err(fault) => self.show_and_fail(input, run, &fault),
        };
        let text = std::str::from_utf8(&written).expect("the text is plain");
        self.tally(text);
        self.widths.add(&input.calls, text);
        self.least_holds.add(&input.file);
        let searches = self.searches.unread.take();
        if let Err(fault) = self.listed.compare(text, &searches) {
            self.show_and_fail(input, run, &fault);
        }
    }

    /// Runs the wrong models that haven't differed yet.
    fn try_wrong_models(&mut self, input: &Input, run: &Run) {
        self.wrong_models.try_on(self.inputs, |wrong| {
            wrong(&input.file, &input.calls) != run.text
        });
    }

    /// Compares lookups and free frames after the calls.
    fn compare_state_calls(&mut self, input: &Input, run: &Run) {
        let inputs = self.inputs;
        if let Err(fault) = self.state_calls.compare(Case { input, inputs, run }) {
            self.show_and_fail(input, run, &fault);
        }
    }

    /// Compares numbers of schedules after the calls.
    fn compare_way_calls(&mut self, input: &Input, run: &Run) {
        let inputs = self.inputs;
        if let Err(fault) = self.way_calls.compare(Case { input, inputs, run }) {
            self.show_and_fail(input, run, &fault);
        }
    }

    /// Compares what is written of the file and of a network given as values.
    fn compare_writing(&mut self, input: &Input) {
        let Check {
            writing, inputs, ..
        } = self;
        let file = writing.compare_file(*inputs, &input.file);
        if let Err(fault) = file.and_then(|()| writing.compare_values(*inputs)) {
            println!("net.bin: {}", hex(&input.file));
            fail(&format!("input {}: {fault}", self.inputs));
        }
    }

    /// Compares what is written of a link of each K, Z and Y.
    fn compare_every_link(&mut self) {
        let Check { writing, times, .. } = self;
        let compared = timed(&mut times.writing, || writing.compare_every_link());
        if let Err(fault) = compared {
            fail(&fault);
        }
    }

    /// Compares quotes, each on a network of its own.
    fn compare_quotes(&mut self) {
        let Check { quotes, times, .. } = self;
        let compared = timed(&mut times.quotes, || {
            (0..QUOTES).try_for_each(|_| quotes.compare())
        });
        if let Err(fault) = compared {
            fail(&fault);
        }
    }

    /// Counts what the lines of the library's text show.
    fn tally(&mut self, text: &str) {
        for line in text.lines() {
            let words: Vec<&str> = line.split(' ').collect();
            match words[..] {
                ["live", _] => continue,
                ["net", "no", refusal] => {
                    self.refusals[number(refusal)] += 1;
                    continue;
                }
                [_, _, "ok"] => self.released += 1,
                [_, _, "ok", ..] => self.schedules += 1,
                [_, _, "no", refusal, ..] => self.refusals[number(refusal)] += 1,
                _ => fail(&format!("a line of no known form: {line}")),
            }
            self.calls += 1;
        }
        self.blocked = self.refusals[18];
    }

    /// Prints the input in hexadecimal and both texts, and ends the check as failed.
    fn show_and_fail(&self, input: &Input, run: &Run, fault: &str) -> ! {
        let mut room = vec![0; library::TEXT_MOST];
        let length = library::report(&input.file, &input.calls, &mut room).unwrap_or(0);
        let text = &room[..length.min(room.len())];
        println!("net.bin: {}", hex(&input.file));
        println!("calls: {}", hex(&input.calls));
        println!("model's text:\n{}", String::from_utf8_lossy(&run.text));
        println!("library's text:\n{}", String::from_utf8_lossy(text));
        fail(&format!("input {}: {fault}", self.inputs));
    }

    fn print_counts(&self) {
        for refusal in refusals() {
            println!("refusal {refusal}: {}", self.refusals[refusal]);
        }
        println!(
            "inputs {}, calls {}, schedules {}, blocked {}, released {}",
            self.inputs, self.calls, self.schedules, self.blocked, self.released
        );
        println!(
            "model's searches: {} by listing and by Dijkstra, {} by Dijkstra alone",
            self.searches.by_both.get(),
            self.searches.by_dijkstra.get()
        );
        self.widths.print();
        self.least_holds.print();
        self.listed.print();
        self.runs.print();
        self.state_calls.print();
        self.way_calls.print();
        self.writing.print();
        self.quotes.print();
    }

    fn print_times(&self, whole: Duration) {
        let times = &self.times;
        let parts = [
            ("inputs", times.inputs),
            ("model", times.model),
            ("runs", times.runs),
            ("wrong models", times.wrong_models),
            ("lookups and free frames", times.state_calls),
            ("ways", times.way_calls),
            ("writing", times.writing),
            ("quotes", times.quotes),
            ("whole", whole),
        ];
        let parts = parts.map(|(name, time)| format!("{name} {:.1}", time.as_secs_f64()));
        println!("seconds: {}", parts.join(", "));
    }

    fn demand_wrong_ones_found(&self) {
        demand_found(&self.wrong_models);
        demand_found(&self.runs.wrong);
        demand_found(&self.state_calls.wrong_lookups);
        demand_found(&self.state_calls.wrong_counts);
        demand_found(&self.way_calls.wrong);
        demand_found(&self.writing.wrong_images);
        demand_found(&self.writing.wrong_writers);
        demand_found(&self.quotes.wrong);
    }

    fn demand_refusals_seen(&self) {
        for refusal in refusals() {
            let seen = self.refusals[refusal];
            if seen < LEAST_SEEN {
                fail(&format!("refusal {refusal} was seen only {seen} times"));
            }
        }
    }

    fn demand_sorts_seen(&self) {
        let listed = self.listed.too_few();
        let listed = listed.map(|few| format!("listed routes: {few}"));
        let too_few = [
            self.widths.too_few(),
            self.least_holds.too_few(),
            listed,
            self.runs.too_few(),
            self.state_calls.too_few(),
            self.way_calls.too_few(),
            self.writing.too_few(),
            self.quotes.too_few(),
        ];
        if let Some(too_few) = too_few.into_iter().flatten().next() {
            fail(&too_few);
        }
    }
}

/// Each wrong one must have differed.
fn demand_found<F>(tried: &Tried<F>) {
    tried.print();
    if let Some(missed) = tried.never_differed() {
        fail(&missed);
    }
}

/// A refusal number of the text, as a place in the table.
fn number(word: &str) -> usize {
    match word.parse() {
        Ok(refusal) if refusals().any(|other| other == refusal) => refusal,
        _ => fail(&format!("no refusal number: {word}")),
    }
}

fn hex(bytes: &[u8]) -> String {
    bytes.iter().map(|byte| format!("{byte:02x} ")).collect()
}
