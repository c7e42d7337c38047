//! Network files written, compared with the model: of a file that was read, and of a network given as values.

use crate::least_holds::{self, sorts_of_passed, sorts_of_refused, sorts_of_several};
use crate::lent::Lent;
use crate::network_file::{check_link, image, write_again, write_network};
use crate::network_file::{Link, Network, Refusal, Values};
use crate::networks;
use crate::random::{enough_room, too_little_room, Random};
use crate::route;
use crate::sorts::{add_each, print_lines, sort, too_few_in, total, Line, Sort};
use crate::stand_in::{Image, Write};
use crate::tried::Tried;
use crate::wrong_writing;

/// The longest image: three bytes, and twelve for each of 32 links.
const LONGEST: usize = 3 + 32 * 12;

/// The functions under test, and what has been seen of them so far.
pub struct Writing {
    image: Box<Image>,
    write: Box<Write>,
    random: Random,
    lent: Lent<u8>,
    /// Files written again; refused, and with too little room.
    images: [Sort; 3],
    /// Values written, and each refusal.
    values: [Sort; 8],
    /// Written, with such a value; the same of Y.
    passed: [Sort; 10],
    least_passed: [Sort; 5],
    /// Refused for such a value; for such a Y, and for one past a byte; where a later check would refuse the link too.
    refused: [Sort; 10],
    least_refused: [Sort; 4],
    past_a_byte: [Sort; 1],
    several: [Sort; 3],
    /// Each K with each Z and Y, on both sides of the edges: written and read again, and refused with 8, 21 and 9.
    every_link: [Sort; 4],
    pub wrong_images: Tried<Box<Image>>,
    pub wrong_writers: Tried<Box<Write>>,
}

impl Writing {
    pub fn new(image: Box<Image>, write: Box<Write>, seed: u64) -> Self {
        let mut random = Random::new(seed);
        let pattern = random.bytes(2 * LONGEST);
        Writing {
            image,
            write,
            random,
            lent: Lent::new(pattern),
            images: [
                sort("written again", 20_000),
                sort("refused by the file", 20_000),
                sort("with 20:", 20_000),
            ],
            values: [
                sort("written", 40_000),
                sort("refused with 2:", 15_000),
                sort("with 3:", 10_000),
                sort("with 7:", 30_000),
                sort("with 8:", 25_000),
                sort("with 21:", 17_000),
                sort("with 9:", 20_000),
                sort("with 20:", 40_000),
            ],
            passed: [
                sort("1 link", 4_000),
                sort("32 links", 900),
                sort("T 1:", 600),
                sort("T 960:", 4_000),
                sort("K 1:", 10_000),
                sort("K 64:", 5_000),
                sort("Z 1:", 20_000),
                sort("Z K:", 20_000),
                sort("frame K - 1 closed", 20_000),
                sort("lists of unequal length", 5_000),
            ],
            least_passed: sorts_of_passed([17_000, 34_000, 12_000, 9_000, 9_000]),
            refused: [
                sort("no link", 3_000),
                sort("33 links", 1_500),
                sort("T 0:", 1_500),
                sort("T 961:", 1_500),
                sort("K 0:", 4_000),
                sort("K 65:", 2_000),
                sort("K no divisor", 8_000),
                sort("Z 0:", 3_000),
                sort("Z K + 1:", 4_000),
                sort("frame K closed", 10_000),
            ],
            least_refused: sorts_of_refused([4_500, 7_000, 4_500, 1_000]),
            past_a_byte: [sort("256 or more:", 3_500)],
            several: sorts_of_several([2_500, 4_000, 3_800]),
            every_link: [
                sort("written", 47_776),
                sort("refused with 8:", 8_954),
                sort("with 21:", 93_663),
                sort("with 9:", 45_633),
            ],
            wrong_images: Tried::new("image", wrong_writing::images()),
            wrong_writers: Tried::new("writer", wrong_writing::writers()),
        }
    }

    /// Compares what is written of a file that is read, with room enough and with too little; what differs, in words.
    pub fn compare_file(&mut self, inputs: usize, file: &[u8]) -> Result<(), String> {
        for room in self.rooms(file.len().clamp(1, LONGEST)) {
            let expected = write_again(file, room);
            let right = expected.as_deref().map_err(Refusal::clone);
            let mut fault = |image: &Image| self.lent.fault(room, right, |out| image(file, out));
            if let Some(fault) = fault(&self.image) {
                return Err(format!("image: {fault}\nmodel: {expected:x?}"));
            }
            self.wrong_images
                .try_on(inputs, |wrong| fault(wrong).is_some());
            match &expected {
                Ok(image) if image == file => self.images[0].add(true),
                Ok(_) => return Err("the model has two files of one network".to_string()),
                Err(20) => self.images[2].add(true),
                Err(_) => self.images[1].add(true),
            }
        }
        Ok(())
    }

    /// Compares what is written of random values, with room enough and with too little; what differs, in words.
    pub fn compare_values(&mut self, inputs: usize) -> Result<(), String> {
        let values = networks::values(&mut self.random);
        let network = values.network();
        let length = write_network(&network, LONGEST).map_or(LONGEST, |image| image.len());
        for room in self.rooms(length) {
            let expected = write_network(&network, room);
            let right = expected.as_deref().map_err(Refusal::clone);
            let mut fault = |write: &Write| self.lent.fault(room, right, |out| write(&values, out));
            if let Some(fault) = fault(&self.write) {
                return Err(format!("{values:?}: {fault}\nmodel: {expected:x?}"));
            }
            self.wrong_writers
                .try_on(inputs, |wrong| fault(wrong).is_some());
            self.tally_values(&values, &network, &expected);
        }
        Ok(())
    }

    /// Compares what is written of a link of each K, each Z up to K + 1 and each Y up to K + 2, with no frame closed and with
    /// frame K, given as values and in a file; what differs, in words.
    pub fn compare_every_link(&mut self) -> Result<(), String> {
        for frames in 1..=64 {
            for range in 0..=frames + 1 {
                for least in 0..=frames + 2 {
                    for closed in [Some(0), 1u64.checked_shl(frames)].into_iter().flatten() {
                        self.compare_link(Link {
                            frames,
                            range,
                            closed,
                            least,
                        })?;
                    }
                }
            }
        }
        Ok(())
    }

    fn compare_link(&mut self, link: Link) -> Result<(), String> {
        let ticks = link.frames * 960u32.div_euclid(link.frames);
        let links = vec![link];
        let network = Network { ticks, links };
        let (values, file) = (Values::of(&network), image(&network));
        let expected = write_network(&network, file.len());
        let right = expected.as_deref().map_err(Refusal::clone);
        let (write, read) = (&self.write, &self.image);
        let calls: [&dyn Fn(&mut [u8]) -> Result<usize, u64>; 2] =
            [&|out| write(&values, out), &|out| read(&file, out)];
        for call in calls {
            if let Some(fault) = self.lent.fault(file.len(), right, call) {
                return Err(format!("{network:?}: {fault}\nmodel: {expected:x?}"));
            }
        }
        let outcome = expected.map_or_else(|refusal| refusal, |_| 0);
        let is_of = [0, 8, 21, 9].map(|of| outcome == of);
        add_each(&mut self.every_link, &is_of);
        Ok(())
    }

    /// A room that is enough for so many bytes, and one that is too little.
    fn rooms(&mut self, length: usize) -> [usize; 2] {
        let random = &mut self.random;
        [enough_room(random, length), too_little_room(random, length)]
    }

    fn tally_values(
        &mut self,
        values: &Values,
        network: &Network,
        expected: &Result<Vec<u8>, Refusal>,
    ) {
        let outcome = match expected {
            Ok(_) => 0,
            Err(refusal) => *refusal,
        };
        let is_of = [0, 2, 3, 7, 8, 21, 9, 20].map(|of| outcome == of);
        add_each(&mut self.values, &is_of);
        if outcome == 0 {
            add_each(&mut self.passed, &edges_passed(values, network));
            add_each(&mut self.least_passed, &least_holds::some_passed(network));
        } else {
            add_each(&mut self.refused, &edges_refused(network, outcome));
            self.tally_link(network, outcome);
        }
    }

    /// Counts the link for which values are refused.
    fn tally_link(&mut self, network: &Network, refusal: Refusal) {
        if let (Some(bad), 7..=9 | 21) = (bad_link(network), refusal) {
            add_each(&mut self.least_refused, &least_holds::refused(bad, refusal));
            add_each(&mut self.several, &least_holds::several(bad, refusal));
            self.past_a_byte[0].add(refusal == 21 && bad.least > 255);
        }
    }

    // ---- What was seen ----

    fn lines(&self) -> [Line<'_>; 7] {
        [
            ("", &self.values),
            ("written: ", &self.passed),
            ("written: Y ", &self.least_passed),
            ("refused: ", &self.refused),
            ("refused with 21: Y ", &self.least_refused),
            ("refused with 21: Y ", &self.past_a_byte),
            (
                "refused where another check would refuse too: ",
                &self.several,
            ),
        ]
    }

    /// Prints what was seen.
    pub fn print(&self) {
        let (images, values) = (total(&self.images), total(&self.values));
        println!("files read and written again: {images} compared, 0 differed");
        print_lines(&[("", &self.images)]);
        println!("networks given as values: {values} compared, 0 differed");
        print_lines(&self.lines());
        let links = total(&self.every_link);
        println!("links of each K with each Z and Y: {links} compared, 0 differed");
        print_lines(&[("", &self.every_link)]);
    }

    /// The first sort of which too few were seen, in words.
    pub fn too_few(&self) -> Option<String> {
        let images = too_few_in(&[("", &self.images)]);
        let images = images.map(|few| format!("files read and written again: {few}"));
        let values =
            || too_few_in(&self.lines()).map(|few| format!("networks given as values: {few}"));
        let links = || {
            let few = too_few_in(&[("", &self.every_link)]);
            few.map(|few| format!("links of each K with each Z and Y: {few}"))
        };
        images.or_else(values).or_else(links)
    }
}

/// On which edges the values of a network that passes its checks lie, in the order of `passed`.
fn edges_passed(values: &Values, network: &Network) -> [bool; 10] {
    let any = |is: fn(&Link) -> bool| network.links.iter().any(is);
    let lengths = [
        values.frames.len(),
        values.range.len(),
        values.closed.len(),
        values.least.len(),
    ];
    [
        network.links.len() == 1,
        network.links.len() == 32,
        network.ticks == 1,
        network.ticks == 960,
        any(|link| link.frames == 1),
        any(|link| link.frames == 64),
        any(|link| link.range == 1),
        any(|link| link.range == link.frames),
        any(|link| route::has(link.closed, link.frames - 1)),
        lengths != [network.links.len(); 4],
    ]
}

/// The first link that doesn't pass its checks.
fn bad_link(network: &Network) -> Option<&Link> {
    let mut links = network.links.iter();
    links.find(|link| check_link(network.ticks, link).is_err())
}

/// Over which edge the value lies for which a network is refused, in the order of `refused`.
fn edges_refused(network: &Network, refusal: Refusal) -> [bool; 10] {
    let bad = bad_link(network);
    let is = |of: Refusal, condition: bool| refusal == of && condition;
    let is_bad = |of: Refusal, condition: fn(&Link) -> bool| is(of, bad.is_some_and(condition));
    [
        is(2, network.links.is_empty()),
        is(2, network.links.len() == 33),
        is(3, network.ticks == 0),
        is(3, network.ticks == 961),
        is_bad(7, |link| link.frames == 0),
        network.ticks % 65 == 0 && is_bad(7, |link| link.frames == 65),
        is_bad(7, |link| (1..=64).contains(&link.frames)),
        is_bad(8, |link| link.range == 0),
        is_bad(8, |link| link.range == link.frames + 1),
        is_bad(9, |link| route::has(link.closed, link.frames)),
    ]
}

#[cfg(test)]
mod tests {
    use super::*;
    use crate::random::Random;
    use crate::{inputs, stand_in};

    /// Compares functions with the model on some files and values.
    fn compared(image: Box<Image>, write: Box<Write>) -> Result<Writing, String> {
        let mut writing = Writing::new(image, write, 9);
        let mut random = Random::new(10);
        for inputs in 1..=5_000 {
            writing.compare_file(inputs, &inputs::input(&mut random).file)?;
            writing.compare_values(inputs)?;
        }
        Ok(writing)
    }

    #[test]
    fn right_ones_do_not_differ_and_wrong_ones_do() {
        let right = compared(Box::new(stand_in::image), Box::new(stand_in::write));
        let right = right.unwrap_or_else(|fault| panic!("{fault}"));
        assert_eq!(right.wrong_images.never_differed(), None);
        assert_eq!(right.wrong_writers.never_differed(), None);
    }

    #[test]
    fn a_wrong_one_in_the_place_of_the_library_is_found() {
        for wrong in wrong_writing::images() {
            let found = compared(wrong.does, Box::new(stand_in::write)).err();
            assert!(found.is_some_and(|words| words.starts_with("image: ")));
        }
        for wrong in wrong_writing::writers() {
            let found = compared(Box::new(stand_in::image), wrong.does).err();
            assert!(found.is_some_and(|words| words.starts_with("Values ")));
        }
    }

    #[test]
    fn every_link_is_written_or_refused() {
        let mut writing = Writing::new(Box::new(stand_in::image), Box::new(stand_in::write), 36);
        assert_eq!(writing.compare_every_link(), Ok(()));
        // Each K has K * (K + 1) / 2 + K - 1 pairs of Z and Y that pass: Z + 1 for each Z, but one fewer for Z K.
        let pairs = |frames: usize| frames * (frames + 1) / 2 + frames - 1;
        let [written, _, _, closed] = writing.every_link.each_ref().map(|sort| sort.seen);
        assert_eq!(written, (1..=64).map(pairs).sum());
        assert_eq!(closed, (1..=63).map(pairs).sum());
        // Each K has (K + 2) * (K + 3) pairs of Z and Y, with frame K closed as well but for K 64.
        let tried = |frames: usize| (frames + 2) * (frames + 3);
        let all: usize = (1..=64).map(tried).sum();
        assert_eq!(total(&writing.every_link), 2 * all - tried(64));
        let too_few = writing.every_link.iter().find_map(Sort::too_few);
        assert_eq!(too_few, None);
    }

    #[test]
    fn a_wrong_edge_of_a_link_is_found() {
        let wrong: [Box<Write>; 2] = [
            Box::new(|values, out| match stand_in::write(values, out) {
                Err(21) if values.frames[0] == 61 && values.least[0] == 0 => Err(9),
                answer => answer,
            }),
            Box::new(|values, out| {
                if (values.range[0], values.least[0]) == (59, 59) {
                    return Err(21);
                }
                stand_in::write(values, out)
            }),
        ];
        for write in wrong {
            let mut writing = Writing::new(Box::new(stand_in::image), write, 36);
            assert!(writing.compare_every_link().is_err());
        }
        let image: Box<Image> = Box::new(|file, out| match stand_in::image(file, out) {
            Err(21) => Err(8),
            answer => answer,
        });
        let mut writing = Writing::new(image, Box::new(stand_in::write), 36);
        assert!(writing.compare_every_link().is_err());
    }

    fn network(ticks: u32, links: &[(u32, u32, u64)]) -> Network {
        let link = |&(frames, range, closed): &(u32, u32, u64)| Link {
            frames,
            range,
            closed,
            least: 1,
        };
        Network {
            ticks,
            links: links.iter().map(link).collect(),
        }
    }

    #[test]
    fn edges_of_values() {
        let places =
            |edges: [bool; 10]| -> Vec<usize> { (0..10).filter(|&place| edges[place]).collect() };
        // Each refused network lies over one edge, in the order of the sorts.
        let good = (16, 4, 0);
        let refused = [
            (network(48, &[]), 2),
            (network(48, &[good; 33]), 2),
            (network(0, &[good]), 3),
            (network(961, &[good]), 3),
            (network(48, &[good, (0, 4, 0)]), 7),
            (network(780, &[(65, 4, 0)]), 7),
            (network(48, &[(7, 9, 0)]), 7),
            (network(48, &[(8, 0, 0)]), 8),
            (network(48, &[good, (8, 9, 0)]), 8),
            (network(48, &[(8, 2, 256), (0, 0, 0)]), 9),
        ];
        for (place, (network, refusal)) in refused.iter().enumerate() {
            assert_eq!(write_network(network, LONGEST), Err(*refusal));
            assert_eq!(places(edges_refused(network, *refusal)), [place]);
        }
        let passed = [
            (network(48, &[(8, 2, 127)]), vec![0]),
            (network(48, &[good; 32]), vec![1]),
            (network(1, &[(1, 1, 1), (1, 1, 0)]), vec![2, 4, 6, 7, 8]),
            (
                network(960, &[(64, 63, 0), (64, 64, 1 << 63)]),
                vec![3, 5, 7, 8],
            ),
        ];
        for (network, edges) in passed {
            assert!(write_network(&network, LONGEST).is_ok());
            let values = Values::of(&network);
            assert_eq!(places(edges_passed(&values, &network)), edges);
            let mut unequal = values;
            unequal.least.push(0);
            assert!(edges_passed(&unequal, &network)[9]);
        }
    }
}
