//! Wrong writers of network files: of a file that was read, and of a network given as values.

use crate::network_file::{check_closed, check_frames, check_least, check_range};
use crate::network_file::{check_head, check_link, check_network, image, read_network, refuse};
use crate::network_file::{write_again, write_network};
use crate::network_file::{Draft, Link, Network, Record, Refusal, Values, ABSENT};
use crate::stand_in::{self, change, put, put_what_fits, Image, Write};
use crate::tried::Wrong;
use crate::wrong_least::{check_with, CHECKS};

// ---- A file read and written again ----

/// All wrong images.
pub fn images() -> Vec<Wrong<Box<Image>>> {
    let mut all = wrong_images();
    all.extend(wrong_least_images());
    all
}

fn wrong_image(
    name: &'static str,
    does: impl Fn(&[u8], &mut [u8]) -> Result<usize, u64> + 'static,
) -> Wrong<Box<Image>> {
    let does = Box::new(does);
    Wrong { name, does }
}

fn wrong_images() -> Vec<Wrong<Box<Image>>> {
    vec![
        wrong_image("a byte after the image changed", |file, out| {
            let length = stand_in::image(file, out)?;
            change(out, length);
            Ok(length)
        }),
        wrong_image("short buffer filled before it is refused", |file, out| {
            put_what_fits(&write_again(file, usize::MAX)?, out);
            stand_in::image(file, out)
        }),
        wrong_image("20 before the refusal of the file", |file, out| {
            if out.len() < file.len() {
                return Err(20);
            }
            stand_in::image(file, out)
        }),
        wrong_image("closed frames of no link written", |file, out| {
            let mut network = read_network(file)?;
            network.links.iter_mut().for_each(|link| link.closed = 0);
            stand_in::image(file, out)?;
            put(&image(&network), out)
        }),
    ]
}

fn wrong_least_images() -> Vec<Wrong<Box<Image>>> {
    vec![
        wrong_image("Y of no link written", |file, out| {
            let mut network = read_network(file)?;
            let links = network.links.iter_mut();
            links.for_each(|link| link.least = ABSENT.least);
            stand_in::image(file, out)?;
            put(&image(&network), out)
        }),
        wrong_image("8 for 21", |file, out| {
            stand_in::image(file, out).map_err(|refusal| match refusal {
                21 => 8,
                other => other,
            })
        }),
    ]
}

// ---- A network given as values ----

/// All wrong writers.
pub fn writers() -> Vec<Wrong<Box<Write>>> {
    let mut all = wrong_buffers();
    all.extend(wrong_orders());
    all.extend(wrong_places_of_21());
    all.extend(wrong_checks());
    all.extend(wrong_networks());
    all.extend(wrong_records());
    all.extend(wrong_least_holds());
    all
}

fn wrong(
    name: &'static str,
    does: impl Fn(&Values, &mut [u8]) -> Result<usize, u64> + 'static,
) -> Wrong<Box<Write>> {
    let does = Box::new(does);
    Wrong { name, does }
}

/// The image of values that pass.
fn image_of(values: &Values) -> Result<Vec<u8>, Refusal> {
    let network = values.network();
    check_network(&network)?;
    Ok(image(&network))
}

fn wrong_buffers() -> Vec<Wrong<Box<Write>>> {
    vec![
        wrong("20 one byte too early", |values, out| {
            match image_of(values)? {
                image if image.len() == out.len() => Err(20),
                image => put(&image, out),
            }
        }),
        wrong("20 one byte too late", |values, out| {
            match image_of(values)? {
                image if image.len() == out.len() + 1 => Ok(put_what_fits(&image, out)),
                image => put(&image, out),
            }
        }),
        wrong("a byte after the image changed", |values, out| {
            let length = stand_in::write(values, out)?;
            change(out, length);
            Ok(length)
        }),
        wrong("short buffer filled before it is refused", |values, out| {
            put_what_fits(&image_of(values)?, out);
            stand_in::write(values, out)
        }),
        wrong(
            "records put before a later link is refused",
            |values, out| {
                let answer = stand_in::write(values, out);
                if let Err(7..=9 | 21) = answer {
                    put_what_fits(&image(&values.network()), out);
                }
                answer
            },
        ),
    ]
}

/// Makes these checks of the network and of the room before all others.
fn first(
    name: &'static str,
    check: impl Fn(&Network, usize) -> Result<(), Refusal> + 'static,
) -> Wrong<Box<Write>> {
    wrong(name, move |values, out| {
        check(&values.network(), out.len())?;
        stand_in::write(values, out)
    })
}

/// After 2 and 3, makes these checks of a link before those of the next one.
fn first_of_links(
    name: &'static str,
    check: fn(u32, &Link) -> Result<(), Refusal>,
) -> Wrong<Box<Write>> {
    first(name, move |network, _| {
        check_head(network.ticks, network.links.len())?;
        let mut links = network.links.iter();
        links.try_for_each(|link| check(network.ticks, link))
    })
}

fn wrong_orders() -> Vec<Wrong<Box<Write>>> {
    let is_shorter = |network: &Network, room: usize| room < image(network).len();
    vec![
        first("20 before every check", move |network, room| {
            refuse(20, is_shorter(network, room))
        }),
        first("20 before the links", move |network, room| {
            check_head(network.ticks, network.links.len())?;
            refuse(20, is_shorter(network, room))
        }),
        first("3 before 2", |network, _| check_head(network.ticks, 1)),
        first("links before 2 and 3", |network, _| {
            let mut links = network.links.iter();
            links.try_for_each(|link| check_link(network.ticks, link))
        }),
        first_of_links("7 of every link before 8 of the first", |ticks, link| {
            refuse(7, check_link(ticks, link) == Err(7))
        }),
        first_of_links("8 before 7", |ticks, link| {
            check_range(link)?;
            check_link(ticks, link)
        }),
        first_of_links("9 before 8", |ticks, link| {
            check_frames(ticks, link)?;
            check_closed(link)?;
            check_link(ticks, link)
        }),
    ]
}

fn wrong_places_of_21() -> Vec<Wrong<Box<Write>>> {
    vec![
        first_of_links("21 before 7", |ticks, link| {
            check_least(link)?;
            check_link(ticks, link)
        }),
        first_of_links("21 before 8", |ticks, link| {
            check_frames(ticks, link)?;
            check_least(link)?;
            check_link(ticks, link)
        }),
        first_of_links("21 after 9", |ticks, link| {
            check_frames(ticks, link)?;
            check_range(link)?;
            check_closed(link)?;
            check_link(ticks, link)
        }),
        first_of_links("21 of every link before 9 of the first", |ticks, link| {
            check_frames(ticks, link)?;
            check_range(link)?;
            check_least(link)
        }),
    ]
}

/// A writer with another check in the place of 21.
fn checks_by(name: &'static str, check: fn(&Link) -> Result<(), Refusal>) -> Wrong<Box<Write>> {
    wrong(name, move |values, out| {
        let network = values.network();
        check_head(network.ticks, network.links.len())?;
        let mut links = network.links.iter();
        links.try_for_each(|link| check_with(network.ticks, link, check))?;
        put(&image(&network), out)
    })
}

fn wrong_checks() -> Vec<Wrong<Box<Write>>> {
    let checks = CHECKS.into_iter();
    checks.map(|(name, check)| checks_by(name, check)).collect()
}

/// Writes another network than the one that is meant.
fn means(name: &'static str, network: fn(&Values) -> Network) -> Wrong<Box<Write>> {
    wrong(name, move |values, out| {
        put(&write_network(&network(values), out.len())?, out)
    })
}

fn wrong_networks() -> Vec<Wrong<Box<Write>>> {
    vec![
        means("as many links as K are given", |values| {
            let mut values = values.clone();
            values
                .range
                .resize(values.frames.len(), ABSENT.range as u16);
            values.closed.resize(values.frames.len(), ABSENT.closed);
            values
                .least
                .resize(values.frames.len(), ABSENT.least as u16);
            values.network()
        }),
        means("links after the 32nd left out", |values| {
            let mut network = values.network();
            network.links.truncate(32);
            network
        }),
        means("number of links cut to a byte", |values| {
            let mut network = values.network();
            network.links.truncate(network.links.len() % 256);
            network
        }),
        means("T cut to ten bits", |values| Network {
            ticks: u32::from(values.ticks) % 1_024,
            ..values.network()
        }),
        means("K cut to a byte", |values| {
            let mut network = values.network();
            network.links.iter_mut().for_each(|link| link.frames %= 256);
            network
        }),
        means("Z cut to a byte", |values| {
            let mut network = values.network();
            network.links.iter_mut().for_each(|link| link.range %= 256);
            network
        }),
    ]
}

/// Writes the records with a change to each.
fn records(name: &'static str, change: fn(&mut Record)) -> Wrong<Box<Write>> {
    wrong(name, move |values, out| {
        let network = values.network();
        check_network(&network)?;
        let mut draft = Draft::of(&network);
        draft.records.iter_mut().for_each(change);
        put(&draft.bytes(), out)
    })
}

fn wrong_records() -> Vec<Wrong<Box<Write>>> {
    vec![
        records("absent K written", |record| {
            record.frames.get_or_insert(ABSENT.frames as u8);
        }),
        records("absent Z written", |record| {
            record.range.get_or_insert(ABSENT.range as u8);
        }),
        records("absent closed frames written", |record| {
            record.closed.get_or_insert(ABSENT.closed);
        }),
        records("closed frames high byte first", |record| {
            record.closed = record.closed.map(u64::swap_bytes);
        }),
    ]
}

/// The image of a network in which Y stands before the closed frames.
fn image_with_least_first(network: &Network) -> Vec<u8> {
    let mut draft = Draft::of(network);
    let records = std::mem::take(&mut draft.records);
    let mut bytes = draft.bytes();
    for record in records {
        record.put(&mut bytes);
        if let (Some(_), Some(_)) = (record.closed, record.least) {
            let start = bytes.len() - 9;
            bytes[start..].rotate_right(1);
        }
    }
    bytes
}

fn wrong_least_holds() -> Vec<Wrong<Box<Write>>> {
    vec![
        means("Y cut to a byte", |values| {
            let mut network = values.network();
            network.links.iter_mut().for_each(|link| link.least %= 256);
            network
        }),
        means("links without a Y taken for ones of Y 1", |values| {
            let mut values = values.clone();
            if values.least.len() < values.frames.len() {
                let links = values.frames.len();
                values.least.resize(links, ABSENT.least as u16);
            }
            values.network()
        }),
        records("absent Y written", |record| {
            record.least.get_or_insert(ABSENT.least as u8);
        }),
        records("Y left out", |record| record.least = None),
        records("Y 0 left out", |record| {
            record.least = record.least.filter(|&least| least > 0);
        }),
        wrong("Y before the closed frames", |values, out| {
            let network = values.network();
            check_network(&network)?;
            put(&image_with_least_first(&network), out)
        }),
    ]
}
