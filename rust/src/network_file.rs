//! The network as values, its checks, and its file read and written.

use crate::route;

/// A refusal number of the document's list.
pub type Refusal = u32;

/// A link: frames per cycle K, forwarding range Z, closed frames, least hold Y (W-206).
#[derive(Clone, Debug, PartialEq, Eq)]
pub struct Link {
    pub frames: u32,
    pub range: u32,
    pub closed: u64,
    pub least: u32,
}

/// A network: the cycle of T ticks and its links.
#[derive(Clone, Debug, PartialEq, Eq)]
pub struct Network {
    pub ticks: u32,
    pub links: Vec<Link>,
}

/// A network given as values, good or bad: T, and the K, Z, closed frames and Y of the links.
#[derive(Clone, Debug)]
pub struct Values {
    pub ticks: u16,
    pub frames: Vec<u16>,
    pub range: Vec<u16>,
    pub closed: Vec<u64>,
    pub least: Vec<u16>,
}

/// The values of fields that aren't written.
pub const ABSENT: Link = Link {
    frames: 16,
    range: 4,
    closed: 0,
    least: 1,
};

/// Fails with the refusal where its condition holds.
pub fn refuse(refusal: Refusal, condition: bool) -> Result<(), Refusal> {
    if condition {
        Err(refusal)
    } else {
        Ok(())
    }
}

// ---- Checks ----

/// Checks 2 and 3.
pub fn check_head(ticks: u32, links: usize) -> Result<(), Refusal> {
    refuse(2, links == 0 || links > 32)?;
    refuse(3, ticks == 0 || ticks > 960)
}

/// Checks 7, 8, 21 and 9 of a link, in this order, whether its fields were written or absent.
pub fn check_link(ticks: u32, link: &Link) -> Result<(), Refusal> {
    check_frames(ticks, link)?;
    check_range(link)?;
    check_least(link)?;
    check_closed(link)
}

/// Check 7.
pub fn check_frames(ticks: u32, link: &Link) -> Result<(), Refusal> {
    refuse(7, link.frames == 0 || link.frames > 64)?;
    refuse(7, ticks % link.frames != 0)
}

/// Check 8.
pub fn check_range(link: &Link) -> Result<(), Refusal> {
    refuse(8, link.range == 0 || link.range > link.frames)
}

/// Check 21.
pub fn check_least(link: &Link) -> Result<(), Refusal> {
    refuse(21, link.least > link.range)?;
    refuse(21, link.least == 0 && link.range == link.frames)
}

/// Check 9.
pub fn check_closed(link: &Link) -> Result<(), Refusal> {
    refuse(9, link.closed & !route::ones(link.frames) != 0)
}

/// The checks of a network given as values: 2, 3, then 7, 8, 21 and 9 of the links in turn.
pub fn check_network(network: &Network) -> Result<(), Refusal> {
    check_head(network.ticks, network.links.len())?;
    let mut links = network.links.iter();
    links.try_for_each(|link| check_link(network.ticks, link))
}

// ---- Reading ----

/// Reads the network file: checks 1 to 3, the records in turn, check 10.
pub fn read_network(file: &[u8]) -> Result<Network, Refusal> {
    refuse(1, file.len() < 3)?;
    let ticks = u32::from(file[0]) + 256 * u32::from(file[1]);
    let number = file[2];
    check_head(ticks, usize::from(number))?;
    let mut links = Vec::new();
    let mut rest = &file[3..];
    for _ in 0..number {
        let (link, used) = read_link(rest)?;
        check_link(ticks, &link)?;
        links.push(link);
        rest = &rest[used..];
    }
    refuse(10, !rest.is_empty())?;
    Ok(Network { ticks, links })
}

/// Reads the link record at the start of the bytes, checks 4 to 6; answers the link and the bytes used.
pub fn read_link(bytes: &[u8]) -> Result<(Link, usize), Refusal> {
    let Some(&map) = bytes.first() else {
        return Err(4);
    };
    let used = record_length(map);
    refuse(4, bytes.len() < used)?;
    refuse(5, map > 15)?;
    let [has_frames, has_range, has_closed, has_least] = [0, 1, 2, 3].map(|bit| has_bit(map, bit));
    let mut link = ABSENT;
    let mut at = 1;
    if has_frames {
        link.frames = u32::from(bytes[at]);
        at += 1;
    }
    if has_range {
        link.range = u32::from(bytes[at]);
        at += 1;
    }
    if has_closed {
        for (i, &byte) in bytes[at..at + 8].iter().enumerate() {
            link.closed |= u64::from(byte) << (8 * i);
        }
        at += 8;
    }
    if has_least {
        link.least = u32::from(bytes[at]);
    }
    refuse(6, has_frames && link.frames == ABSENT.frames)?;
    refuse(6, has_range && link.range == ABSENT.range)?;
    refuse(6, has_closed && link.closed == ABSENT.closed)?;
    refuse(6, has_least && link.least == ABSENT.least)?;
    Ok((link, used))
}

/// Does that bit of a map byte stand?
pub fn has_bit(map: u8, bit: u32) -> bool {
    map >> bit & 1 == 1
}

/// How many bytes a record needs by bits 0 to 3 of its map byte, which is one of them.
pub fn record_length(map: u8) -> usize {
    let field = |bit, length| if has_bit(map, bit) { length } else { 0 };
    1 + field(0, 1) + field(1, 1) + field(2, 8) + field(3, 1)
}

// ---- Writing ----

/// A link record before it is put into bytes: which fields are written, and a map byte's stray bits.
pub struct Record {
    pub stray: u8,
    pub frames: Option<u8>,
    pub range: Option<u8>,
    pub closed: Option<u64>,
    pub least: Option<u8>,
}

impl Record {
    fn of(link: &Link) -> Self {
        Record {
            stray: 0,
            frames: (link.frames != ABSENT.frames).then_some(link.frames as u8),
            range: (link.range != ABSENT.range).then_some(link.range as u8),
            closed: (link.closed != ABSENT.closed).then_some(link.closed),
            least: (link.least != ABSENT.least).then_some(link.least as u8),
        }
    }

    /// Puts the record behind the bytes.
    pub fn put(&self, bytes: &mut Vec<u8>) {
        let map = u8::from(self.frames.is_some())
            | u8::from(self.range.is_some()) << 1
            | u8::from(self.closed.is_some()) << 2
            | u8::from(self.least.is_some()) << 3;
        bytes.push(map | self.stray);
        bytes.extend(self.frames);
        bytes.extend(self.range);
        if let Some(closed) = self.closed {
            bytes.extend(closed.to_le_bytes());
        }
        bytes.extend(self.least);
    }
}

/// The file before it is put into bytes.
pub struct Draft {
    pub ticks: u16,
    pub number: u8,
    pub records: Vec<Record>,
}

impl Draft {
    pub fn of(network: &Network) -> Self {
        Draft {
            ticks: network.ticks as u16,
            number: network.links.len() as u8,
            records: network.links.iter().map(Record::of).collect(),
        }
    }

    pub fn bytes(&self) -> Vec<u8> {
        let mut bytes = self.ticks.to_le_bytes().to_vec();
        bytes.push(self.number);
        for record in &self.records {
            record.put(&mut bytes);
        }
        bytes
    }
}

/// The file of a network that passes its checks.
pub fn image(network: &Network) -> Vec<u8> {
    Draft::of(network).bytes()
}

/// The file of a network given as values, where so many bytes are room for it: the checks of the values, then 20.
pub fn write_network(network: &Network, room: usize) -> Result<Vec<u8>, Refusal> {
    check_network(network)?;
    let image = image(network);
    refuse(20, room < image.len())?;
    Ok(image)
}

/// A file read and written again, where so many bytes are room for it: the refusal of the file, then 20.
pub fn write_again(file: &[u8], room: usize) -> Result<Vec<u8>, Refusal> {
    write_network(&read_network(file)?, room)
}

impl Values {
    /// The values of a network.
    pub fn of(network: &Network) -> Self {
        let links = &network.links;
        Values {
            ticks: network.ticks as u16,
            frames: links.iter().map(|link| link.frames as u16).collect(),
            range: links.iter().map(|link| link.range as u16).collect(),
            closed: links.iter().map(|link| link.closed).collect(),
            least: links.iter().map(|link| link.least as u16).collect(),
        }
    }

    /// The network that is meant: as many links as the shortest list has numbers.
    pub fn network(&self) -> Network {
        let fields = self.frames.iter().zip(&self.range);
        let fields = fields.zip(self.closed.iter().zip(&self.least));
        let links = fields.map(|((&frames, &range), (&closed, &least))| Link {
            frames: u32::from(frames),
            range: u32::from(range),
            closed,
            least: u32::from(least),
        });
        Network {
            ticks: u32::from(self.ticks),
            links: links.collect(),
        }
    }
}

#[cfg(test)]
mod tests {
    use super::*;
    use crate::networks;
    use crate::random::Random;

    #[test]
    fn written_network() {
        let network = read_network(&[0x30, 0, 2, 0, 3, 8, 2]).unwrap();
        assert_eq!(network.ticks, 48);
        let values: Vec<_> = network
            .links
            .iter()
            .map(|l| (l.frames, l.range, l.closed, l.least))
            .collect();
        assert_eq!(values, [(16, 4, 0, 1), (8, 2, 0, 1)]);
    }

    #[test]
    fn read_least_holds() {
        // Y alone; with K and Z; behind the closed frames.
        let file = [
            0x30, 0, 3, 8, 2, 0x0b, 8, 2, 0, 0x0c, 0x81, 0, 0, 0, 0, 0, 0, 0, 4,
        ];
        let network = read_network(&file).unwrap();
        let least: Vec<u32> = network.links.iter().map(|link| link.least).collect();
        assert_eq!(least, [2, 0, 4]);
        assert_eq!(network.links[2].closed, 0x81);
        assert_eq!(image(&network), file);
    }

    #[test]
    fn refused_files() {
        let cases: [(&[u8], u32); 23] = [
            (&[], 1),
            (&[0x30, 0], 1),
            (&[0, 0, 0], 2),
            (&[0x30, 0, 33], 2),
            (&[0, 0, 1, 0], 3),
            (&[0xc1, 3, 1, 0], 3),
            (&[0x30, 0, 1], 4),
            (&[0x30, 0, 1, 3, 8], 4),
            (&[0x30, 0, 1, 0x13, 8], 4),
            (&[0x30, 0, 1, 4, 1, 0, 0, 0, 0, 0, 0], 4),
            (&[0x30, 0, 1, 16], 5),
            (&[0x30, 0, 1, 0x80], 5),
            (&[0x30, 0, 1, 0x8b, 8, 2, 1], 5),
            (&[0x31, 0, 1, 1, 16], 6),
            (&[0x30, 0, 1, 2, 4], 6),
            (&[0x30, 0, 1, 4, 0, 0, 0, 0, 0, 0, 0, 0], 6),
            (&[0x31, 0, 1, 0], 7),
            (&[0x30, 0, 1, 3, 0, 2], 7),
            (&[0x60, 0, 1, 3, 96, 2], 7),
            (&[0x30, 0, 1, 1, 3], 8),
            (&[0x30, 0, 1, 2, 0], 8),
            (&[0x30, 0, 1, 4, 0, 0, 1, 0, 0, 0, 0, 0], 9),
            (&[0x30, 0, 1, 0, 0], 10),
        ];
        for (file, refusal) in cases {
            assert_eq!(read_network(file), Err(refusal), "{file:x?}");
        }
    }

    #[test]
    fn files_refused_for_a_least_hold() {
        let cases: [(&[u8], u32); 20] = [
            // Y's byte isn't there: with bit 3 alone, behind K and Z, behind the closed frames, and under a stray bit.
            (&[0x30, 0, 1, 8], 4),
            (&[0x30, 0, 1, 0x0b, 8, 2], 4),
            (&[0x30, 0, 1, 0x0c, 1, 0, 0, 0, 0, 0, 0, 0], 4),
            (&[0x30, 0, 1, 0x18], 4),
            (&[0x30, 0, 1, 0x18, 2], 5),
            // Written 1, also where another field is refused for another reason.
            (&[0x30, 0, 1, 8, 1], 6),
            (&[0x31, 0, 1, 8, 1], 6),
            (&[0x30, 0, 1, 0x0a, 0, 1], 6),
            // 7 and 8 come before 21: K 5, Z 0, Z above K.
            (&[0x30, 0, 1, 0x09, 5, 7], 7),
            (&[0x30, 0, 1, 0x0a, 0, 2], 8),
            (&[0x30, 0, 1, 0x0b, 8, 9, 10], 8),
            // Y above Z, by one and by more; Y 0 with Z K; of 21 and 9 the first.
            (&[0x30, 0, 1, 8, 5], 21),
            (&[0x30, 0, 1, 8, 255], 21),
            (&[0x30, 0, 1, 0x0a, 16, 0], 21),
            (&[0x30, 0, 1, 0x0b, 1, 1, 0], 21),
            (&[0x30, 0, 1, 0x0c, 0, 0, 1, 0, 0, 0, 0, 0, 5], 21),
            (&[0x30, 0, 1, 0x0c, 0, 0, 1, 0, 0, 0, 0, 0, 4], 9),
            // One record before the next, and 10 after all.
            (&[0x30, 0, 2, 8, 5, 1, 5], 21),
            (&[0x30, 0, 2, 0, 8, 5], 21),
            (&[0x30, 0, 1, 8, 0, 0], 10),
        ];
        for (file, refusal) in cases {
            assert_eq!(read_network(file), Err(refusal), "{file:x?}");
        }
        // Y Z, and Y 0 with Z K - 1, pass.
        for file in [&[0x30, 0, 1, 8, 4][..], &[0x30, 0, 1, 0x0a, 15, 0]] {
            assert!(read_network(file).is_ok(), "{file:x?}");
        }
    }

    #[test]
    fn the_first_bytes_tell_what_a_file_says() {
        let mut random = Random::new(31);
        let mut longer = 0;
        for _ in 0..20_000 {
            let network = networks::network(&mut random, 64);
            let file = networks::damaged(&mut random, &network);
            longer += usize::from(file.len() > 388);
            let first = &file[..file.len().min(388)];
            assert_eq!(read_network(first), read_network(&file), "{file:x?}");
        }
        assert!(longer > 100, "{longer}");
        // The longest image, and a byte more, which 388 bytes show and 387 don't.
        let link = Link {
            frames: 64,
            range: 63,
            closed: 1,
            least: 0,
        };
        let links = vec![link; 32];
        let mut file = image(&Network { ticks: 960, links });
        assert_eq!(file.len(), 387);
        file.extend([0; 9]);
        assert!(read_network(&file[..387]).is_ok());
        assert_eq!(read_network(&file[..388]), Err(10));
        assert_eq!(read_network(&file), Err(10));
    }

    /// The values of links with these K, Z and closed frames, and Y 1.
    fn values(ticks: u16, links: &[(u16, u16, u64)]) -> Values {
        let links: Vec<_> = links
            .iter()
            .map(|&(k, z, closed)| (k, z, closed, 1))
            .collect();
        least_values(ticks, &links)
    }

    /// The values of links with these K, Z, closed frames and Y.
    fn least_values(ticks: u16, links: &[(u16, u16, u64, u16)]) -> Values {
        Values {
            ticks,
            frames: links.iter().map(|link| link.0).collect(),
            range: links.iter().map(|link| link.1).collect(),
            closed: links.iter().map(|link| link.2).collect(),
            least: links.iter().map(|link| link.3).collect(),
        }
    }

    /// What the writer answers to values.
    fn written(values: &Values, room: usize) -> Result<Vec<u8>, Refusal> {
        write_network(&values.network(), room)
    }

    #[test]
    fn written_values() {
        // The document's example; then a link with every field, and K 16 and Z 4 absent beside closed frames.
        let example = vec![0x30, 0, 2, 0, 3, 8, 2];
        let two = values(48, &[(16, 4, 0), (8, 2, 0)]);
        assert_eq!(written(&two, 7), Ok(example.clone()));
        assert_eq!(written(&two, 6), Err(20));
        assert_eq!(write_again(&example, 7), Ok(example.clone()));
        assert_eq!(write_again(&example, 6), Err(20));
        let closed = values(960, &[(64, 64, 1 << 63), (16, 4, 0x8001)]);
        let file = [
            0xc0, 3, 2, 7, 64, 64, 0, 0, 0, 0, 0, 0, 0, 0x80, 4, 1, 0x80, 0, 0, 0, 0, 0, 0,
        ];
        assert_eq!(written(&closed, 23), Ok(file.to_vec()));
        assert_eq!(written(&closed, 22), Err(20));
    }

    #[test]
    fn written_least_holds() {
        // Y 0 on the second link; Y behind the closed frames; Y alone; and Y 1, which is not written.
        let links = [(8, 2, 0, 1), (8, 2, 0, 0), (8, 2, 0x80, 2), (16, 4, 0, 4)];
        let network = least_values(48, &links);
        let file = [
            0x30, 0, 4, 3, 8, 2, 0x0b, 8, 2, 0, 0x0f, 8, 2, 0x80, 0, 0, 0, 0, 0, 0, 0, 2, 8, 4,
        ];
        assert_eq!(written(&network, 24), Ok(file.to_vec()));
        assert_eq!(written(&network, 23), Err(20));
        assert_eq!(read_network(&file), Ok(network.network()));
        assert_eq!(write_again(&file, 24), Ok(file.to_vec()));
    }

    #[test]
    fn refused_values() {
        let good = (16, 4, 0);
        let cases: [(Values, Refusal); 17] = [
            (values(0, &[]), 2),
            (values(961, &[(0, 0, 1); 33]), 2),
            (values(48, &[good; 256 + 1]), 2),
            (values(0, &[(0, 0, 1)]), 3),
            (values(961, &[good]), 3),
            (values(48, &[(0, 0, 1)]), 7),
            (values(65, &[(65, 1, 0)]), 7),
            (values(48, &[(32, 4, 0)]), 7),
            (values(48, &[(256 + 16, 4, 0)]), 7),
            (values(48, &[(8, 0, 256)]), 8),
            (values(48, &[(8, 9, 256)]), 8),
            (values(48, &[(8, 256 + 2, 0)]), 8),
            (values(48, &[(8, 2, 256)]), 9),
            (values(48, &[(1, 1, 2)]), 9),
            (values(48, &[(8, 2, 256), (0, 2, 0)]), 9),
            (values(48, &[(8, 2, 0), (8, 0, 0), (7, 2, 0)]), 8),
            (values(48, &[good; 32]), 20),
        ];
        for (values, refusal) in cases {
            assert_eq!(written(&values, 34), Err(refusal), "{values:?}");
        }
        assert_eq!(written(&values(48, &[good; 32]), 35).unwrap().len(), 35);
        let (first, last) = (values(1, &[(1, 1, 1)]), values(960, &[(64, 64, u64::MAX)]));
        assert_eq!(written(&first, 14).unwrap().len(), 14);
        assert_eq!(written(&last, 14).unwrap().len(), 14);
    }

    #[test]
    fn values_refused_for_a_least_hold() {
        let cases: [((u16, u16, u64, u16), Refusal); 12] = [
            ((7, 2, 0, 3), 7),
            ((0, 0, 0, 0), 7),
            ((8, 0, 0, 1), 8),
            ((8, 0, 0, 0), 8),
            ((8, 9, 0, 10), 8),
            ((8, 2, 0, 3), 21),
            ((8, 2, 0, 256), 21),
            ((8, 2, 0, 257), 21),
            ((8, 8, 0, 0), 21),
            ((1, 1, 0, 0), 21),
            ((8, 2, 256, 3), 21),
            ((8, 7, 256, 0), 9),
        ];
        for (link, refusal) in cases {
            assert_eq!(written(&least_values(48, &[link]), 34), Err(refusal));
            let later = least_values(48, &[(8, 7, 0, 0), link, (0, 0, 0, 0)]);
            assert_eq!(written(&later, 0), Err(refusal));
        }
        for (range, least) in [(8, 8), (8, 1), (7, 0), (1, 0), (1, 1)] {
            assert!(written(&least_values(48, &[(8, range, 0, least)]), 34).is_ok());
        }
    }

    #[test]
    fn the_shortest_list_tells_the_number_of_links() {
        let mut longer = values(48, &[(16, 4, 0), (8, 2, 0), (0, 0, 1)]);
        longer.closed.truncate(2);
        assert_eq!(written(&longer, 7), Ok(vec![0x30, 0, 2, 0, 3, 8, 2]));
        longer.range.truncate(1);
        assert_eq!(written(&longer, 4), Ok(vec![0x30, 0, 1, 0]));
        longer.least.clear();
        assert_eq!(written(&longer, 4), Err(2));
        longer.least.push(4);
        assert_eq!(written(&longer, 5), Ok(vec![0x30, 0, 1, 8, 4]));
        longer.frames.clear();
        assert_eq!(written(&longer, 5), Err(2));
    }
}
