//! The stations of a bus: two to eight nodes with tables of 1 to 64 records. Their connections run between each other or to nobody, and many have the
//! same SAPs.

use crate::link_step::{Record, CLOSED, OPEN};
use crate::node::{alike, MOST_RECORDS};
use crate::node_call::Head;
use crate::random::{one_of, Random};
use crate::telegram::End;

/// A node, with its clock's distance from the bus's time.
pub struct Station {
    pub head: Head,
    pub table: Vec<Record>,
    pub ahead: u64,
}

impl Station {
    fn new(own: u32, random: &mut Random) -> Station {
        Station {
            head: Head { own, latest: 0 },
            table: Vec::new(),
            ahead: random.next() % 1_000_000,
        }
    }

    /// Where the record of an end stands.
    pub fn place(&self, end: &End) -> Option<usize> {
        self.table.iter().position(|record| record.end(self.head.own) == *end)
    }
}

/// The station with an address.
pub fn station_at(stations: &[Station], address: u32) -> Option<usize> {
    stations.iter().position(|station| station.head.own == address)
}

/// The station of an end and the place of its record.
pub fn place_of(stations: &[Station], end: &End) -> Option<(usize, usize)> {
    let station = station_at(stations, end.own)?;
    let place = stations[station].place(end)?;
    Some((station, place))
}

/// Whether the record of an end is open.
pub fn is_open(stations: &[Station], end: &End) -> bool {
    place_of(stations, end).map_or(false, |(station, place)| stations[station].table[place].phase == OPEN)
}

/// Different addresses, often at the ends of the range.
fn addresses(count: usize, random: &mut Random) -> Vec<u32> {
    let mut addresses = Vec::new();
    while addresses.len() < count {
        let any = random.upto(126) as u32;
        let address = one_of(random, &[0, 126, any, any, any]);
        if !addresses.contains(&address) {
            addresses.push(address);
        }
    }
    addresses
}

/// The number of records of a table.
fn size(random: &mut Random) -> usize {
    let any = 1 + random.upto(MOST_RECORDS - 1);
    one_of(random, &[1, 2, 3, 5, 8, any, MOST_RECORDS])
}

/// Whether there is room in a table for a record, and none that is like it.
fn has_room(table: &[Record], most: usize, record: &Record) -> bool {
    table.len() < most && !table.iter().any(|other| alike(other, record))
}

/// Adds closed records of connections to any address, until there are so many.
pub fn fill(table: &mut Vec<Record>, count: usize, random: &mut Random) {
    while table.len() < count {
        let end = End {
            own: 0,
            partner: random.upto(126) as u32,
            partner_sap: random.upto(62) as u32,
            local_sap: random.upto(62) as u32,
            level: one_of(random, &[4, 2]),
        };
        let record = Record::closed(&end, CLOSED);
        if has_room(table, count, &record) {
            table.push(record);
        }
    }
}

/// Another station than this.
pub fn another(stations: &[Station], station: usize, random: &mut Random) -> usize {
    (station + 1 + random.upto(stations.len() - 2)) % stations.len()
}

/// Two stations that differ.
pub fn two_of(stations: &[Station], random: &mut Random) -> (usize, usize) {
    let first = random.upto(stations.len() - 1);
    (first, another(stations, first, random))
}

/// Stations with their tables, and both ends of some of their connections.
pub fn connected(random: &mut Random) -> (Vec<Station>, Vec<End>) {
    let count = 2 + random.upto(6);
    let mut stations: Vec<Station> = addresses(count, random).into_iter().map(|own| Station::new(own, random)).collect();
    let sizes: Vec<usize> = stations.iter().map(|_| size(random)).collect();
    let saps = [random.upto(62) as u32, random.upto(62) as u32, one_of(random, &[0, 62])];
    let mut ends = Vec::new();
    for _ in 0..200 {
        let (first, second) = two_of(&stations, random);
        let end = End {
            own: stations[first].head.own,
            partner: stations[second].head.own,
            partner_sap: one_of(random, &saps),
            local_sap: one_of(random, &saps),
            level: one_of(random, &[4, 4, 2]),
        };
        let both = [(first, end), (second, end.mirrored())].map(|(station, end)| (station, Record::closed(&end, CLOSED)));
        if both
            .iter()
            .all(|(station, record)| has_room(&stations[*station].table, sizes[*station], record))
        {
            both.iter().for_each(|(station, record)| stations[*station].table.push(*record));
            ends.extend([end, end.mirrored()]);
        }
    }
    for (station, size) in stations.iter_mut().zip(sizes) {
        fill(&mut station.table, size, random);
        (0..size).for_each(|place| station.table.swap(place, random.upto(size - 1)));
    }
    ends.truncate(2 * (1 + random.upto(4)));
    (stations, ends)
}
