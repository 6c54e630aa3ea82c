//! Which pairs of tag and reply users' lists can reach, and which were met.

use std::collections::BTreeMap;

/// For each tag the replies that it can get in users' lists.
///
/// Of the page's lists are missing: 2 (NOTARY's table has 768 bytes, always); 8 (the users and
/// those who hold places are at most 16); 13 (NOTARY's output is as long as the longest data);
/// 6 of CPW (who is active has passed RAS, so current key 1 is there). 16 is no command of a user;
/// some stand in the lists all the same.
const REACHABLE: [(u8, &[u8]); 16] = [
    (0x01, &[0, 1, 4, 6, 7, 9]),
    (0x02, &[0, 1, 3]),
    (0x03, &[0, 1, 3, 7, 9]),
    (0x04, &[0, 1, 3, 6]),
    (0x05, &[0, 1, 3, 5, 6]),
    (0x06, &[0, 1, 3, 10]),
    (0x07, &[0, 1, 3, 5, 10]),
    (0x08, &[0, 1, 3, 10]),
    (0x09, &[0, 1, 3, 5, 6]),
    (0x0A, &[0, 1, 3, 10, 12]),
    (0x0B, &[0, 1, 3, 10, 12]),
    (0x0C, &[0, 1, 3, 10, 11, 12]),
    (0x0D, &[0, 1, 3, 10, 11, 12]),
    (0x0E, &[0, 1, 3, 10, 11, 12]),
    (0x0F, &[0, 1, 3, 10, 11, 12]),
    (0x10, &[0, 1, 3, 5, 10, 11, 12]),
];

/// How often each pair came, its two parts as printed.
#[derive(Default)]
pub struct Replies(BTreeMap<(String, String), usize>);

impl Replies {
    /// Takes note of a line without its ordinal.
    pub fn meet(&mut self, line: &str) {
        let mut words = line.split(' ').map(str::to_string);
        let pair = (words.next().unwrap_or_default(), words.next().unwrap_or_default());
        *self.0.entry(pair).or_default() += 1;
    }

    fn times(&self, tag: u8, reply: u8) -> usize {
        self.0.get(&(format!("{tag:02X}"), reply.to_string())).copied().unwrap_or(0)
    }

    /// Each reply number with how often it came, the lowest first.
    pub fn met(&self) -> String {
        let mut numbers: BTreeMap<usize, usize> = BTreeMap::new();
        for ((_, reply), times) in &self.0 {
            *numbers.entry(reply.parse().unwrap_or(usize::MAX)).or_default() += times;
        }
        let cells: Vec<String> = numbers.iter().map(|(reply, times)| format!("{reply}:{times}")).collect();
        cells.join(" ")
    }

    /// The pairs that were not met, and how many can be.
    pub fn missed(&self) -> (Vec<String>, usize) {
        let of_tag = |row: &(u8, &'static [u8])| {
            let tag = row.0;
            row.1.iter().map(move |&reply| (tag, reply))
        };
        let reachable: Vec<(u8, u8)> = REACHABLE.iter().flat_map(of_tag).collect();
        let missed = reachable.iter().filter(|pair| self.times(pair.0, pair.1) == 0);
        (missed.map(|(tag, reply)| format!("{tag:02X} with {reply}")).collect(), reachable.len())
    }
}
