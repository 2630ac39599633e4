//! Assigns groups to servers.
//!
//! Each of the servers, numbered from 1, has 128 points on a ring, and a group belongs to the first point at or after its
//! own, or to the first of all. The point of a text is its BLAKE2b digest of 8 bytes, read as a number with the highest byte
//! first: of the group's name, and of `N/K` for the point K, from 0 to 127, of the server N. So every program can compute
//! where a group is, and an additional server takes its share of the groups from the others and moves none between those.

const POINTS: usize = 128;

/// The servers' points in their order.
pub struct Ring {
    points: Vec<(u64, usize)>,
}

impl Ring {
    /// The ring of this many servers.
    pub fn new(count: usize) -> Ring {
        let all =
            (1..=count).flat_map(|number| (0..POINTS).map(move |point| (point_of(&format!("{number}/{point}")), number)));
        let mut points: Vec<(u64, usize)> = all.collect();
        points.sort_unstable();
        Ring { points }
    }

    /// The number of the server that a group belongs to.
    pub fn number_of(&self, group: &str) -> usize {
        let point = point_of(group);
        let at = self.points.partition_point(|(other, _)| *other < point);
        self.points[at % self.points.len()].1
    }
}

fn point_of(text: &str) -> u64 {
    let digest = blake2b_simd::Params::new().hash_length(8).hash(text.as_bytes());
    digest.as_bytes().iter().fold(0, |number, byte| number << 8 | u64::from(*byte))
}

/// The member that replaces a session of another group in a line. It names nobody, and differs for each session.
pub fn stranger(session: &str) -> Vec<u8> {
    let digest = blake2b_simd::Params::new().hash_length(16).hash(session.as_bytes());
    format!("\"from\":\"_{}\"", digest.to_hex()).into_bytes()
}

#[cfg(test)]
mod tests {
    use super::*;

    /// The points are those of any other BLAKE2b: the expected values were computed with Python's `hashlib`.
    #[test]
    fn points_are_those_of_blake2b() {
        assert_eq!(point_of("desk"), 10249636795645812220);
        assert_eq!(point_of("2/127"), 4086942575535006773);
        assert_eq!(stranger("desk__c1"), br#""from":"_730815b213ce777f62ae7e11a4b251f4""#.to_vec());
    }

    /// Finds the worker of a group without a sorted ring.
    #[test]
    fn a_group_belongs_to_the_first_point_after_its_own() {
        for count in [1, 2, 3, 16] {
            let ring = Ring::new(count);
            for group in (0..100).map(|at| format!("g{at}")) {
                let mine = point_of(&group);
                let all: Vec<(u64, usize)> = (1..=count)
                    .flat_map(|number| (0..128).map(move |point| (point_of(&format!("{number}/{point}")), number)))
                    .collect();
                let behind = all.iter().filter(|point| point.0 >= mine).min();
                assert_eq!(ring.number_of(&group), behind.or_else(|| all.iter().min()).unwrap().1);
            }
        }
    }

    #[test]
    fn one_server_more_takes_only_its_share() {
        let (before, after) = (Ring::new(4), Ring::new(5));
        let (mut moved, mut shares) = (0, [0; 5]);
        for group in (0..10_000).map(|at| format!("g{at}")) {
            let (old, new) = (before.number_of(&group), after.number_of(&group));
            assert!(old == new || new == 5);
            moved += usize::from(old != new);
            shares[new - 1] += 1;
        }
        assert!((1_400..2_600).contains(&moved), "{moved}");
        assert!(shares.iter().all(|share| (1_400..2_600).contains(share)), "{shares:?}");
    }
}
