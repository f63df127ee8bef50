//! The state as the bridge carries it: the bytes of the first implementation's
//! struct, which are 97 words of 4 bytes. A yes or no has a word of its own, of
//! which the first byte counts and the others are padding.

use oracle::ring::Ring;

/// How many bytes a state has.
pub const LENGTH: usize = 388;

/// The words that are a yes or no: each producer's judgement, and whether the
/// reader holds.
const FLAGS: [usize; 9] = [40, 47, 54, 61, 68, 75, 82, 89, 96];

pub fn bytes(ring: &Ring) -> Vec<u8> {
    let mut words = vec![ring.size, ring.parts, ring.producers, ring.write, ring.read];
    words.extend(ring.commit);
    words.extend(ring.seq);
    for p in &ring.producer {
        words.extend([p.phase, p.z, p.w, p.full.into(), p.done, p.v, p.s]);
    }
    words.extend([ring.offered, ring.written, ring.lost, ring.holding.into()]);
    words.into_iter().flat_map(u32::to_le_bytes).collect()
}

/// Makes the padding of a state zeros, as it is in the oracle's own bytes.
pub fn clear_padding(bytes: &mut [u8]) {
    if bytes.len() != LENGTH {
        return;
    }
    for flag in FLAGS {
        bytes[4 * flag + 1..4 * flag + 4].fill(0);
    }
}

/// Each field of a state and its value.
pub fn fields(bytes: &[u8]) -> Vec<(String, u32)> {
    let (words, _) = bytes.as_chunks();
    let values = words.iter().map(|word| u32::from_le_bytes(*word));
    names().into_iter().zip(values).collect()
}

/// The name of each word.
fn names() -> Vec<String> {
    let first = ["size", "parts", "producers", "write", "read"];
    let last = ["offered", "written", "lost", "holding"];
    let mut names: Vec<String> = first.map(String::from).into();
    names.extend((0..16).map(|i| format!("commit[{i}]")));
    names.extend((0..16).map(|i| format!("seq[{i}]")));
    for p in 0..8 {
        let words = ["phase", "z", "w", "full", "done", "v", "s"];
        names.extend(words.map(|word| format!("producer[{p}].{word}")));
    }
    names.extend(last.map(String::from));
    names
}

#[cfg(test)]
mod tests {
    use super::*;

    #[test]
    fn a_state_has_a_name_for_each_word() {
        let bytes = bytes(&Ring::default());
        assert_eq!(bytes.len(), LENGTH);
        assert_eq!(names().len() * 4, LENGTH);
        assert_eq!(fields(&bytes).len(), names().len());
    }

    #[test]
    fn values_stand_by_their_names() {
        let mut ring = Ring {
            read: 1,
            holding: true,
            ..Ring::default()
        };
        ring.seq[15] = 2;
        ring.producer[7].s = 3;
        ring.producer[0].full = true;
        let set = fields(&bytes(&ring))
            .into_iter()
            .filter(|(_, value)| *value != 0);
        let set: Vec<String> = set.map(|(name, value)| format!("{name} {value}")).collect();
        let words = [
            "read 1",
            "seq[15] 2",
            "producer[0].full 1",
            "producer[7].s 3",
            "holding 1",
        ];
        assert_eq!(set, words);
    }

    #[test]
    fn only_padding_is_cleared() {
        let names = names();
        let flags = FLAGS.map(|flag| names[flag].rsplit('.').next());
        assert_eq!(flags[..8], [Some("full"); 8]);
        assert_eq!(flags[8], Some("holding"));
        let mut bytes = [0xee; LENGTH];
        clear_padding(&mut bytes);
        assert_eq!(bytes.iter().filter(|&&byte| byte == 0).count(), 27);
        assert_eq!(bytes[160..164], [0xee, 0, 0, 0]);
        assert_eq!(bytes[384..], [0xee, 0, 0, 0]);
    }
}
