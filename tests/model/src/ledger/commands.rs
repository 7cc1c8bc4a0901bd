//! Commands, as the ledger finds them among the host's bytes.

/// The codes with parameter bytes, and how many. "0x20 3 and then as many as
/// the third says"; all other codes have none.
const PARAMETERS: [(u8, usize); 13] = [
    (0x07, 1),
    (0x09, 4),
    (0x0A, 2),
    (0x0B, 2),
    (0x0C, 2),
    (0x0E, 5),
    (0x17, 1),
    (0x19, 6),
    (0x1B, 6),
    (0x20, 3),
    (0x21, 2),
    (0x22, 2),
    (0x80, 1),
];

/// How many bytes the command that begins like this has, its code among them.
fn length(begun: &[u8]) -> usize {
    if let [0x20, _, _, third, ..] = begun {
        return 4 + usize::from(*third);
    }
    let listed = PARAMETERS
        .iter()
        .find(|(code, _)| begun.first() == Some(code));
    1 + listed.map_or(0, |&(_, count)| count)
}

/// Whether bytes are, or begin, a command that A14 excludes: "no reset, mouse
/// mode or mouse-off command executed".
pub fn is_excluded(begun: &[u8]) -> bool {
    matches!(begun, [0x08..=0x0A | 0x12, ..] | [0x80, 0x01])
}

/// Host bytes, put together to commands.
#[derive(Default)]
pub struct Reader {
    begun: Vec<u8>,
}

impl Reader {
    /// Takes a byte; with the last byte of a command, gives the command.
    pub fn receive(&mut self, byte: u8) -> Option<Vec<u8>> {
        self.begun.push(byte);
        let whole = self.begun.len() == length(&self.begun);
        whole.then(|| std::mem::take(&mut self.begun))
    }

    pub fn is_half_received(&self) -> bool {
        !self.begun.is_empty()
    }

    /// Whether `byte` would begin or end an excluded command.
    pub fn excludes(&self, byte: u8) -> bool {
        is_excluded(&[&self.begun[..], &[byte]].concat())
    }
}

#[cfg(test)]
mod tests {
    use super::*;

    /// The commands among bytes.
    fn read(bytes: &[u8]) -> Vec<Vec<u8>> {
        let mut reader = Reader::default();
        bytes
            .iter()
            .filter_map(|&byte| reader.receive(byte))
            .collect()
    }

    #[test]
    fn a_parameter_is_never_a_command() {
        let bytes = [0x0B, 0x08, 0x12, 0x13, 0x80, 0x80, 0x01, 0x07];
        let commands = [
            vec![0x0B, 0x08, 0x12],
            vec![0x13],
            vec![0x80, 0x80],
            vec![0x01],
        ];
        assert_eq!(read(&bytes), commands);
    }

    #[test]
    fn a_memory_load_has_as_many_bytes_as_its_third_says() {
        assert_eq!(
            read(&[0x20, 1, 2, 0, 0x11]),
            [vec![0x20, 1, 2, 0], vec![0x11]]
        );
        assert_eq!(read(&[0x20, 1, 2, 2, 0x80, 0x01]).len(), 1);
    }

    #[test]
    fn what_is_excluded() {
        let mut reader = Reader::default();
        assert!([0x08, 0x09, 0x0A, 0x12]
            .iter()
            .all(|&code| reader.excludes(code)));
        assert!(!reader.excludes(0x80));
        reader.receive(0x80);
        assert!(reader.excludes(0x01) && !reader.excludes(0x08));
    }
}
