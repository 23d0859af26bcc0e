//! Names of files: which bytes a new one may have, and the name that a file has while it is saved.

use crate::image::Edition;

/// The end of the name that a file has while it is saved.
pub const SAVING: &str = ".goofs-saving";

/// The name beside this one: a file has it while it is saved, until it is whole. Of a name that is
/// too long for the end the first bytes are kept, so that two long names may have one name beside.
pub fn beside(name: &[u8], edition: Edition) -> Vec<u8> {
    let kept = name.len().min(edition.longest_name() - SAVING.len());
    [&name[..kept], SAVING.as_bytes()].concat()
}

/// Whether a file of this name is what a save that was cut has left beside.
pub fn is_beside(name: &[u8]) -> bool {
    name.ends_with(SAVING.as_bytes())
}

/// The place of the first byte that the name of a new file may not have. Volumes of before this rule
/// may hold such names.
pub fn untypable(name: &[u8]) -> Option<usize> {
    name.iter()
        .position(|byte| !byte.is_ascii_graphic() || *byte == b'/')
}

#[cfg(test)]
mod tests {
    use super::*;

    #[test]
    fn names_beside() {
        for (edition, longest) in [(Edition::First, 476), (Edition::Second, 468)] {
            assert_eq!(beside(b"gain", edition), b"gain.goofs-saving");
            for length in [1, 454, 455, 456, 462, 463, 464, longest - 1, longest] {
                let name = vec![b'n'; length];
                let beside = beside(&name, edition);
                assert_eq!(beside.len(), (length + 13).min(longest));
                assert_ne!(beside, name);
                assert!(is_beside(&beside) && !is_beside(&name));
                assert_eq!(untypable(&beside), None);
            }
        }
        assert!(is_beside(b".goofs-saving") && !is_beside(b".goofs-savin"));
    }

    #[test]
    fn bytes_of_new_names() {
        for byte in 0..=255_u8 {
            let is_typable = (33..=126).contains(&byte) && byte != 47;
            let expected = if is_typable { None } else { Some(2) };
            assert_eq!(
                untypable(&[b'a', b'b', byte, b' ']).filter(|at| *at < 3),
                expected
            );
        }
    }
}
