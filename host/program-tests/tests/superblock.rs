//! The small program on superblocks in every state and with every refusal, each its own input.

use program_tests::run;

struct Superblock {
    files: u16,
    extents: u16,
    extent_sectors: u32,
    magic: [u8; 8],
    version: u16,
    journal_length: u16,
}

const SAMPLE: Superblock = Superblock {
    files: 255,
    extents: 4,
    extent_sectors: 128,
    magic: *b"/Goo/FS/",
    version: 1,
    journal_length: 0,
};

/// The versions of the two editions.
const EDITIONS: [u16; 2] = [1, 2];

impl Superblock {
    fn bytes(&self) -> Vec<u8> {
        let mut s = Vec::new();
        s.extend(self.files.to_be_bytes());
        s.extend(self.extents.to_be_bytes());
        s.extend(self.extent_sectors.to_be_bytes());
        s.extend(self.magic);
        s.extend(self.version.to_be_bytes());
        s.extend(self.journal_length.to_be_bytes());
        s.resize(512, 0);
        s
    }

    fn printed(&self) -> String {
        run("superblock", &self.bytes())
    }

    /// The nine lines, by the layout's table.
    fn expected(&self, state: &str) -> String {
        let (f, n, s) = (
            self.files as u64,
            self.extents as u64,
            self.extent_sectors as u64,
        );
        let t = n.div_ceil(128);
        let k = (t + 3).div_ceil(s);
        format!(
            "files {f}\nextents {n}\nextent-sectors {s}\ntable-sectors {t}\njournal-at {}\ntable-at {}\ndata-at {}\nreserve-extents {k}\nstate {state}\n",
            2 + f,
            34 + f,
            34 + f + t
        )
    }
}

#[test]
fn sample() {
    let nine = "files 255\nextents 4\nextent-sectors 128\ntable-sectors 1\njournal-at 257\ntable-at 289\ndata-at 290\nreserve-extents 1\nstate clean\n";
    for version in EDITIONS {
        assert_eq!(Superblock { version, ..SAMPLE }.printed(), nine);
    }
}

#[test]
fn geometries_at_their_bounds() {
    let sizes = [128, 129, 255, 256, 257, 514, 515, 1 << 31, u32::MAX];
    for files in [255, 256, 1024, 1025, 65534, 65535] {
        for extents in [2, 127, 128, 129, 65535] {
            for extent_sectors in sizes {
                for version in EDITIONS {
                    let s = Superblock {
                        files,
                        extents,
                        extent_sectors,
                        version,
                        ..SAMPLE
                    };
                    assert_eq!(s.printed(), s.expected("clean"));
                }
            }
        }
    }
}

#[test]
fn states() {
    for version in EDITIONS {
        let with = |journal_length| Superblock {
            journal_length,
            version,
            ..SAMPLE
        };
        for n in [1, 2, 513, 1023, 1024] {
            assert_eq!(with(n).printed(), SAMPLE.expected(&format!("waiting {n}")));
        }
        for n in [1025, 1026, 32768, 65533, 65534] {
            assert_eq!(with(n).printed(), SAMPLE.expected("damaged"));
        }
        assert_eq!(with(65535).printed(), SAMPLE.expected("unfinished"));
    }
}

#[test]
fn refused_1_for_a_short_input() {
    for length in [0, 1, 19, 20, 511] {
        assert_eq!(run("superblock", &SAMPLE.bytes()[..length]), "refused 1\n");
    }
}

#[test]
fn refused_2_for_the_magic_or_the_version() {
    for k in 0..8 {
        let mut magic = SAMPLE.magic;
        magic[k] ^= 1;
        assert_eq!(Superblock { magic, ..SAMPLE }.printed(), "refused 2\n");
    }
    for version in [0, 3, 256, 257, 258, 512, 65535] {
        assert_eq!(Superblock { version, ..SAMPLE }.printed(), "refused 2\n");
    }
}

#[test]
fn refused_3_for_the_bounds() {
    for files in [0, 1, 128, 254] {
        assert_eq!(Superblock { files, ..SAMPLE }.printed(), "refused 3\n");
    }
    for extents in [0, 1] {
        assert_eq!(Superblock { extents, ..SAMPLE }.printed(), "refused 3\n");
    }
    for extent_sectors in [0, 1, 127] {
        for version in EDITIONS {
            assert_eq!(
                Superblock {
                    extent_sectors,
                    version,
                    ..SAMPLE
                }
                .printed(),
                "refused 3\n"
            );
        }
    }
}

#[test]
fn the_lowest_refusal_is_given() {
    let s = Superblock {
        files: 0,
        magic: *b"/Goo/FS.",
        journal_length: 65535,
        ..SAMPLE
    };
    assert_eq!(s.printed(), "refused 2\n");
    assert_eq!(run("superblock", &s.bytes()[..511]), "refused 1\n");
}

#[test]
fn what_follows_the_first_sector_is_ignored() {
    let mut input = SAMPLE.bytes();
    input.extend([255; 1000]);
    assert_eq!(run("superblock", &input), SAMPLE.expected("clean"));
}
