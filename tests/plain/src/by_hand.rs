//! What was worked out by hand from the rules: trays with their outcome, texts with theirs, and the sheets. The plain
//! program and the library are both held to it. Limits stand here as literals: 32 letters of a slip are accepted, 33 are not.

pub mod least;
pub mod merging;
pub mod pairs;
pub mod shortest;
pub mod sides;
pub mod sides_refused;
pub mod sides_written;

/// A tray and its outcome.
pub struct Specimen {
    /// What it shows.
    pub name: &'static str,
    /// Its slips.
    pub slips: &'static [&'static str],
    /// The legend.
    pub legend: &'static str,
    /// The joins in the order made: left slip, right slip, overlap.
    pub joins: &'static [(usize, usize, usize)],
    /// For each slip its place, K if it is kept and S if it is set aside, and the letters compared to find the place.
    pub places: &'static [(usize, char, usize)],
}

/// The tray of the sheets.
pub const COMPOSE: Specimen = Specimen {
    name: "the compose tray",
    slips: &["IMPCAES", "AES", "CAESAVG", "VGPIVS", "SIMP"],
    legend: "SIMPCAESAVGPIVS",
    joins: &[(1, 3, 4), (5, 1, 3), (3, 4, 2)],
    places: &[(2, 'K', 0), (6, 'S', 8), (5, 'K', 0), (10, 'K', 0), (1, 'K', 0)],
};

/// The specimen trays, and trays that tell a misreading from the rule.
pub const SPECIMENS: &[Specimen] = &[
    Specimen {
        name: "empty tray",
        slips: &[],
        legend: "",
        joins: &[],
        places: &[],
    },
    Specimen {
        name: "one slip",
        slips: &["AVG"],
        legend: "AVG",
        joins: &[],
        places: &[(1, 'K', 0)],
    },
    Specimen {
        name: "two equal slips",
        slips: &["AVG", "AVG"],
        legend: "AVG",
        joins: &[],
        places: &[(1, 'K', 0), (1, 'S', 3)],
    },
    Specimen {
        name: "a slip inside a longer one",
        slips: &["AVG", "CAESAVG"],
        legend: "CAESAVG",
        joins: &[],
        places: &[(5, 'S', 7), (1, 'K', 0)],
    },
    Specimen {
        name: "a slip that overlaps itself",
        slips: &["ANNA"],
        legend: "ANNA",
        joins: &[],
        places: &[(1, 'K', 0)],
    },
    Specimen {
        name: "a ring of two",
        slips: &["AB", "BA"],
        legend: "BAB",
        joins: &[(2, 1, 1)],
        places: &[(2, 'K', 0), (1, 'K', 0)],
    },
    Specimen {
        name: "nothing to join",
        slips: &["CD", "AB"],
        legend: "CDAB",
        joins: &[],
        places: &[(1, 'K', 0), (3, 'K', 0)],
    },
    Specimen {
        name: "the tray of document 003",
        slips: &["AKI", "ELE", "KIKI", "KIRA", "LEA"],
        legend: "ELEAKIKIRA",
        joins: &[(1, 3, 2), (3, 4, 2), (2, 5, 2), (5, 1, 1)],
        places: &[(4, 'K', 0), (1, 'K', 0), (5, 'K', 0), (7, 'K', 0), (2, 'K', 0)],
    },
    Specimen {
        name: "a longer ring stays open",
        slips: &["ABC", "CDE", "EFA"],
        legend: "EFABCDE",
        joins: &[(3, 1, 1), (1, 2, 1)],
        places: &[(3, 'K', 0), (5, 'K', 0), (1, 'K', 0)],
    },
    Specimen {
        name: "a kept slip stands earlier than it was laid",
        slips: &["CC", "AB", "BA", "CA"],
        legend: "CCABAB",
        joins: &[(3, 2, 1), (1, 4, 1)],
        places: &[(1, 'K', 0), (5, 'K', 0), (4, 'K', 0), (2, 'K', 0)],
    },
    Specimen {
        name: "a ring of three two-letter slips",
        slips: &["AB", "BC", "CA"],
        legend: "CABC",
        joins: &[(3, 1, 1), (1, 2, 1)],
        places: &[(2, 'K', 0), (3, 'K', 0), (1, 'K', 0)],
    },
    Specimen {
        name: "a ring of four stays open",
        slips: &["AXB", "BYC", "CZD", "DWA"],
        legend: "DWAXBYCZD",
        joins: &[(4, 1, 1), (1, 2, 1), (2, 3, 1)],
        places: &[(3, 'K', 0), (5, 'K', 0), (7, 'K', 0), (1, 'K', 0)],
    },
    Specimen {
        name: "equal slips inside a third",
        slips: &["AVG", "CAESAVGP", "AVG"],
        legend: "CAESAVGP",
        joins: &[],
        places: &[(5, 'S', 7), (1, 'K', 0), (5, 'S', 7)],
    },
    Specimen {
        name: "an ending is set aside",
        slips: &["CAESAVG", "AVG"],
        legend: "CAESAVG",
        joins: &[],
        places: &[(1, 'K', 0), (5, 'S', 7)],
    },
    Specimen {
        name: "the second waiting slip is taken",
        slips: &["ABA", "CA"],
        legend: "CABA",
        joins: &[(2, 1, 1)],
        places: &[(2, 'K', 0), (1, 'K', 0)],
    },
    Specimen {
        name: "chains by their first slip, not by their joins",
        slips: &["XY", "QA", "AB"],
        legend: "XYQAB",
        joins: &[(2, 3, 1)],
        places: &[(1, 'K', 0), (3, 'K', 0), (4, 'K', 0)],
    },
    Specimen {
        name: "two slips that share a stop alone",
        slips: &["A.", ".B"],
        legend: "A..B",
        joins: &[],
        places: &[(1, 'K', 0), (3, 'K', 0)],
    },
    Specimen {
        name: "two slips that share two stops alone",
        slips: &["A..", "..B"],
        legend: "A....B",
        joins: &[],
        places: &[(1, 'K', 0), (4, 'K', 0)],
    },
    Specimen {
        name: "a slip of stops is kept and not joined",
        slips: &["A.", ".B", ".."],
        legend: "A..B..",
        joins: &[],
        places: &[(1, 'K', 0), (3, 'K', 0), (5, 'K', 0)],
    },
    Specimen {
        name: "joined by letters where a stop would come first",
        slips: &["BA", "A.", ".B"],
        legend: ".BA.",
        joins: &[(1, 2, 1), (3, 1, 1)],
        places: &[(2, 'K', 0), (3, 'K', 0), (1, 'K', 0)],
    },
    Specimen {
        name: "an overlap of a stop and a letter counts",
        slips: &["X.A", ".AB"],
        legend: "X.AB",
        joins: &[(1, 2, 2)],
        places: &[(1, 'K', 0), (2, 'K', 0)],
    },
    Specimen {
        name: "overlaps that begin or end with stops",
        slips: &["..A", ".A..", "A..B"],
        legend: "..A..B",
        joins: &[(2, 3, 3), (1, 2, 2)],
        places: &[(1, 'K', 0), (2, 'K', 0), (3, 'K', 0)],
    },
    Specimen {
        name: "a single stop inside a longer slip is set aside",
        slips: &["A.B", "."],
        legend: "A.B",
        joins: &[],
        places: &[(1, 'K', 0), (2, 'S', 2)],
    },
    Specimen {
        name: "places are tried from the last letter",
        slips: &["AAB", "AAAAB"],
        legend: "AAAAB",
        joins: &[],
        places: &[(3, 'S', 5), (1, 'K', 0)],
    },
    Specimen {
        name: "a place across two chains",
        slips: &["AB", "CD", "XBCY", "BC"],
        legend: "ABCDXBCY",
        joins: &[],
        places: &[(1, 'K', 0), (3, 'K', 0), (5, 'K', 0), (2, 'S', 3)],
    },
    COMPOSE,
];

/// A tray, a text, and what is found.
pub struct Search {
    /// What it shows.
    pub name: &'static str,
    /// The slips.
    pub slips: &'static [&'static str],
    /// The text.
    pub text: &'static str,
    /// The moves over it.
    pub moves: usize,
    /// The occurrences: end place, slip.
    pub found: &'static [(usize, usize)],
}

/// The text of the sheets.
pub const FIND: Search = Search {
    name: "the find text",
    slips: COMPOSE.slips,
    text: "IMPCAESAVG",
    moves: 11,
    found: &[(7, 1), (7, 2), (10, 3)],
};

/// Texts, and what is found in them.
pub const SEARCHES: &[Search] = &[
    FIND,
    Search {
        name: "overlapping occurrences",
        slips: &["ANA"],
        text: "ANANANA",
        moves: 9,
        found: &[(3, 1), (5, 1), (7, 1)],
    },
    Search {
        name: "a slip that ends inside another",
        slips: &["CAESAR", "AES"],
        text: "CAESAR",
        moves: 6,
        found: &[(4, 2), (6, 1)],
    },
    Search {
        name: "a slip that ends inside the beginning of another",
        slips: &["CAESAR", "AES"],
        text: "CAESX",
        moves: 7,
        found: &[(4, 2)],
    },
    Search {
        name: "longer slips first at one end",
        slips: &["AVG", "CAESAVG", "G"],
        text: "CAESAVG",
        moves: 7,
        found: &[(7, 2), (7, 1), (7, 3)],
    },
    Search {
        name: "equal slips",
        slips: &["AVG", "AVG"],
        text: "AVGAVG",
        moves: 7,
        found: &[(3, 1), (3, 2), (6, 1), (6, 2)],
    },
    Search {
        name: "slips that begin each other",
        slips: &["A", "AA", "AAA"],
        text: "AAAA",
        moves: 5,
        found: &[(1, 1), (2, 2), (2, 1), (3, 3), (3, 2), (3, 1), (4, 3), (4, 2), (4, 1)],
    },
    Search {
        name: "full stops",
        slips: &["A.", "."],
        text: "A.A.",
        moves: 6,
        found: &[(2, 1), (2, 2), (4, 1), (4, 2)],
    },
    Search {
        name: "a stop that ends one slip and begins another",
        slips: &["A.", ".B", "."],
        text: "A.B..",
        moves: 8,
        found: &[(2, 1), (2, 3), (3, 2), (4, 3), (5, 3)],
    },
    Search {
        name: "beginnings and no occurrence",
        slips: &["AVG"],
        text: "AVAVA",
        moves: 7,
        found: &[],
    },
    Search {
        name: "other letters alone",
        slips: &["AVG"],
        text: "XYZ",
        moves: 3,
        found: &[],
    },
    Search {
        name: "a text shorter than every slip",
        slips: &["AVG", "GVA"],
        text: "VG",
        moves: 2,
        found: &[],
    },
    Search {
        name: "empty text",
        slips: &["AVG"],
        text: "",
        moves: 0,
        found: &[],
    },
    Search {
        name: "empty tray",
        slips: &[],
        text: "AVG",
        moves: 3,
        found: &[],
    },
    Search {
        name: "empty tray and empty text",
        slips: &[],
        text: "",
        moves: 0,
        found: &[],
    },
];

/// The tray file of the compose tray.
pub const COMPOSE_FILE: &str = "   1   7 IMPCAES
   2   3 AES
   3   7 CAESAVG
   4   6 VGPIVS
   5   4 SIMP
";

/// What `compose` prints of it.
pub const COMPOSE_SHEET: &str = "TRAY   5   4   24    9   15
   1   7    2 K
   2   3    6 S
   3   7    5 K
   4   6   10 K
   5   4    1 K
   1   3   4
   5   1   3
   3   4   2
SIMPCAESAVGPIVS
";

/// What `find` prints of it and the find text.
pub const FIND_SHEET: &str = "FIND  10  11     3
   7   1
   7   2
  10   3
";

/// Letters as they stand in a file, and as they are filed: capitals, U as V, J as I, and 0 for a byte that is no sign.
pub const FILED: &[(&[u8], &[u8])] = &[
    (b"AVG", b"AVG"),
    (b"avg", b"AVG"),
    (b"aug", b"AVG"),
    (b"uj", b"VI"),
    (b"UJ", b"VI"),
    (b"vi", b"VI"),
    (b"UVA", b"VVA"),
    (b"AvGuStj.", b"AVGVSTI."),
    (b"abcdefghijklmnopqrstuvwxyz", b"ABCDEFGHIIKLMNOPQRSTVVWXYZ"),
    (b"ABCDEFGHIJKLMNOPQRSTUVWXYZ", b"ABCDEFGHIIKLMNOPQRSTVVWXYZ"),
    (b"...", b"..."),
    // Signs, and bytes that are none.
    (b"a1u J\r", b"A\0V\0I\0"),
    (b"0123456789", &[0; 10]),
    // The bytes beside A to Z, beside a to z, and beside the stop.
    (b"@[`{-/", &[0; 6]),
    (b"\0 ,\r\t\x1f\x7f", &[0; 7]),
    // A, U, a and u with one bit more.
    (b"\xc1\xd5\xe1\xf5\x80\xff", &[0; 6]),
];

/// The tray file of the compose tray as readers may type it.
pub const TYPED_FILE: &str = "   1   7 ImpCaes
   2   3 aes
   3   7 cAESauG
   4   6 UgPjvS
   5   4 sJmp
";

/// The find text as readers may type it.
pub const TYPED_TEXT: &str = "jMPcaesAug";
