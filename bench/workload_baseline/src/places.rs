// The sites, and the classes of telescopes: at each site stands one of each class.

pub struct Site {
    pub name: &'static str,
    /// The second at which its night begins.
    pub dusk: u32,
}

pub static SITES: [Site; 3] = [
    Site {
        name: "coj",
        dusk: 0,
    },
    Site {
        name: "lsc",
        dusk: 3_600,
    },
    Site {
        name: "cpt",
        dusk: 7_200,
    },
];

/// A class, and what its telescopes have: the type of their instrument, and the codes that are the same at each site.
pub struct Class {
    pub name: &'static str,
    pub instrument: &'static str,
    pub enclosure: &'static str,
    pub telescope: &'static str,
}

pub static CLASSES: [Class; 2] = [
    Class {
        name: "1m0",
        instrument: "1M0-CAM",
        enclosure: "doma",
        telescope: "1m0a",
    },
    Class {
        name: "0m4",
        instrument: "0M4-CAM",
        enclosure: "clma",
        telescope: "0m4a",
    },
];
