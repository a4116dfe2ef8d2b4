//! Sets of technologies.
use core::fmt;
use core::ops::{BitAnd, BitOr};

/// A set of technologies, bit n for the one with ID n. A record may hold any number; bits 4 to 15 are reserved.
///
/// ```
/// use raydulcimer::Technologies;
///
/// let set = Technologies::UWB | Technologies::RSSI;
/// assert!(set.contains(Technologies::UWB));
/// assert_eq!(set & Technologies::CS, Technologies::EMPTY);
/// assert_eq!(set.to_string(), "UWB RSSI");
/// ```
#[derive(Clone, Copy, PartialEq, Eq, Hash, Default)]
#[repr(transparent)]
pub struct Technologies(pub u16);

impl Technologies {
    /// No technology.
    pub const EMPTY: Technologies = Technologies(0);
    /// Ultra-wideband.
    pub const UWB: Technologies = Technologies(0x1);
    /// Bluetooth channel sounding.
    pub const CS: Technologies = Technologies(0x2);
    /// Wi-Fi round-trip time.
    pub const NAN: Technologies = Technologies(0x4);
    /// Signal strength.
    pub const RSSI: Technologies = Technologies(0x8);
    /// These four.
    pub const ALL: Technologies = Technologies(0xF);

    /// Whether all of these are in the set.
    #[must_use]
    pub const fn contains(self, these: Technologies) -> bool {
        self.0 & these.0 == these.0
    }

    /// Whether nothing is in the set, no reserved bit either.
    #[must_use]
    pub const fn is_empty(self) -> bool {
        self.0 == 0
    }
}

/// What is in one of the sets.
impl BitOr for Technologies {
    type Output = Technologies;

    fn bitor(self, other: Technologies) -> Technologies {
        Technologies(self.0 | other.0)
    }
}

/// What is in both sets.
impl BitAnd for Technologies {
    type Output = Technologies;

    fn bitand(self, other: Technologies) -> Technologies {
        Technologies(self.0 & other.0)
    }
}

/// The names by rising ID, as `UWB RSSI`, then reserved bits as one number, as `UWB 0x30`; `none` for the empty set.
impl fmt::Display for Technologies {
    fn fmt(&self, f: &mut fmt::Formatter<'_>) -> fmt::Result {
        if self.is_empty() {
            return f.write_str("none");
        }
        let names = [
            (Technologies::UWB, "UWB"),
            (Technologies::CS, "CS"),
            (Technologies::NAN, "NAN"),
            (Technologies::RSSI, "RSSI"),
        ];
        let mut gap = "";
        for (_, name) in names.iter().filter(|(technology, _)| self.contains(*technology)) {
            write!(f, "{gap}{name}")?;
            gap = " ";
        }
        match self.0 & !Technologies::ALL.0 {
            0 => Ok(()),
            reserved => write!(f, "{gap}{reserved:#x}"),
        }
    }
}

impl fmt::Debug for Technologies {
    fn fmt(&self, f: &mut fmt::Formatter<'_>) -> fmt::Result {
        write!(f, "Technologies({self})")
    }
}
