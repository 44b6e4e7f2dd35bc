//! The versions of the LDS, from document 02, request 2026-04, and source document 000, 4.5.

/// A version that is kept.
#[derive(Clone, Copy, Debug, PartialEq, Eq)]
pub enum Lds {
    V17,
    V18,
}

impl Lds {
    pub const ALL: [Lds; 2] = [Lds::V17, Lds::V18];

    /// What EF.COM says of it.
    pub fn told(self) -> &'static [u8] {
        match self {
            Lds::V17 => b"0107",
            Lds::V18 => b"0108",
        }
    }

    /// The one of which EF.COM says this.
    pub fn of_told(told: &[u8]) -> Option<Lds> {
        Lds::ALL.into_iter().find(|lds| lds.told() == told)
    }
}

#[cfg(test)]
mod tests {
    use super::*;

    #[test]
    fn two_and_no_other() {
        assert_eq!(Lds::of_told(b"0107"), Some(Lds::V17));
        assert_eq!(Lds::of_told(b"0108"), Some(Lds::V18));
        for other in [&b""[..], b"010", b"0106", b"0109", b"1108", b"0118", b"0008", b"01080", b"0107\0"] {
            assert_eq!(Lds::of_told(other), None);
        }
    }
}
