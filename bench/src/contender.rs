//! Whose work is measured.

#[derive(Clone, Copy, PartialEq, Eq)]
pub enum Contender {
    Library,
    Rust,
    OpensslPlain,
    Openssl,
}

impl Contender {
    pub const ALL: [Contender; 4] = [Contender::Library, Contender::Rust, Contender::OpensslPlain, Contender::Openssl];

    pub fn title(self) -> &'static str {
        match self {
            Contender::Library => "lamphudet",
            Contender::Rust => "Rust",
            Contender::OpensslPlain => "OpenSSL, plain",
            Contender::Openssl => "OpenSSL",
        }
    }

    pub fn named(name: &str) -> Contender {
        let found = Contender::ALL.into_iter().find(|contender| contender.title() == name);
        found.expect("the name of a contender")
    }

    /// OPENSSL_ia32cap(3): which instructions libcrypto is to leave alone. Bits 41, 43 and 60 are SSSE3, XOP and AVX; bits
    /// 64+5 and 64+29 are AVX2 and the SHA extensions. Its code for the plain integer instructions is left.
    pub fn ia32cap(self) -> Option<&'static str> {
        match self {
            Contender::OpensslPlain => Some("~0x10000a0000000000:~0x20000020"),
            _ => None,
        }
    }

    /// Valgrind has no SHA extensions: there libcrypto would take other code than the code that is timed.
    pub fn countable(self) -> bool {
        self != Contender::Openssl
    }
}
