//! The work on digests.

use crate::border;
use crate::contender::Contender;
use crate::job::Work;
use crate::libcrypto::Libcrypto;
use paper::sha256::sha256;

/// Each digest goes into the next input, so that none can be left out or begun before the one ahead of it has ended.
pub fn of(contender: Contender, size: usize) -> Option<Work> {
    let mut input = vec![0x3c; size];
    let mut digest = [0; 32];
    match contender {
        Contender::Library => Some(Box::new(move || {
            input[0] = digest[0];
            border::digest(&input, &mut digest);
        })),
        Contender::Rust => Some(Box::new(move || {
            input[0] = digest[0];
            digest = sha256(&input);
        })),
        Contender::OpensslPlain | Contender::Openssl => {
            let libcrypto = Libcrypto::open()?;
            Some(Box::new(move || {
                input[0] = digest[0];
                libcrypto.sha256(&input, &mut digest);
            }))
        }
    }
}
