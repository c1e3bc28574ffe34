//! data.rs takes a session's keys from resume.rs, which is not there. No session is made here.

use zeroize::Zeroizing;

#[allow(dead_code)]
pub(crate) struct Keys {
    pub(crate) i_to_r: Zeroizing<[u8; 32]>,
    pub(crate) r_to_i: Zeroizing<[u8; 32]>,
}
