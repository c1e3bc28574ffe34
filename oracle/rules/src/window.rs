//! The window call: skipped keys, then chains last to first, 500 at most.

use crate::{Rules, Wrong};
use post::{Answer, ChainRow, Dir, SkippedRow};

const MOST: u64 = 500;
const INDICES: u64 = 1 << 32;

fn direction(byte: u8) -> Dir {
    Dir::of(byte).expect("12 has been tested")
}

impl Rules {
    /// Nothing from 2^32 on.
    pub(crate) fn window(&self, skipped: &[u8], chains: &[u8]) -> Answer {
        let skipped = skipped.chunks_exact(SkippedRow::WIDTH).map(SkippedRow::read);
        let mut listed: Vec<_> = skipped
            .map(|row| (direction(row.dir), row.generation, row.index))
            .collect();
        let most = self.unless(Wrong::WindowOf501, MOST, 501);
        let left = MOST - listed.len() as u64;
        let mut chains: Vec<_> = chains.chunks_exact(ChainRow::WIDTH).map(ChainRow::read).collect();
        if !self.is(Wrong::ChainsFirstToLast) {
            chains.reverse();
        }
        for chain in chains {
            let end = match self.wrong {
                Some(Wrong::IndexWrapsPastTheLast) => chain.next + left,
                _ => (chain.next + left).min(INDICES),
            };
            for index in chain.next..end {
                if (listed.len() as u64) < most {
                    listed.push((direction(chain.dir), chain.generation, index as u32));
                }
            }
        }
        Answer::Window(listed)
    }
}
