//! Load buffers and store sources that lie beside the region, or a few bytes from it, in one allocation. A copy may take another
//! path where its two ranges are close: the library's load goes byte by byte where the buffer begins less than 32 bytes behind
//! the range that is loaded. A store never meets that: what may be stored to begins a State Table behind the region's start.

use std::io::Write;
use std::ops::Range;

use ivshmem::raw::{self, Reply};
use ivshmem::{Settings, hub_words};
use model::random::Random;

const PAGE: usize = 4096;
/// How far a buffer is from the region at most, and how many ways of lying in memory are tried.
const FARTHEST: usize = 63;
const ALIGNMENTS: usize = 16;
/// A buffer that begins so close behind the range that is loaded is filled byte by byte.
const CLOSE: usize = 32;
/// The shortest copy of which that path makes a difference.
const SHORTEST: usize = 4;

/// The region and what is around it, with a hub that it fits.
struct Memory {
    words: [u32; hub_words(2, 1)],
    bytes: Vec<u8>,
    /// What they are before each call.
    before: Vec<u8>,
    region: Range<usize>,
}

/// Loads of a near and of a far buffer, and stores.
#[derive(Default)]
struct Counts {
    near: u64,
    far: u64,
    stores: u64,
}

impl Memory {
    /// A hub whose only section beside the State Table is a read/write section of so many bytes, with peer 0 connected.
    fn new(read_write: usize, alignment: usize) -> Memory {
        let settings = Settings { read_write: read_write as u64, ..Settings::default() };
        let mut words = [0; hub_words(2, 1)];
        let done = Reply { number: 0, value: 0 };
        assert_eq!(raw::set_up(&mut words, &mut vec![0; PAGE + read_write], &settings), done);
        assert_eq!(raw::connect(&mut words, 0), done);
        let around = read_write + FARTHEST + 64;
        let start = around + alignment;
        let mut random = Random::new(alignment as u64);
        let bytes: Vec<u8> = (0..start + PAGE + read_write + around).map(|_| random.word() as u8).collect();
        Memory { words, before: bytes.clone(), bytes, region: start..start + PAGE + read_write }
    }

    /// Where a buffer lies that is so far from the region, in front of it or behind.
    fn buffer(&self, behind: bool, gap: usize, length: usize) -> Range<usize> {
        let start = if behind { self.region.end + gap } else { self.region.start - gap - length };
        start..start + length
    }

    /// The region, and the buffer beside it.
    fn lent(&mut self, buffer: &Range<usize>) -> (&mut [u8], &mut [u8]) {
        if buffer.start < self.region.start {
            let (front, back) = self.bytes.split_at_mut(self.region.start);
            (&mut back[..self.region.len()], &mut front[buffer.clone()])
        } else {
            let (front, back) = self.bytes.split_at_mut(self.region.end);
            let shifted = buffer.start - self.region.end..buffer.end - self.region.end;
            (&mut front[self.region.clone()], &mut back[shifted])
        }
    }

    /// That just the one range has changed, to what the other was; then it is made what it was.
    fn check(&mut self, to: Range<usize>, from: Range<usize>, what: &str) {
        let (now, before) = (&self.bytes, &self.before);
        assert_eq!(now[to.clone()], before[from.clone()], "{what} from {from:?} to {to:?}, region {:?}", self.region);
        let beside = now[..to.start] == before[..to.start] && now[to.end..] == before[to.end..];
        assert!(beside, "{what} from {from:?} to {to:?}, region {:?}, changes something beside", self.region);
        self.bytes[to.clone()].copy_from_slice(&self.before[to]);
    }

    /// Loads to the buffer from the start or the end of the region, whichever is nearer to it.
    fn load(&mut self, buffer: &Range<usize>, counts: &mut Counts) {
        let behind = buffer.start >= self.region.end;
        let offset = if behind { self.region.len() - buffer.len() } else { 0 };
        let words = self.words;
        let (region, lent) = self.lent(buffer);
        let distance = lent.as_ptr().addr().wrapping_sub(region[offset..].as_ptr().addr());
        let near = lent.len() >= SHORTEST && distance < CLOSE;
        assert_eq!(raw::load(&words, region, 0, offset as u64, lent), Reply { number: 0, value: 0 });
        counts.near += u64::from(near);
        counts.far += u64::from(!near);
        let from = self.region.start + offset;
        self.check(buffer.clone(), from..from + buffer.len(), "load");
    }

    /// Stores the buffer's bytes at the start or the end of the read/write section.
    fn store(&mut self, buffer: &Range<usize>, counts: &mut Counts) {
        let behind = buffer.start >= self.region.end;
        let offset = if behind { self.region.len() - buffer.len() } else { PAGE };
        let words = self.words;
        let (region, lent) = self.lent(buffer);
        assert_eq!(raw::store(&words, region, 0, offset as u64, lent), Reply { number: 0, value: 0 });
        counts.stores += 1;
        let to = self.region.start + offset;
        self.check(to..to + buffer.len(), buffer.clone(), "store");
    }
}

/// A load and a store of each of these lengths, from both sides, at every distance and alignment.
fn copies(read_write: usize, lengths: impl Iterator<Item = usize> + Clone, counts: &mut Counts) {
    for alignment in 0..ALIGNMENTS {
        let mut memory = Memory::new(read_write, alignment);
        for length in lengths.clone() {
            for (gap, behind) in (0..=FARTHEST).flat_map(|gap| [(gap, false), (gap, true)]) {
                let buffer = memory.buffer(behind, gap, length);
                if behind || length <= PAGE {
                    memory.load(&buffer, counts);
                }
                memory.store(&buffer, counts);
            }
        }
    }
}

#[test]
fn buffers_beside_the_region() {
    let mut counts = Counts::default();
    copies(PAGE, 1..=128, &mut counts);
    copies(3 * PAGE, [4096, 4097, 4099, 4111, 4128, 8191, 8192, 12287, 12288].into_iter(), &mut counts);
    let Counts { near, far, stores } = counts;
    // Printed past the test's capture, so that every run shows it.
    let _ = writeln!(std::io::stdout().lock(), "beside the region: {near} near loads, {far} others, {stores} stores");
    assert!(near >= 6_000 && far >= 250_000 && stores >= 250_000);
}
