//! Region files: their judgement and their visits.

use std::error::Error;
use std::fmt;
use std::iter::FusedIterator;

use crate::library;
use crate::raw;
use crate::refusal::{judged, Refusal};

pub use crate::raw::FileWalk;

/// A visit of a region file.
#[derive(Clone, Copy, Debug, PartialEq, Eq, Hash)]
pub struct FileVisit {
    /// The number of the record in the file.
    pub record: u32,
    /// The index in the record, from 0.
    pub index: u32,
    /// The position to the right, in micrometres.
    pub x: i32,
    /// The position down.
    pub y: i32,
}

/// Judges a whole file. The first refusal that applies is given, in the order 11, 2, 12, and then
/// at each link of the chain 13, 14, 10, 16, 15.
///
/// ```
/// use vektrid::{judge, Refusal};
///
/// assert_eq!(judge(&[0; 40]), Err(Refusal::FileLength));
/// ```
pub fn judge(file: &[u8]) -> Result<(), Refusal> {
    // SAFETY: the pointer and the length are those of one lent slice.
    judged(library::call(|| unsafe { raw::vektrid_judge(file.as_ptr(), file.len()) }))
}

/// A refused file: why, and the link of the chain at which the judgement stopped. Both numbers are 0
/// for the refusals 11, 2 and 12, which concern no link; a link that names 0 ends the chain, so no
/// judgement stops there.
///
/// ```
/// use vektrid::{judge_link, Refusal, Stopped};
///
/// let words = [1, 2, 0, 0, 0, 0, 0, 0, 5, 70, 90, 1000, 800, 0, 0, 2_u32];
/// let file: Vec<u8> = words.iter().flat_map(|word| word.to_le_bytes()).collect();
/// let stopped = judge_link(&file).unwrap_err();
/// assert_eq!(stopped, Stopped { refusal: Refusal::MissingRecord, holder: 1, named: 5 });
/// assert_eq!(
///     stopped.to_string(),
///     "refusal 13: the chain names a record that the file lacks (record 1 names record 5)"
/// );
/// ```
#[derive(Clone, Copy, Debug, PartialEq, Eq, Hash)]
pub struct Stopped {
    /// The refusal that [`judge`] gives.
    pub refusal: Refusal,
    /// The number of the record that holds the link.
    pub holder: u32,
    /// The number that the link names.
    pub named: u32,
}

impl fmt::Display for Stopped {
    fn fmt(&self, formatter: &mut fmt::Formatter<'_>) -> fmt::Result {
        let Stopped { refusal, holder, named } = self;
        match named {
            0 => write!(formatter, "{refusal}"),
            _ => write!(formatter, "{refusal} (record {holder} names record {named})"),
        }
    }
}

impl Error for Stopped {}

/// The judgement of [`judge`], and of a refused file also where it stopped.
pub fn judge_link(file: &[u8]) -> Result<(), Stopped> {
    let (mut holder, mut named) = (0, 0);
    // SAFETY: a lent slice with its length, and two variables.
    let number = library::call(|| unsafe {
        raw::vektrid_judge_link(file.as_ptr(), file.len(), &mut holder, &mut named)
    });
    judged(number).map_err(|refusal| Stopped { refusal, holder, named })
}

/// The visits of a file, records in the order of the chain, or the refusal that [`judge`] gives.
/// Their positions are for the reader's field that record 0 of the file holds.
///
/// ```
/// use vektrid::{visits, FileVisit, Refusal};
///
/// let words = [1, 2, 0, 0, 0, 0, 0, 0, 0, 70, 90, 1000, 800, 0, 0, 2_u32];
/// let file: Vec<u8> = words.iter().flat_map(|word| word.to_le_bytes()).collect();
/// let mut visits = visits(&file)?;
/// assert_eq!(visits.next(), Some(FileVisit { record: 1, index: 0, x: 70, y: 90 }));
/// assert_eq!(visits.next(), Some(FileVisit { record: 1, index: 1, x: 570, y: 490 }));
/// assert_eq!(visits.next(), None);
/// # Ok::<(), Refusal>(())
/// ```
pub fn visits(file: &[u8]) -> Result<Visits<'_>, Refusal> {
    let mut walk = FileWalk { words: [0; 11] };
    // SAFETY: a lent slice with its length, and a variable.
    judged(library::call(|| unsafe {
        raw::vektrid_file_walk_open(file.as_ptr(), file.len(), &mut walk)
    }))?;
    Ok(Visits { file, walk })
}

/// The visits of a region file, given by [`visits`].
#[derive(Clone, Debug)]
pub struct Visits<'a> {
    file: &'a [u8],
    walk: FileWalk,
}

impl<'a> Visits<'a> {
    /// Goes on from a walk that was kept. A walk in another file, or one made by hand, gives some
    /// visits or none.
    pub fn at(file: &'a [u8], walk: FileWalk) -> Visits<'a> {
        Visits { file, walk }
    }

    /// The walk past the last visit given, for [`Visits::at`].
    pub fn walk(&self) -> FileWalk {
        self.walk
    }
}

impl Iterator for Visits<'_> {
    type Item = FileVisit;

    fn next(&mut self) -> Option<FileVisit> {
        let mut given = 0;
        let mut visit = FileVisit { record: 0, index: 0, x: 0, y: 0 };
        // SAFETY: a lent slice with its length; the others are variables and fields, all apart.
        library::call(|| unsafe {
            raw::vektrid_file_walk_step(
                self.file.as_ptr(),
                self.file.len(),
                &mut self.walk,
                &mut given,
                &mut visit.record,
                &mut visit.index,
                &mut visit.x,
                &mut visit.y,
            );
        });
        (given != 0).then_some(visit)
    }
}

/// After the end a step gives the end again, whatever the walk was.
impl FusedIterator for Visits<'_> {}
