//! Region files, most of them damaged: their judgement and where it stopped, their visits, their
//! listing and their sheet.

use reference::region_file::{self, chain, visits};
use reference::sheet::PAGE_BYTES;
use reference::trial::splitmix::Splitmix;
use reference::trial::{files, shrink};
use reference::{listing, sheet};
use vektrid::{FileVisit, Refusal, Stopped};

use crate::case::{simplified, Case};
use crate::simpler::simpler_file;
use crate::{same, text};

#[derive(Clone)]
pub struct RegionFile {
    bytes: Vec<u8>,
}

#[derive(Debug, PartialEq)]
pub struct Answer {
    judged: Result<(), Refusal>,
    link: Result<(), Stopped>,
    visits: Result<Vec<FileVisit>, Refusal>,
    listing: Vec<u8>,
    sheet: Vec<u8>,
    pages: Result<Vec<Vec<u8>>, Refusal>,
}

impl Case for RegionFile {
    const NAME: &'static str = "region file";
    const COUNT: u64 = 40_000;
    const OUTCOMES: &'static [u32] = &[0, 2, 10, 11, 12, 13, 14, 15, 16];
    type Answer = Answer;

    fn make(random: &mut Splitmix, number: u64) -> RegionFile {
        RegionFile { bytes: files::make(u64::from(random.word()), number) }
    }

    fn expected(&self) -> Answer {
        let chain = chain(&self.bytes).map_err(same::refusal);
        let visits = chain.map(|chain| visits(&chain).map(file_visit).collect::<Vec<_>>());
        let judged = visits.as_ref().map(|_| ()).map_err(|&refusal| refusal);
        let link = region_file::judged(&self.bytes).map_err(stopped);
        let (listing, sheet) = (listing::listing(&self.bytes), sheet::sheet(&self.bytes));
        let pages = judged.map(|()| sheet.chunks(PAGE_BYTES).map(<[u8]>::to_vec).collect());
        Answer { judged, link, visits, listing, sheet, pages }
    }

    fn given(&self) -> Answer {
        Answer {
            judged: vektrid::judge(&self.bytes),
            link: vektrid::judge_link(&self.bytes),
            visits: vektrid::visits(&self.bytes).map(Iterator::collect),
            listing: vektrid::listing(&self.bytes),
            sheet: vektrid::sheet(&self.bytes),
            pages: vektrid::sheet_pages(&self.bytes)
                .map(|pages| pages.map(|page| page.to_vec()).collect()),
        }
    }

    fn outcome(answer: &Answer) -> u32 {
        same::outcome(&answer.judged)
    }

    fn simpler(&self) -> Vec<RegionFile> {
        simpler_file(&self.bytes).into_iter().map(|bytes| RegionFile { bytes }).collect()
    }

    /// Records go first, and then the words of those that are left become smaller.
    fn smallest(self) -> RegionFile {
        let differs = |bytes: &[u8]| RegionFile { bytes: bytes.to_vec() }.differs();
        simplified(RegionFile { bytes: shrink::shrunk(self.bytes, differs) })
    }

    fn test(&self) -> String {
        let Answer { judged, link, visits, listing, sheet, pages } = self.expected();
        format!(
            "let file = {:?};\n\
             assert_eq!(judge(&file), {});\n\
             assert_eq!(judge_link(&file), {});\n\
             assert_eq!(visits(&file).map(Iterator::collect::<Vec<_>>), {});\n\
             assert_eq!(listing(&file), b\"{}\");\n\
             assert_eq!(sheet(&file), b\"{}\");\n\
             assert_eq!(sheet_pages(&file).map(|pages| pages.flatten().collect::<Vec<_>>()), {});",
            self.bytes,
            text::answer(&judged),
            text::link(&link),
            text::visits(&visits),
            listing.escape_ascii(),
            sheet.escape_ascii(),
            pages.map_or_else(text::refused, |_| "Ok(sheet(&file))".to_string())
        )
    }
}

fn stopped(stopped: region_file::Stopped) -> Stopped {
    let region_file::Stopped { refusal, holder, named } = stopped;
    Stopped { refusal: same::refusal(refusal), holder, named }
}

/// Every position of the reference fits, for its regions have been judged.
fn file_visit(visit: reference::region_file::Visit) -> FileVisit {
    let (x, y) = (visit.position.x as i32, visit.position.y as i32);
    FileVisit { record: visit.record, index: visit.index, x, y }
}

#[cfg(test)]
mod tests {
    use super::*;

    #[test]
    fn pages_are_those_of_the_sheet() {
        // Record 0 alone, which names no other.
        let mut bytes = vec![0; 32];
        bytes[4] = 1;
        let accepted = RegionFile { bytes };
        let Answer { sheet, pages, .. } = accepted.expected();
        assert_eq!(pages, Ok(vec![sheet]));
        assert!(accepted.test().ends_with(".collect::<Vec<_>>()), Ok(sheet(&file)));"));
    }

    #[test]
    fn refused_file_has_its_refusal_for_pages() {
        let refused = RegionFile { bytes: vec![] };
        assert_eq!(refused.expected().pages, Err(Refusal::FileLength));
        assert!(refused.test().ends_with(".collect::<Vec<_>>()), Err(Refusal::FileLength));"));
    }
}
