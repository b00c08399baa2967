//! Positions in regions about their limits, of fields about the regions' extents.

use reference::trial::splitmix::Splitmix;
use reference::{pair, stage};
use vektrid::{Field, Refusal, Region};

use crate::case::Case;
use crate::limits::wild;
use crate::simpler::{simpler_signed, simpler_word};
use crate::{same, text};

const EDGES: [i32; 8] = [-1_000_001, -1_000_000, -1, 0, 1, 1_000_000, 1_000_001, i32::MIN];
const EXTENTS: [u32; 8] = [0, 1, 2, 3, 999_999, 1_000_000, 1_000_001, u32::MAX];

#[derive(Clone, Copy)]
pub struct PositionIn {
    region: Region,
    field: Field,
    x: u32,
    y: u32,
}

impl Case for PositionIn {
    const NAME: &'static str = "position";
    const COUNT: u64 = 300_000;
    const OUTCOMES: &'static [u32] = &[0, 10, 16];
    type Answer = Result<(i64, i64), Refusal>;

    fn make(random: &mut Splitmix, _: u64) -> PositionIn {
        let (left, top) = (edge(random), edge(random));
        let (width, height) = (extent(random), extent(random));
        let region = Region { left, top, width, height };
        let field = Field { width: within(random, width), height: within(random, height) };
        PositionIn { region, field, x: wild(random), y: wild(random) }
    }

    fn expected(&self) -> Result<(i64, i64), Refusal> {
        let Region { left, top, width, height } = self.region;
        let region = stage::Region { left, top, width, height };
        let field = stage::Field { width: self.field.width, height: self.field.height };
        let position = region.position(field, pair::Point { x: self.x, y: self.y });
        position.map(|at| (at.x, at.y)).map_err(same::refusal)
    }

    fn given(&self) -> Result<(i64, i64), Refusal> {
        let position = self.region.position(self.field, self.x, self.y);
        position.map(|at| (i64::from(at.x), i64::from(at.y)))
    }

    fn outcome(answer: &Result<(i64, i64), Refusal>) -> u32 {
        same::outcome(answer)
    }

    fn simpler(&self) -> Vec<PositionIn> {
        let mut simpler = Vec::new();
        let regions = simpler_region(self.region).into_iter();
        simpler.extend(regions.map(|region| PositionIn { region, ..*self }));
        let fields = simpler_field(self.field).into_iter();
        simpler.extend(fields.map(|field| PositionIn { field, ..*self }));
        simpler.extend(simpler_word(self.x).into_iter().map(|x| PositionIn { x, ..*self }));
        simpler.extend(simpler_word(self.y).into_iter().map(|y| PositionIn { y, ..*self }));
        simpler
    }

    fn test(&self) -> String {
        let PositionIn { region, field, x, y } = self;
        format!(
            "let answer = {region:?}.position({field:?}, {x}, {y});\n\
             assert_eq!(answer.map(|at| (at.x, at.y)), {});",
            text::answer(&self.expected())
        )
    }
}

fn simpler_region(region: Region) -> Vec<Region> {
    let Region { left, top, width, height } = region;
    let mut simpler = Vec::new();
    simpler.extend(simpler_signed(left).into_iter().map(|left| Region { left, ..region }));
    simpler.extend(simpler_signed(top).into_iter().map(|top| Region { top, ..region }));
    simpler.extend(simpler_word(width).into_iter().map(|width| Region { width, ..region }));
    simpler.extend(simpler_word(height).into_iter().map(|height| Region { height, ..region }));
    simpler
}

fn simpler_field(field: Field) -> Vec<Field> {
    let widths = simpler_word(field.width).into_iter().map(|width| Field { width, ..field });
    let heights = simpler_word(field.height).into_iter().map(|height| Field { height, ..field });
    widths.chain(heights).collect()
}

/// One in eight about a limit, so that most regions are in order.
fn edge(random: &mut Splitmix) -> i32 {
    match random.below(8) {
        0 => random.pick(&EDGES),
        _ => random.below(2_000_001) as i32 - 1_000_000,
    }
}

fn extent(random: &mut Splitmix) -> u32 {
    match random.below(8) {
        0 => random.pick(&EXTENTS),
        1 => 1 + random.below(20),
        _ => 1 + random.below(1_000_000),
    }
}

/// The width or height of a field beside that of its region: none, the least, as large as the
/// region, one larger, the largest word, a small one, or any that fits, which most are.
fn within(random: &mut Splitmix, extent: u32) -> u32 {
    match random.below(16) {
        0 => 0,
        1 => 1,
        2 => extent,
        3 => extent.saturating_add(1),
        4 => u32::MAX,
        5 => 1 + random.below(20),
        _ => 1 + random.below(extent.max(1)),
    }
}

#[cfg(test)]
mod tests {
    use super::*;

    fn cases() -> impl Iterator<Item = PositionIn> {
        (0..4_000).map(|number| PositionIn::make(&mut Splitmix::of_case(1, number), number))
    }

    /// Each size of a field comes up on each axis in a region within its limits.
    #[test]
    fn every_size_of_a_field_comes_up() {
        let sizes: [fn(u32, u32) -> bool; 6] = [
            |field, _| field == 0,
            |field, extent| field == 1 && extent > 1,
            |field, extent| field == extent,
            |field, extent| field == extent + 1,
            |field, _| field == u32::MAX,
            |field, extent| 1 < field && field < extent,
        ];
        for size in sizes {
            let mut judged = cases().filter(|case| case.expected() != Err(Refusal::Region));
            assert!(judged.any(|case| size(case.field.width, case.region.width)));
            let mut judged = cases().filter(|case| case.expected() != Err(Refusal::Region));
            assert!(judged.any(|case| size(case.field.height, case.region.height)));
        }
    }

    #[test]
    fn simpler_cases_have_one_number_smaller() {
        let region = Region { left: 0, top: 0, width: 1, height: 1 };
        let case = PositionIn { region, field: Field { width: 2, height: 0 }, x: 0, y: 0 };
        let fields: Vec<Field> = case.simpler().into_iter().map(|simpler| simpler.field).collect();
        assert!(fields.contains(&Field { width: 0, height: 0 }));
        assert!(fields.contains(&Field { width: 1, height: 0 }));
    }

    #[test]
    fn test_names_the_field() {
        let region = Region { left: -500, top: 0, width: 1000, height: 800 };
        let field = Field { width: 200, height: 100 };
        let text = PositionIn { region, field, x: 0xC000_0000, y: 0 }.test();
        assert!(text.contains(".position(Field { width: 200, height: 100 }, 3221225472, 0);"));
        assert!(text.ends_with("assert_eq!(answer.map(|at| (at.x, at.y)), Ok((100, 0)));"));
    }
}
