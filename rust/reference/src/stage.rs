//! The stage: regions, their limits, the reader's field, and the position of a
//! point, from which the field lies wholly inside the region (02, C-12).

use crate::pair::Point;
use crate::refusal::Refusal;

/// An edge lies this far from 0 at most, on either side.
pub const LARGEST_EDGE: i32 = 1_000_000;

/// The largest width and height; the smallest is 1.
pub const LARGEST_EXTENT: u32 = 1_000_000;

/// A region of the stage, in micrometres.
#[derive(Clone, Copy, Debug, PartialEq, Eq)]
pub struct Region {
    pub left: i32,
    pub top: i32,
    pub width: u32,
    pub height: u32,
}

/// The size of the reader's field, in micrometres; 0 counts as 1.
#[derive(Clone, Copy, Debug, PartialEq, Eq)]
pub struct Field {
    pub width: u32,
    pub height: u32,
}

/// The corner of the reader's field, in micrometres.
#[derive(Clone, Copy, Debug, PartialEq, Eq)]
pub struct Position {
    pub x: i64,
    pub y: i64,
}

impl Region {
    /// Refusal 10.
    pub fn judge(self) -> Result<(), Refusal> {
        let edge_fits = |edge| (-LARGEST_EDGE..=LARGEST_EDGE).contains(&edge);
        let extent_fits = |extent| (1..=LARGEST_EXTENT).contains(&extent);
        let edges_fit = edge_fits(self.left) && edge_fits(self.top);
        if edges_fit && extent_fits(self.width) && extent_fits(self.height) {
            Ok(())
        } else {
            Err(Refusal::Region)
        }
    }

    /// Refusals 10 and 16, in this order.
    pub fn judge_with(self, field: Field) -> Result<(), Refusal> {
        self.judge()?;
        let Field { width, height } = field.counted();
        if width > self.width || height > self.height {
            return Err(Refusal::Field);
        }
        Ok(())
    }

    /// Refusals 10 and 16, in this order, or the position of a point.
    pub fn position(self, field: Field, point: Point) -> Result<Position, Refusal> {
        self.judge_with(field)?;
        Ok(self.place(field, point))
    }

    /// The position in a region that is judged with the field already.
    pub(crate) fn place(self, field: Field, point: Point) -> Position {
        let Field { width, height } = field.counted();
        Position {
            x: along(self.left, self.width - width, point.x),
            y: along(self.top, self.height - height, point.y),
        }
    }
}

impl Field {
    /// The size that counts.
    fn counted(self) -> Field {
        Field { width: self.width.max(1), height: self.height.max(1) }
    }
}

/// edge + floor(word * (room + 1) / 2^32). The room is what the field leaves of
/// the extent, so there are room + 1 places for its corner, the edge the first.
/// The product is below 2^52 for an extent within its limit, so it fits.
fn along(edge: i32, room: u32, word: u32) -> i64 {
    let product = i64::from(word) * (i64::from(room) + 1);
    i64::from(edge) + product.div_euclid(1 << 32)
}

#[cfg(test)]
mod tests {
    use super::*;
    use crate::random::Random;

    const WITHIN: Region = Region { left: -500, top: 0, width: 1000, height: 800 };

    /// The field of older files.
    const ZERO: Field = Field { width: 0, height: 0 };

    fn at(region: Region, x: u32, y: u32) -> Result<(i64, i64), Refusal> {
        at_with(region, ZERO, x, y)
    }

    fn at_with(region: Region, field: Field, x: u32, y: u32) -> Result<(i64, i64), Refusal> {
        region.position(field, Point { x, y }).map(|position| (position.x, position.y))
    }

    /// A region within its limits. A quarter of the extents is small, so that
    /// the ends come up often.
    fn any_region(random: &mut Random) -> Region {
        let mut edge = || (random.word() % 2_000_001) as i32 - 1_000_000;
        let (left, top) = (edge(), edge());
        let mut extent = || match random.word() % 4 {
            0 => 1 + random.word() % 12,
            _ => 1 + random.word() % 1_000_000,
        };
        Region { left, top, width: extent(), height: extent() }
    }

    /// A field that fits into the region; its extents may be 0.
    fn any_field(random: &mut Random, region: Region) -> Field {
        let mut size = |extent| match random.word() % 8 {
            0 => 0,
            1 => extent,
            _ => random.word() % (extent + 1),
        };
        Field { width: size(region.width), height: size(region.height) }
    }

    #[test]
    fn positions_of_the_example() {
        assert_eq!(at(WITHIN, 0, 0), Ok((-500, 0)));
        assert_eq!(at(WITHIN, 0x8000_0000, 0x8000_0000), Ok((0, 400)));
        assert_eq!(at(WITHIN, 0x4000_0000, 0xC000_0000), Ok((-250, 600)));
        assert_eq!(at(WITHIN, 0xC000_0000, 0x4000_0000), Ok((250, 200)));
    }

    /// The last wrong turn: cut toward zero, the sum -1 + 0.75 would be 0.
    #[test]
    fn floor_goes_down() {
        let region = Region { left: -1, top: -1, width: 3, height: 3 };
        assert_eq!(at(region, 0x4000_0000, 0xC000_0000), Ok((-1, 1)));
    }

    #[test]
    fn edges_are_judged_at_their_limits() {
        for edge in [-1_000_000, -1, 0, 1, 1_000_000] {
            assert_eq!(Region { left: edge, ..WITHIN }.judge(), Ok(()));
            assert_eq!(Region { top: edge, ..WITHIN }.judge(), Ok(()));
        }
        for edge in [i32::MIN, -1_000_001, 1_000_001, i32::MAX] {
            assert_eq!(Region { left: edge, ..WITHIN }.judge(), Err(Refusal::Region));
            assert_eq!(Region { top: edge, ..WITHIN }.judge(), Err(Refusal::Region));
        }
    }

    #[test]
    fn extents_are_judged_at_their_limits() {
        for extent in [1, 2, 1_000_000] {
            assert_eq!(Region { width: extent, ..WITHIN }.judge(), Ok(()));
            assert_eq!(Region { height: extent, ..WITHIN }.judge(), Ok(()));
        }
        for extent in [0, 1_000_001, 1 << 31, u32::MAX] {
            assert_eq!(Region { width: extent, ..WITHIN }.judge(), Err(Refusal::Region));
            assert_eq!(Region { height: extent, ..WITHIN }.judge(), Err(Refusal::Region));
        }
    }

    #[test]
    fn refused_region_has_no_position() {
        let region = Region { width: 0, ..WITHIN };
        assert_eq!(at(region, 0, 0), Err(Refusal::Region));
    }

    /// The example of C-12, on either axis: 0.75 times 801 is 600.75.
    #[test]
    fn position_of_the_example_with_a_field() {
        let region = Region { height: 1000, ..WITHIN };
        let field = Field { width: 200, height: 200 };
        assert_eq!(at_with(region, field, 0xC000_0000, 0xC000_0000), Ok((100, 600)));
        assert_eq!(at(region, 0xC000_0000, 0xC000_0000), Ok((250, 750)));
    }

    #[test]
    fn each_axis_has_its_own_extent_of_the_field() {
        let (wide, high) = (Field { width: 200, height: 100 }, Field { width: 100, height: 200 });
        assert_eq!(at_with(WITHIN, wide, 0xC000_0000, 0x8000_0000), Ok((100, 350)));
        assert_eq!(at_with(WITHIN, high, 0xC000_0000, 0x8000_0000), Ok((175, 300)));
    }

    #[test]
    fn field_as_large_as_the_region_lies_at_the_edge() {
        let mut random = Random::from_seed(12);
        for _ in 0..1_000 {
            let region = any_region(&mut random);
            let field = Field { width: region.width, height: region.height };
            let edges = (i64::from(region.left), i64::from(region.top));
            for word in [0, 1, 0x8000_0000, random.word(), u32::MAX] {
                assert_eq!(at_with(region, field, word, !word), Ok(edges));
            }
        }
    }

    /// The formula of document 01: edge + floor(word * extent / 2^32).
    #[test]
    fn zero_and_one_leave_the_position_without_a_field() {
        let mut random = Random::from_seed(1);
        let without = |edge: i32, extent: u32, word: u32| {
            i64::from(edge) + (u64::from(word) * u64::from(extent) / (1 << 32)) as i64
        };
        for _ in 0..5_000 {
            let region = any_region(&mut random);
            let (x, y) = (random.word(), random.word());
            let expected =
                (without(region.left, region.width, x), without(region.top, region.height, y));
            for (width, height) in [(0, 0), (0, 1), (1, 0), (1, 1)] {
                assert_eq!(at_with(region, Field { width, height }, x, y), Ok(expected));
            }
        }
    }

    /// The field's size, the fitting ones first; nothing wraps at the largest.
    #[test]
    fn field_is_judged_at_the_extents_of_the_region() {
        for extent in [1, 2, 999, 1_000_000] {
            let region = Region { width: extent, height: extent, ..WITHIN };
            for size in [0, 1, extent - 1, extent] {
                assert_eq!(region.judge_with(Field { width: size, height: 1 }), Ok(()));
                assert_eq!(region.judge_with(Field { width: 1, height: size }), Ok(()));
                assert_eq!(region.judge_with(Field { width: size, height: size }), Ok(()));
            }
            for size in [extent + 1, 1_000_001, 1 << 31, u32::MAX - extent, u32::MAX - 1, u32::MAX]
            {
                for other in [0, 1, extent] {
                    let wide = Field { width: size, height: other };
                    let high = Field { width: other, height: size };
                    assert_eq!(at_with(region, wide, 0, 0), Err(Refusal::Field));
                    assert_eq!(at_with(region, high, 0, 0), Err(Refusal::Field));
                }
            }
        }
    }

    /// The width of the field is not compared with the height of the region.
    #[test]
    fn field_does_not_fit_when_it_is_turned() {
        assert_eq!(at_with(WITHIN, Field { width: 1000, height: 800 }, 0, 0), Ok((-500, 0)));
        let turned = Field { width: 800, height: 1000 };
        assert_eq!(at_with(WITHIN, turned, 0, 0), Err(Refusal::Field));
    }

    /// Each region is outside its limits and smaller than the field too.
    #[test]
    fn region_is_judged_before_the_field() {
        let field = Field { width: u32::MAX, height: u32::MAX };
        let regions = [
            Region { left: 1_000_001, ..WITHIN },
            Region { top: -1_000_001, ..WITHIN },
            Region { width: 0, ..WITHIN },
            Region { height: 1_000_001, ..WITHIN },
        ];
        for region in regions {
            assert_eq!(at_with(region, field, 0, 0), Err(Refusal::Region));
        }
        assert_eq!(at_with(WITHIN, field, 0, 0), Err(Refusal::Field));
        // A field fits only into a region that is within its limits.
        let wide = Region { width: 1_000_001, ..WITHIN };
        assert_eq!(at_with(wide, Field { width: 1_000_001, ..ZERO }, 0, 0), Err(Refusal::Region));
    }

    /// Every whole micrometre from the edge to edge + extent - F is a place of
    /// the corner, and nothing else is. The words are spread evenly, far closer
    /// than the places.
    #[test]
    fn corner_takes_every_place_inside() {
        for extent in 1..=12 {
            for size in 0..=extent {
                let region = Region { left: -5, top: 3, width: extent, height: 12 };
                let field = Field { width: size, height: 12 };
                let words = (0..=u32::MAX).step_by(1 << 20).chain([u32::MAX]);
                let mut places: Vec<i64> =
                    words.map(|word| at_with(region, field, word, word).unwrap().0).collect();
                places.dedup();
                let last = -5 + i64::from(extent) - i64::from(size.max(1));
                assert_eq!(places, (-5..=last).collect::<Vec<i64>>());
            }
        }
    }

    #[test]
    fn whole_field_lies_inside_the_region() {
        let mut random = Random::from_seed(200);
        for _ in 0..20_000 {
            let region = any_region(&mut random);
            let field = any_field(&mut random, region);
            let word = if random.word() % 4 == 0 { u32::MAX } else { random.word() };
            let (x, y) = at_with(region, field, word, word).unwrap();
            let (left, top) = (i64::from(region.left), i64::from(region.top));
            let (width, height) = (field.width.max(1), field.height.max(1));
            assert!(left <= x && x + i64::from(width) <= left + i64::from(region.width));
            assert!(top <= y && y + i64::from(height) <= top + i64::from(region.height));
        }
    }

    #[test]
    fn last_word_stays_inside() {
        let one = Region { left: 7, top: -7, width: 1, height: 1 };
        assert_eq!(at(one, u32::MAX, u32::MAX), Ok((7, -7)));
        let far = Region { left: 1_000_000, top: -1_000_000, width: 1_000_000, height: 2 };
        assert_eq!(at(far, u32::MAX, u32::MAX), Ok((1_999_999, -999_999)));
    }

    /// The floor by its meaning: 2^32 times the way goes at most to the
    /// product, and one micrometre further goes above it.
    #[test]
    fn position_is_the_floor() {
        let mut random = Random::from_seed(10);
        for _ in 0..20_000 {
            let region = any_region(&mut random);
            let field = any_field(&mut random, region);
            let word = random.word();
            let (x, _) = at_with(region, field, word, 0).unwrap();
            let way = i128::from(x) - i128::from(region.left);
            let span = i128::from(region.width) - i128::from(field.width.max(1)) + 1;
            let product = i128::from(word) * span;
            assert!(0 <= way && way < span);
            assert!(way << 32 <= product && product < (way + 1) << 32);
        }
    }
}
