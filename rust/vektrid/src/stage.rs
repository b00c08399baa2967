//! The stage: regions, the reader's field, and positions.

use crate::library;
use crate::raw;
use crate::refusal::{judged, Refusal};

/// A rectangle of the stage, in micrometres.
#[derive(Clone, Copy, Debug, PartialEq, Eq, Hash)]
pub struct Region {
    /// The left edge, -1,000,000 to 1,000,000.
    pub left: i32,
    /// The top edge, -1,000,000 to 1,000,000.
    pub top: i32,
    /// The width, 1 to 1,000,000.
    pub width: u32,
    /// The height, 1 to 1,000,000.
    pub height: u32,
}

/// The reader's field, in micrometres. A width or a height of 0 counts as 1, so the default, 0 by 0,
/// is a field of 1 by 1: its corner may stand at every place of a region.
#[derive(Clone, Copy, Debug, Default, PartialEq, Eq, Hash)]
pub struct Field {
    /// The width, at most that of the region; 0 counts as 1.
    pub width: u32,
    /// The height, at most that of the region; 0 counts as 1.
    pub height: u32,
}

/// The corner of the reader's field, in micrometres.
#[derive(Clone, Copy, Debug, PartialEq, Eq, Hash)]
pub struct Position {
    /// To the right.
    pub x: i32,
    /// Down.
    pub y: i32,
}

impl Region {
    /// Where the corner of the field stands for the point with the coordinates x and y:
    /// left + floor(x × (width - F + 1) / 2^32), F being the width of the field, and likewise down.
    /// The whole field then lies in the region. Refused under 10, or else under 16.
    ///
    /// ```
    /// use vektrid::{Field, Position, Refusal, Region};
    ///
    /// let region = Region { left: -500, top: 0, width: 1000, height: 800 };
    /// let (x, y) = (0xC000_0000, 0x4000_0000);
    /// let field = Field { width: 200, height: 100 };
    /// assert_eq!(region.position(field, x, y), Ok(Position { x: 100, y: 175 }));
    /// assert_eq!(region.position(Field::default(), x, y), Ok(Position { x: 250, y: 200 }));
    ///
    /// let wide = Field { width: 1001, ..field };
    /// assert_eq!(region.position(wide, x, y), Err(Refusal::Field));
    ///
    /// let empty = Region { width: 0, ..region };
    /// assert_eq!(empty.position(wide, x, y), Err(Refusal::Region));
    /// ```
    pub fn position(self, field: Field, x: u32, y: u32) -> Result<Position, Refusal> {
        let Region { left, top, width, height } = self;
        let mut at = Position { x: 0, y: 0 };
        // SAFETY: two fields of one variable.
        let number = library::call(|| unsafe {
            raw::vektrid_position(
                left,
                top,
                width,
                height,
                field.width,
                field.height,
                x,
                y,
                &mut at.x,
                &mut at.y,
            )
        });
        judged(number).map(|()| at)
    }
}
