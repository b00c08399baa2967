//! The sections on unit numbers, positions, fields and singles along a walk.

use std::io::{self, Write};

use reference::flips::Scramble;
use reference::pair::{Pair, Point, Shift, NO_SHIFT};
use reference::refusal::Refusal;
use reference::stage::{Field, Region};
use reference::unit::{double, single, Singles};
use reference::walk::{Step, Walk};

/// The shift of the second visits and of the steps.
const SHIFT: Shift = Shift { x: 305_419_896, y: 2_596_069_104 };

pub fn all(output: &mut impl Write) -> io::Result<()> {
    units_section(output)?;
    let region = Region { left: -500, top: 0, width: 1000, height: 800 };
    visits_section(output, region, NO_SHIFT)?;
    let region = Region { left: -1_000_000, top: 1_000_000, width: 1_000_000, height: 999_983 };
    visits_section(output, region, SHIFT)?;
    positions_section(output)?;
    fields_section(output)?;
    steps_section(output)
}

/// The words about each power of two, and the last word.
fn units_section(output: &mut impl Write) -> io::Result<()> {
    writeln!(output, "units")?;
    let about_powers = (0..32).flat_map(|k| (0..3).map(move |more| (1u32 << k) - 1 + more));
    for word in about_powers.chain([u32::MAX]) {
        writeln!(output, "{word} {} {}", single(word).to_bits(), double(word).to_bits())?;
    }
    Ok(())
}

/// The visits have the field of older files, which counts as 1 by 1.
fn visits_section(output: &mut impl Write, region: Region, shift: Shift) -> io::Result<()> {
    let Region { left, top, width, height } = region;
    writeln!(output, "visits {left} {top} {width} {height} {} {}", shift.x, shift.y)?;
    let pair = Pair::standard();
    for index in 0..1024 {
        let point = accepted(pair.point(index, Scramble::of_shift(shift)))?;
        write!(output, "{index} ")?;
        position_fields(output, region, Field { width: 0, height: 0 }, point)?;
        writeln!(output, " {}", single_fields(point))?;
    }
    Ok(())
}

/// The answer of a call that nothing here gives a reason to refuse.
fn accepted<T>(answer: Result<T, Refusal>) -> io::Result<T> {
    answer.map_err(|refusal| io::Error::new(io::ErrorKind::Other, refusal.to_string()))
}

/// The position, or its refusal.
fn position_fields(
    output: &mut impl Write,
    region: Region,
    field: Field,
    point: Point,
) -> io::Result<()> {
    match region.position(field, point) {
        Ok(position) => write!(output, "{} {}", position.x, position.y),
        Err(refusal) => write!(output, "{refusal}"),
    }
}

/// The bits of both singles.
fn single_fields(point: Point) -> String {
    let Singles { x, y } = Singles::of(point);
    format!("{} {}", x.to_bits(), y.to_bits())
}

/// Regions and words: the floor, the ends, and each limit passed.
const POSITIONS: [(i32, i32, u32, u32, u32, u32); 16] = [
    (-1, -1, 3, 3, 1_073_741_824, 3_221_225_472),
    (-1_000_000, -1_000_000, 1, 1, 4_294_967_295, 4_294_967_295),
    (1_000_000, 1_000_000, 1_000_000, 1_000_000, 4_294_967_295, 4_294_967_295),
    (-1_000_000, 1_000_000, 1_000_000, 1, 2_147_483_648, 0),
    (-1_000_001, 0, 1, 1, 0, 0),
    (1_000_001, 0, 1, 1, 0, 0),
    (0, -1_000_001, 1, 1, 0, 0),
    (0, 1_000_001, 1, 1, 0, 0),
    (0, 0, 0, 1, 0, 0),
    (0, 0, 1, 0, 0, 0),
    (0, 0, 1_000_001, 1, 0, 0),
    (0, 0, 1, 1_000_001, 0, 0),
    (-2_147_483_648, 0, 1, 1, 0, 0),
    (0, 2_147_483_647, 1, 1, 0, 0),
    (0, 0, 4_294_967_295, 1, 0, 0),
    (0, 0, 1, 4_294_967_295, 0, 0),
];

fn positions_section(output: &mut impl Write) -> io::Result<()> {
    writeln!(output, "positions")?;
    for (left, top, width, height, x, y) in POSITIONS {
        write!(output, "{left} {top} {width} {height} {x} {y} ")?;
        let (region, field) = (Region { left, top, width, height }, Field { width: 1, height: 1 });
        position_fields(output, region, field, Point { x, y })?;
        writeln!(output)?;
    }
    Ok(())
}

/// Left, top, width and height of a region, width and height of the field, and
/// both words.
type FieldCase = (i32, i32, u32, u32, u32, u32, u32, u32);

/// Fields that fit, fields too large, and regions outside their limits.
const FIELDS: [FieldCase; 20] = [
    (0, 0, 1000, 1000, 200, 200, 3_221_225_472, 3_221_225_472),
    (-500, 0, 1000, 800, 200, 100, 3_221_225_472, 2_147_483_648),
    (-500, 0, 1000, 800, 100, 200, 3_221_225_472, 2_147_483_648),
    (-500, 0, 1000, 800, 0, 1, 4_294_967_295, 4_294_967_295),
    (-500, 0, 1000, 800, 1, 0, 4_294_967_295, 4_294_967_295),
    (-500, 0, 1000, 800, 2, 2, 4_294_967_295, 4_294_967_295),
    (-500, 0, 1000, 800, 1000, 800, 4_294_967_295, 4_294_967_295),
    (-500, 0, 1000, 800, 999, 799, 2_147_483_648, 2_147_483_647),
    (-1_000_000, 1_000_000, 1_000_000, 1_000_000, 1_000_000, 1, 4_294_967_295, 4_294_967_295),
    (-1, -1, 4, 4, 2, 2, 1_431_655_766, 1_431_655_765),
    (0, 0, 1, 1, 0, 1, 4_294_967_295, 0),
    (-500, 0, 1000, 800, 1001, 800, 0, 0),
    (-500, 0, 1000, 800, 1000, 801, 0, 0),
    (-500, 0, 1000, 800, 4_294_967_295, 0, 0, 0),
    (-500, 0, 1000, 800, 0, 4_294_967_295, 0, 0),
    (-500, 0, 1000, 800, 800, 1000, 0, 0),
    (-500, 0, 0, 800, 1, 1, 0, 0),
    (-500, 0, 0, 800, 4_294_967_295, 4_294_967_295, 0, 0),
    (1_000_001, 0, 1000, 800, 1001, 801, 0, 0),
    (0, 0, 1_000_001, 1, 1_000_001, 1, 0, 0),
];

fn fields_section(output: &mut impl Write) -> io::Result<()> {
    writeln!(output, "fields")?;
    for (left, top, width, height, field_width, field_height, x, y) in FIELDS {
        write!(output, "{left} {top} {width} {height} {field_width} {field_height} {x} {y} ")?;
        let region = Region { left, top, width, height };
        let field = Field { width: field_width, height: field_height };
        position_fields(output, region, field, Point { x, y })?;
        writeln!(output)?;
    }
    Ok(())
}

/// The last two visits of all as singles, and a step after the end.
fn steps_section(output: &mut impl Write) -> io::Result<()> {
    writeln!(output, "steps")?;
    let pair = Pair::standard();
    let mut walk = accepted(Walk::open(4_294_967_294, 2))?;
    for _ in 0..3 {
        let (step, after) = walk.step(&pair, Scramble::of_shift(SHIFT));
        match accepted(step)? {
            Step::Visit { index, point } => writeln!(output, "{index} {}", single_fields(point))?,
            Step::Ended => writeln!(output, "ended")?,
        }
        walk = after;
    }
    Ok(())
}
