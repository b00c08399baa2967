//! The region file: records of 32 bytes, the reader's field in record 0, the
//! chain through the others, its visits.

use crate::check::judge_level;
use crate::pair::{Pair, Shift};
use crate::refusal::Refusal;
use crate::stage::{Field, Position, Region};

/// A record has eight fields of four bytes.
pub const RECORD_BYTES: usize = 32;

pub const LARGEST_FILE: usize = 65_536;

pub const LARGEST_COUNT: u32 = 4_096;

/// Where the zero bytes of record 0 begin (02, C-12).
const HEAD_ZEROS: usize = 16;

/// The fields of a record in the order of the file.
pub type Fields = [u32; 8];

/// An accepted file: the reader's field, and the records of the chain in its
/// order. The field is the same for all of them.
#[derive(Clone, Debug, PartialEq, Eq)]
pub struct Chain {
    pub field: Field,
    pub records: Vec<Record>,
}

/// A record of the chain, judged already.
#[derive(Clone, Copy, Debug, PartialEq, Eq)]
pub struct Record {
    pub number: u32,
    pub region: Region,
    pub shift: Shift,
    pub count: u32,
}

/// Why a file was refused, and the link at which its judgement stopped.
#[derive(Clone, Copy, Debug, PartialEq, Eq)]
pub struct Stopped {
    pub refusal: Refusal,
    /// The number of the record that holds the link: 0 for the link in record
    /// 0, and otherwise that of a record on the chain.
    pub holder: u32,
    /// The number that the link names. Refusals 10, 16 and 15 are faults of the
    /// record with this number: for 16 the field is too large for its region.
    /// For 13 the file has no such record.
    pub named: u32,
}

/// One line of the listing.
#[derive(Clone, Copy, Debug, PartialEq, Eq)]
pub struct Visit {
    pub record: u32,
    pub index: u32,
    pub position: Position,
}

/// The bytes of a file with these records, record 0 first. It judges nothing.
pub fn file_of(records: &[Fields]) -> Vec<u8> {
    records.iter().flatten().flat_map(|field| field.to_le_bytes()).collect()
}

/// The chain with the reader's field, or why the file is refused.
pub fn chain(file: &[u8]) -> Result<Chain, Refusal> {
    follow(file).map_err(|stopped| stopped.refusal)
}

/// Nothing for a file that is accepted; otherwise where its judgement stopped.
pub fn judged(file: &[u8]) -> Result<(), Stopped> {
    follow(file).map(|_| ())
}

/// The refusals before the first link and then those of the links; otherwise
/// the chain. This is the only walk along the chain, so `chain` and `judged`
/// cannot differ in their refusals.
fn follow(file: &[u8]) -> Result<Chain, Stopped> {
    // What is wrong before the first link concerns no link.
    let no_link = |refusal| Stopped { refusal, holder: 0, named: 0 };
    let (first, field) = judge_head(file).map_err(no_link)?;
    let (mut holder, mut named) = (0, first);
    let mut chain = Chain { field, records: Vec::new() };
    while named != 0 {
        let stopped = |refusal| Stopped { refusal, holder, named };
        let (record, next) = judge_link(file, &chain, named).map_err(stopped)?;
        chain.records.push(record);
        (holder, named) = (named, next);
    }
    Ok(chain)
}

/// Refusals 11, 2 and 12, in this order; otherwise the first number and the
/// reader's field. The field is judged with the regions, not here.
fn judge_head(file: &[u8]) -> Result<(u32, Field), Refusal> {
    if file.is_empty() || file.len() > LARGEST_FILE || file.len() % RECORD_BYTES != 0 {
        return Err(Refusal::FileLength);
    }
    let [first, level, width, height, ..] = fields(file);
    // The level has no other use: the file's pair passes every level.
    judge_level(level)?;
    if file[HEAD_ZEROS..RECORD_BYTES].iter().any(|&byte| byte != 0) {
        return Err(Refusal::HeadBytes);
    }
    Ok((first, Field { width, height }))
}

/// Refusals 13, 14, 10, 16 and 15 of a link that is not 0, in this order;
/// otherwise the record it names and the number that follows there.
fn judge_link(file: &[u8], before: &Chain, link: u32) -> Result<(Record, u32), Refusal> {
    let bytes = file.chunks_exact(RECORD_BYTES).nth(link as usize);
    let bytes = bytes.ok_or(Refusal::MissingRecord)?;
    if before.records.iter().any(|record| record.number == link) {
        return Err(Refusal::Return);
    }
    let [next, left, top, width, height, x, y, count] = fields(bytes);
    // Two's complement: the cast keeps the bits.
    let region = Region { left: left as i32, top: top as i32, width, height };
    region.judge_with(before.field)?;
    if count > LARGEST_COUNT {
        return Err(Refusal::VisitCount);
    }
    Ok((Record { number: link, region, shift: Shift { x, y }, count }, next))
}

/// The fields of the record at the beginning of these bytes.
fn fields(bytes: &[u8]) -> Fields {
    std::array::from_fn(|i| {
        let at = 4 * i;
        u32::from_le_bytes([bytes[at], bytes[at + 1], bytes[at + 2], bytes[at + 3]])
    })
}

/// The visits of a chain: records in its order, indexes rising from 0. A file
/// carries no flips.
pub fn visits(chain: &Chain) -> impl Iterator<Item = Visit> + '_ {
    let pair = Pair::standard();
    chain.records.iter().flat_map(move |record| {
        (0..record.count).map(move |index| {
            let point = pair.shifted_point(index, record.shift);
            let position = record.region.place(chain.field, point);
            Visit { record: record.number, index, position }
        })
    })
}

#[cfg(test)]
mod tests {
    use super::*;
    use crate::flips::Scramble;
    use crate::random::Random;
    use crate::trial::draft::{Draft, COUNT, FIELD_HEIGHT, FIELD_WIDTH, HEIGHT, LEFT, NEXT, WIDTH};
    use crate::trial::files;
    use crate::trial::splitmix::Splitmix;

    /// A record in order that ends the chain: the example of document 01.
    const RECORD: Fields = [0, (-500i32) as u32, 0, 1000, 800, 0, 0, 4];

    fn head(first: u32, level: u32) -> Fields {
        [first, level, 0, 0, 0, 0, 0, 0]
    }

    fn head_with_field(first: u32, level: u32, width: u32, height: u32) -> Fields {
        [first, level, width, height, 0, 0, 0, 0]
    }

    fn with(field: usize, value: u32) -> Fields {
        let mut record = RECORD;
        record[field] = value;
        record
    }

    /// The numbers of the chain's records, or the number of the refusal.
    fn outcome(records: &[Fields]) -> Result<Vec<u32>, u32> {
        numbers(&file_of(records))
    }

    fn numbers(file: &[u8]) -> Result<Vec<u32>, u32> {
        let chain = chain(file).map_err(Refusal::number)?;
        Ok(chain.records.iter().map(|record| record.number).collect())
    }

    /// The number of the refusal, the holder and the number named.
    fn stop(file: &[u8]) -> Result<(), (u32, u32, u32)> {
        judged(file).map_err(|stop| (stop.refusal.number(), stop.holder, stop.named))
    }

    fn stop_of(records: &[Fields]) -> Result<(), (u32, u32, u32)> {
        stop(&file_of(records))
    }

    /// The numbers 1 to 2,047, shuffled.
    fn any_order() -> Vec<u32> {
        let mut random = Random::from_seed(2_047);
        let mut order: Vec<u32> = (1..=2_047).collect();
        order.sort_by_cached_key(|_| random.word());
        order
    }

    /// The largest file, whose chain is of all the records in this order.
    fn longest(order: &[u32]) -> Vec<Fields> {
        let mut records = vec![RECORD; 2_048];
        records[0] = head(order[0], 32);
        for link in order.windows(2) {
            records[link[0] as usize][NEXT] = link[1];
        }
        records
    }

    #[test]
    fn bytes_stand_lowest_first() {
        let mut file = vec![1, 0, 0, 0, 2, 0, 0, 0, 0x2C, 1, 0, 0, 0xC8, 0, 0, 0];
        file.resize(32, 0);
        file.extend([0, 0, 0, 0, 0x0C, 0xFE, 0xFF, 0xFF, 0, 0, 0, 0]);
        file.extend([0xE8, 3, 0, 0, 0x20, 3, 0, 0]);
        file.extend([1, 2, 3, 4, 5, 6, 7, 8, 4, 0, 0, 0]);
        let region = Region { left: -500, top: 0, width: 1000, height: 800 };
        let shift = Shift { x: 0x0403_0201, y: 0x0807_0605 };
        let records = vec![Record { number: 1, region, shift, count: 4 }];
        let field = Field { width: 300, height: 200 };
        assert_eq!(chain(&file), Ok(Chain { field, records }));
        let mut record = RECORD;
        record[5..7].copy_from_slice(&[0x0403_0201, 0x0807_0605]);
        assert_eq!(file, file_of(&[head_with_field(1, 2, 300, 200), record]));
    }

    fn visits_of(file: &[u8]) -> Vec<Visit> {
        visits(&chain(file).unwrap()).collect()
    }

    /// The visits of a record, from index 0 on.
    fn visits_at(record: u32, places: &[(i64, i64)]) -> Vec<Visit> {
        let visit = |(index, &(x, y))| Visit { record, index, position: Position { x, y } };
        (0..).zip(places).map(visit).collect()
    }

    #[test]
    fn visits_of_the_example() {
        let file = file_of(&[head(1, 2), RECORD]);
        let places = [(-500, 0), (0, 400), (-250, 600), (250, 200)];
        assert_eq!(visits_of(&file), visits_at(1, &places));
    }

    /// The example with a field of 200 by 100: 801 places across, 701 down. The
    /// last place is the example of C-12, 600 right of the edge.
    #[test]
    fn visits_of_the_example_with_a_field() {
        let file = file_of(&[head_with_field(1, 2, 200, 100), RECORD]);
        let places = [(-500, 0), (-100, 350), (-300, 525), (100, 175)];
        assert_eq!(visits_of(&file), visits_at(1, &places));
    }

    /// A field as large as record 2 leaves it one place and record 1 several.
    #[test]
    fn field_is_that_of_every_record() {
        let (first, second) = ([0, 0, 0, 12, 6, 0, 0, 4], [1, 50, 60, 5, 4, 0, 0, 2]);
        let file = file_of(&[head_with_field(2, 2, 5, 4), first, second]);
        let mut expected = visits_at(2, &[(50, 60), (50, 60)]);
        expected.extend(visits_at(1, &[(0, 0), (4, 1), (2, 2), (6, 0)]));
        assert_eq!(visits_of(&file), expected);
    }

    /// Older files have zeros in bytes 8 to 15. Their visits are those of the
    /// formula in document 01, and a field of 1 by 1 leaves them so. The points are
    /// those of point calls without flips.
    #[test]
    fn older_files_keep_their_visits() {
        let along = |edge: i32, extent: u32, word: u32| {
            i64::from(edge) + (u64::from(word) * u64::from(extent) / (1 << 32)) as i64
        };
        let mut seen = 0;
        for number in 0..300 {
            let mut draft = Draft::any(&mut Splitmix::of_case(9, number));
            draft.records[0][FIELD_WIDTH..=FIELD_HEIGHT].copy_from_slice(&[0, 0]);
            let file = draft.bytes();
            let mut expected = Vec::new();
            for record in chain(&file).unwrap().records {
                let Record { number, region, shift, count } = record;
                for index in 0..count {
                    let scramble = Scramble::of_shift(shift);
                    let point = Pair::standard().point(index, scramble).unwrap();
                    let x = along(region.left, region.width, point.x);
                    let y = along(region.top, region.height, point.y);
                    expected.push(Visit { record: number, index, position: Position { x, y } });
                }
            }
            assert_eq!(visits_of(&file), expected);
            draft.records[0][FIELD_WIDTH..=FIELD_HEIGHT].copy_from_slice(&[1, 1]);
            assert_eq!(visits_of(&draft.bytes()), expected);
            seen += expected.len();
        }
        assert!(seen > 1_000, "{seen}");
    }

    #[test]
    fn examples_of_the_table() {
        assert_eq!(numbers(&file_of(&[head(1, 2), RECORD])[..40]), Err(11));
        assert_eq!(outcome(&[head(1, 33), RECORD]), Err(2));
        let mut file = file_of(&[head(1, 2), RECORD]);
        file[16] = 1;
        assert_eq!(numbers(&file), Err(12));
        assert_eq!(outcome(&[head(1, 2), with(NEXT, 5)]), Err(13));
        assert_eq!(outcome(&[head(1, 2), with(NEXT, 1)]), Err(14));
        assert_eq!(outcome(&[head(1, 2), with(WIDTH, 0)]), Err(10));
        assert_eq!(outcome(&[head(1, 2), with(COUNT, 4_097)]), Err(15));
        assert_eq!(outcome(&[head(1, 2), with(COUNT, 4_096)]), Ok(vec![1]));
        assert_eq!(outcome(&[head_with_field(1, 2, 1001, 0), RECORD]), Err(16));
        assert_eq!(outcome(&[head_with_field(1, 2, 0, 801), RECORD]), Err(16));
        assert_eq!(outcome(&[head_with_field(1, 2, 1000, 800), RECORD]), Ok(vec![1]));
    }

    #[test]
    fn length_is_judged_at_its_limits() {
        let mut file = file_of(&[head(0, 1)]);
        file.resize(65_568, 0xFF);
        for length in [0, 1, 31, 33, 63, 65_535, 65_537, 65_568] {
            assert_eq!(numbers(&file[..length]), Err(11));
        }
        for length in [32, 64, 65_504, 65_536] {
            assert_eq!(numbers(&file[..length]), Ok(vec![]));
        }
    }

    #[test]
    fn every_zero_byte_of_the_head_is_judged() {
        for at in 16..32 {
            for value in [1, 0x80, 0xFF] {
                let mut file = file_of(&[head(1, 2), RECORD]);
                file[at] = value;
                assert_eq!(numbers(&file), Err(12));
            }
        }
    }

    /// Each byte of the field counts with its own weight, up to the top one: a
    /// field of 2^24 or more fits nowhere.
    #[test]
    fn every_byte_of_the_field_is_read() {
        for (at, first) in (8..12).map(|at| (at, 8)).chain((12..16).map(|at| (at, 12))) {
            for value in [1, 3, 4, 0x80, 0xFF] {
                let mut file = file_of(&[head(1, 2), RECORD]);
                file[at] = value;
                let size = u64::from(value) << (8 * (at - first));
                let extent = if first == 8 { 1000 } else { 800 };
                let expected = if size > extent { Err(16) } else { Ok(vec![1]) };
                assert_eq!(numbers(&file), expected, "byte {at}: {value}");
            }
        }
    }

    /// Records 1 and 2 are on the chain, and the smaller extent on each axis is
    /// the limit; record 3 is off it and smaller than both.
    #[test]
    fn field_is_judged_at_the_smallest_region_of_the_chain() {
        let (first, second) = ([2, 0, 0, 300, 900, 0, 0, 1], [0, 0, 0, 500, 400, 0, 0, 1]);
        let off = [0, 0, 0, 1, 1, 0, 0, 1];
        let with_field =
            |width, height| outcome(&[head_with_field(1, 2, width, height), first, second, off]);
        for (width, height) in [(0, 0), (1, 1), (2, 2), (300, 400), (0, 400), (300, 0)] {
            assert_eq!(with_field(width, height), Ok(vec![1, 2]));
        }
        for size in [401, 1_000_000, 1_000_001, 1 << 31, u32::MAX] {
            assert_eq!(with_field(size, 0), Err(16));
            assert_eq!(with_field(0, size), Err(16));
            assert_eq!(with_field(size, size), Err(16));
        }
        assert_eq!(with_field(301, 400), Err(16));
        assert_eq!(with_field(300, 401), Err(16));
        assert_eq!(with_field(400, 300), Err(16));
    }

    #[test]
    fn chain_without_records_is_accepted_with_any_field() {
        let sizes = [0, 1, 1_000, 1_000_000, 1_000_001, 1 << 31, u32::MAX];
        for width in sizes {
            for height in sizes {
                let head = head_with_field(0, 2, width, height);
                let chain = chain(&file_of(&[head, RECORD])).unwrap();
                assert_eq!(chain, Chain { field: Field { width, height }, records: vec![] });
                assert_eq!(visits(&chain).count(), 0);
                assert_eq!(stop_of(&[head]), Ok(()));
            }
        }
    }

    /// Each file has every fault from its own on; the earlier ones are mended.
    #[test]
    fn refusals_come_in_order() {
        let worst = [2, 2_000_000, 0, 0, 0, 0, 0, 5_000];
        let mut bad_head = head_with_field(7, 33, 2, 0);
        bad_head[4] = 1;
        let mut file = file_of(&[bad_head, worst]);
        file.push(0);
        assert_eq!(numbers(&file), Err(11));
        assert_eq!(outcome(&[bad_head, worst]), Err(2));
        bad_head[1] = 32;
        assert_eq!(outcome(&[bad_head, worst]), Err(12));
        let head = |first| head_with_field(first, 32, 2, 0);
        assert_eq!(outcome(&[head(7), worst]), Err(13));
        assert_eq!(outcome(&[head(1), worst]), Err(10));
        let mut record = worst;
        record[LEFT..=4].copy_from_slice(&[0, 0, 1, 1]);
        assert_eq!(outcome(&[head(1), record]), Err(16));
        record[WIDTH] = 2;
        assert_eq!(outcome(&[head(1), record]), Err(15));
        record[COUNT] = 0;
        assert_eq!(outcome(&[head(1), record]), Err(13));
        record[NEXT] = 1;
        assert_eq!(outcome(&[head(1), record]), Err(14));
    }

    /// The record a link names is judged before the link it holds.
    #[test]
    fn link_is_judged_whole_before_the_next() {
        let mut record = with(NEXT, 5);
        record[COUNT] = 4_097;
        assert_eq!(outcome(&[head(1, 2), record]), Err(15));
        let second = with(WIDTH, 0);
        assert_eq!(outcome(&[head(1, 2), with(NEXT, 2), second]), Err(10));
        assert_eq!(outcome(&[head(2, 2), with(COUNT, 4_097), second]), Err(10));
        // The field is too wide for record 2 alone, and record 1 has a fault.
        let (head, second) = (head_with_field(1, 2, 1000, 0), with(WIDTH, 999));
        let mut first = with(NEXT, 2);
        assert_eq!(outcome(&[head, first, second]), Err(16));
        first[COUNT] = 4_097;
        assert_eq!(outcome(&[head, first, second]), Err(15));
        // It is too wide for record 1 too, whose next record the file lacks.
        assert_eq!(outcome(&[head_with_field(1, 2, 1001, 0), with(NEXT, 5)]), Err(16));
    }

    #[test]
    fn records_off_the_chain_are_not_judged() {
        let junk = [u32::MAX; 8];
        assert_eq!(outcome(&[head(2, 2), junk, RECORD, junk]), Ok(vec![2]));
        assert_eq!(outcome(&[head(0, 2), junk]), Ok(vec![]));
        let small = [0, 0, 0, 1, 1, 0, 0, 1];
        let head = head_with_field(2, 2, 1000, 800);
        assert_eq!(outcome(&[head, small, RECORD, small]), Ok(vec![2]));
    }

    #[test]
    fn links_are_judged_at_the_end_of_the_file() {
        assert_eq!(outcome(&[head(1, 2)]), Err(13));
        assert_eq!(outcome(&[head(2, 2), RECORD]), Err(13));
        assert_eq!(outcome(&[head(u32::MAX, 2), RECORD]), Err(13));
        // This number times 32 is 32 again when cut to 32 bits.
        assert_eq!(outcome(&[head(0x0800_0001, 2), RECORD]), Err(13));
    }

    #[test]
    fn chain_of_all_records_in_any_order() {
        let order = any_order();
        let mut records = longest(&order);
        assert_eq!(outcome(&records), Ok(order.clone()));
        records[order[2_046] as usize][NEXT] = order[0];
        assert_eq!(outcome(&records), Err(14));
    }

    #[test]
    fn accepted_file_stops_nowhere() {
        assert_eq!(stop_of(&[head(0, 2)]), Ok(()));
        assert_eq!(stop_of(&[head(1, 2), RECORD]), Ok(()));
        assert_eq!(stop_of(&[head(2, 2), RECORD, with(NEXT, 1)]), Ok(()));
    }

    /// Every file but the empty one has a link to a missing record, so that a
    /// judgement that went on to the links would show it.
    #[test]
    fn stop_before_the_links_names_none() {
        assert_eq!(stop(&[]), Err((11, 0, 0)));
        let mut file = file_of(&[head(7, 2), RECORD]);
        assert_eq!(stop(&file[..40]), Err((11, 0, 0)));
        file[16] = 1;
        assert_eq!(stop(&file), Err((12, 0, 0)));
        assert_eq!(stop_of(&[head(7, 33), RECORD]), Err((2, 0, 0)));
        assert_eq!(stop_of(&[head(1, 0), with(NEXT, 7)]), Err((2, 0, 0)));
    }

    #[test]
    fn stop_at_a_missing_record() {
        assert_eq!(stop_of(&[head(1, 2)]), Err((13, 0, 1)));
        assert_eq!(stop_of(&[head(u32::MAX, 2), RECORD]), Err((13, 0, u32::MAX)));
        assert_eq!(stop_of(&[head(1, 2), with(NEXT, 5)]), Err((13, 1, 5)));
        // The chain is 3, 1. The number is given whole, not cut to a record's.
        let far = with(NEXT, 0x0800_0001);
        let records = [head(3, 2), far, RECORD, with(NEXT, 1)];
        assert_eq!(stop_of(&records), Err((13, 1, 0x0800_0001)));
    }

    /// The chain is 4, 3, 2 each time, so that no number is its place there.
    #[test]
    fn stop_at_a_return() {
        for named in [4, 3, 2] {
            let records = [head(4, 2), RECORD, with(NEXT, named), with(NEXT, 2), with(NEXT, 3)];
            assert_eq!(stop_of(&records), Err((14, 2, named)));
        }
        assert_eq!(stop_of(&[head(1, 2), with(NEXT, 1)]), Err((14, 1, 1)));
    }

    /// The record before the bad one holds the link that is judged.
    #[test]
    fn stop_at_a_bad_region_or_count() {
        for (field, value, number) in [(LEFT, 1_000_001, 10), (WIDTH, 0, 10), (COUNT, 4_097, 15)] {
            let bad = with(field, value);
            assert_eq!(stop_of(&[head(2, 2), RECORD, bad]), Err((number, 0, 2)));
            let records = [head(2, 2), bad, with(NEXT, 3), with(NEXT, 1)];
            assert_eq!(stop_of(&records), Err((number, 3, 1)));
        }
    }

    /// A field of 301 by 400 is too wide for one record, and the numbers of
    /// the chain are not their places there.
    #[test]
    fn stop_at_a_region_smaller_than_the_field() {
        let head = |first| head_with_field(first, 2, 301, 400);
        let small = with(WIDTH, 300);
        assert_eq!(stop_of(&[head(2), RECORD, small]), Err((16, 0, 2)));
        let records = [head(2), small, with(NEXT, 3), with(NEXT, 1)];
        assert_eq!(stop_of(&records), Err((16, 3, 1)));
        // The first of two such records is the one that is named.
        let records = [head(3), small, with(WIDTH, 300), with(NEXT, 2)];
        assert_eq!(stop_of(&records), Err((16, 3, 2)));
    }

    /// A fault of record 2 comes before one of the link in it. Each file has
    /// every fault from its own on; the earlier ones are mended.
    #[test]
    fn stop_at_a_record_before_the_link_in_it() {
        for (next, number) in [(5, 13), (2, 14), (3, 14)] {
            let mut record = [next, 0, 0, 0, 1, 0, 0, 4_097];
            let head = head_with_field(3, 2, 2, 0);
            let stop_with = |record| stop_of(&[head, RECORD, record, with(NEXT, 2)]);
            assert_eq!(stop_with(record), Err((10, 3, 2)));
            record[WIDTH] = 1;
            assert_eq!(stop_with(record), Err((16, 3, 2)));
            record[WIDTH] = 2;
            assert_eq!(stop_with(record), Err((15, 3, 2)));
            record[COUNT] = 4_096;
            assert_eq!(stop_with(record), Err((number, 2, next)));
        }
    }

    #[test]
    fn stop_at_the_end_of_the_longest_chain() {
        let order = any_order();
        let last = order[2_046];
        let mut records = longest(&order);
        for named in [order[0], order[1_000], last] {
            records[last as usize][NEXT] = named;
            assert_eq!(stop_of(&records), Err((14, last, named)));
        }
        records[last as usize][NEXT] = 2_048;
        assert_eq!(stop_of(&records), Err((13, last, 2_048)));
        records[last as usize] = with(COUNT, 4_097);
        assert_eq!(stop_of(&records), Err((15, order[2_045], last)));
        records[0][FIELD_HEIGHT] = 800;
        records[last as usize] = with(HEIGHT, 799);
        assert_eq!(stop_of(&records), Err((16, order[2_045], last)));
        records[last as usize] = RECORD;
        assert_eq!(stop_of(&records), Ok(()));
    }

    /// Whatever the damage, the holder is a record whose link is the one named.
    #[test]
    fn stop_is_at_a_link_of_the_file() {
        for number in 0..1_000 {
            let file = files::make(3, number);
            match stop(&file) {
                Ok(()) => (),
                Err((11 | 2 | 12, holder, named)) => assert_eq!((holder, named), (0, 0)),
                Err((_, holder, named)) => {
                    assert_ne!(named, 0);
                    assert_eq!(fields(&file[holder as usize * RECORD_BYTES..])[NEXT], named);
                }
            }
        }
    }
}
