//! Cases as Rust, to be pasted into a test of rust/vektrid.

use std::fmt::Debug;

use vektrid::{FileVisit, Refusal, Stopped};

use crate::pairs::{standard, Words};
use crate::scrambles::{Axis, Scrambled};

/// `let pair = ..`, by the changes to the standard pair.
pub fn let_pair(words: &Words) -> String {
    let standard = standard();
    if *words == standard {
        return "let pair = Pair::standard();".to_string();
    }
    if *words == [0; 64] {
        return "let pair = Pair::from_words(&[0; 64]).unwrap();".to_string();
    }
    let mut lines = vec!["let mut words = *Pair::standard().words();".to_string()];
    for (at, (word, plain)) in words.iter().zip(&standard).enumerate() {
        if word != plain {
            lines.push(format!("words[{at}] = 0x{word:08X};"));
        }
    }
    lines.push("let pair = Pair::from_words(&words).unwrap();".to_string());
    lines.join("\n")
}

/// `let scramble = ..`, for calls that judge flips.
pub fn let_bytes(scramble: &Scrambled) -> String {
    let Scrambled { shift, x, y } = scramble;
    if no_flips(scramble) {
        return format!("let scramble = ScrambleBytes::from({shift:?});");
    }
    format!(
        "let scramble = ScrambleBytes {{\n    \
             shift: {shift:?},\n    \
             flips_x: &{},\n    \
             flips_y: &{},\n\
         }};",
        bytes(x),
        bytes(y)
    )
}

/// `let scramble = ..`, for the other calls.
pub fn let_scramble(scramble: &Scrambled) -> String {
    let Scrambled { shift, x, y } = scramble;
    if no_flips(scramble) {
        return format!("let scramble = Scramble::from({shift:?});");
    }
    format!(
        "let flips = Flips::from_bytes(&{}, &{}).unwrap();\n\
         let scramble = Scramble {{ shift: {shift:?}, flips }};",
        bytes(x),
        bytes(y)
    )
}

fn no_flips(scramble: &Scrambled) -> bool {
    scramble.x.lent() == Axis::NONE.lent() && scramble.y.lent() == Axis::NONE.lent()
}

/// The bytes of an axis as an array.
fn bytes(axis: &Axis) -> String {
    match axis.lent() {
        bytes if bytes.iter().all(|&byte| byte == 0) => format!("[0; {}]", bytes.len()),
        bytes => format!("{bytes:?}"),
    }
}

/// An answer with the full name of its refusal.
pub fn answer<T: Debug>(answer: &Result<T, Refusal>) -> String {
    match answer {
        Ok(value) => format!("Ok({value:?})"),
        Err(refusal) => refused(*refusal),
    }
}

/// The answer of a refused call.
pub fn refused(refusal: Refusal) -> String {
    format!("Err(Refusal::{refusal:?})")
}

/// The visits of a file, or their refusal.
pub fn visits(visits: &Result<Vec<FileVisit>, Refusal>) -> String {
    match visits {
        Ok(visits) => format!("Ok(vec!{visits:?})"),
        Err(_) => answer(visits),
    }
}

/// The judgement of a file with the link at which it stopped.
pub fn link(link: &Result<(), Stopped>) -> String {
    match link {
        Ok(()) => "Ok(())".to_string(),
        Err(Stopped { refusal, holder, named }) => format!(
            "Err(Stopped {{ refusal: Refusal::{refusal:?}, holder: {holder}, named: {named} }})"
        ),
    }
}

#[cfg(test)]
mod tests {
    use super::*;
    use vektrid::Shift;

    #[test]
    fn pairs_are_told_by_their_changes() {
        let mut words = standard();
        assert_eq!(let_pair(&words), "let pair = Pair::standard();");
        words[33] = 7;
        let text = "let mut words = *Pair::standard().words();\n\
                    words[33] = 0x00000007;\n\
                    let pair = Pair::from_words(&words).unwrap();";
        assert_eq!(let_pair(&words), text);
    }

    #[test]
    fn scrambles_are_told_by_their_bytes() {
        let shift = Shift { x: 1, y: 2 };
        let plain = Scrambled { shift, x: Axis::NONE, y: Axis::NONE };
        let text = "let scramble = ScrambleBytes::from(Shift { x: 1, y: 2 });";
        assert_eq!(let_bytes(&plain), text);
        assert_eq!(let_scramble(&plain), "let scramble = Scramble::from(Shift { x: 1, y: 2 });");
        let flipped = Scrambled { x: Axis::of(&[7, 0, 9]), ..plain };
        let text = "let scramble = ScrambleBytes {\n    \
                        shift: Shift { x: 1, y: 2 },\n    \
                        flips_x: &[7, 0, 9],\n    \
                        flips_y: &[0; 32],\n\
                    };";
        assert_eq!(let_bytes(&flipped), text);
        let text = "let flips = Flips::from_bytes(&[7, 0, 9], &[0; 32]).unwrap();\n\
                    let scramble = Scramble { shift: Shift { x: 1, y: 2 }, flips };";
        assert_eq!(let_scramble(&flipped), text);
    }

    #[test]
    fn refusals_have_their_full_name() {
        let refused: Result<u32, Refusal> = Err(Refusal::NotNet { m: 2, a: 1, j: 2 });
        assert_eq!(answer(&refused), "Err(Refusal::NotNet { m: 2, a: 1, j: 2 })");
        assert_eq!(answer(&Ok::<u32, Refusal>(3)), "Ok(3)");
        let stopped = Stopped { refusal: Refusal::MissingRecord, holder: 1, named: 5 };
        let text = "Err(Stopped { refusal: Refusal::MissingRecord, holder: 1, named: 5 })";
        assert_eq!(link(&Err(stopped)), text);
        assert_eq!(link(&Ok(())), "Ok(())");
    }
}
