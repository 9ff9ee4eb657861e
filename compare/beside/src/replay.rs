//! Answers the lines of standard input that begin with `case` by the crate's loops: the line, then both planes, filled with 7 before.
//! Where the loops give no planes, one line says why in their place.
use crate::caught;
use crate::frame::{Frame, Planes};
use crate::settings::{Settings, CUSTOM};
use crate::theirs::{self, PlaneChecks, WeightType};
use std::io::BufRead;

const ROOM: usize = 65540;
const LISTED: usize = 256;
const FILL: u16 = 7;
const ROW: [u16; 9] = [1023, 0, 0, 0, 0, 1023, 1023, 1023, 1023];
const NUMBERS: usize = 20;
const OWN_PAIR: (f32, f32) = (0.25, 0.125);
/// The number that a case has for the custom pair 0, 0.
const ZERO_PAIR: u32 = 55;

struct Case {
    settings: Settings,
    frame: Frame,
    lengths: [usize; 3],
    seed: u64,
    at: usize,
    sample: u16,
}

fn read(line: &str) -> Option<Case> {
    let numbers: Result<Vec<u64>, _> = line.split_whitespace().skip(1).map(str::parse).collect();
    let n = numbers.ok().filter(|list| list.len() == NUMBERS)?;
    let short = |i: usize| u32::try_from(n[i]).ok();
    let (matrix, (kr, kb)) = match short(2)? {
        CUSTOM => (CUSTOM, OWN_PAIR),
        ZERO_PAIR => (CUSTOM, (0.0, 0.0)),
        named if named < CUSTOM => (named, (0.0, 0.0)),
        _ => return None,
    };
    Some(Case {
        settings: Settings {
            depth: short(0)?,
            precision: short(1)?,
            matrix,
            kr,
            kb,
            range: short(3)?,
            subsampling: short(4)?,
            order: short(5)?,
            packing: short(6)?,
            byte_order: short(7)?,
            channels: short(8)?,
        },
        frame: Frame::whole(
            n[9] as usize,
            n[10] as usize,
            [11, 12, 13].map(|i| n[i] as usize),
        ),
        lengths: [14, 15, 16].map(|i| ROOM.min(n[i] as usize)),
        seed: n[17],
        at: n[18] as usize,
        sample: n[19] as u16,
    })
}

fn source_of(case: &Case) -> Vec<u16> {
    let depth = case.settings.depth;
    let m = if (10..=16).contains(&depth) {
        (1u64 << depth) - 1
    } else {
        1023
    };
    let mut x = case.seed % 65537;
    let mut draw = |i: usize| {
        if case.seed == 0 {
            return ROW[i % ROW.len()];
        }
        x = (x * 75 + 74) % 65537;
        (x % (m + 1)) as u16
    };
    let mut source: Vec<u16> = (0..case.lengths[0]).map(&mut draw).collect();
    if let Some(place) = source.get_mut(case.at) {
        *place = case.sample;
    }
    source
}

fn shown(name: &str, plane: &[u16]) -> String {
    if plane.len() > LISTED {
        let step = |total: u32, word: &u16| (total * 31 + u32::from(*word) + 1) % 65521;
        return format!("{name} sum {}", plane.iter().fold(0, step));
    }
    let words = plane.iter().map(|word| format!(" {word}"));
    name.to_string() + &words.collect::<String>()
}

/// The planes as the loops leave them, or why there are none.
fn answered(case: &Case) -> Result<Planes, String> {
    let Frame {
        width,
        height,
        source_stride,
        luma_stride,
        chroma_stride,
        ..
    } = case.frame;
    let sizes = [width, height, source_stride, luma_stride, chroma_stride];
    if sizes.iter().any(|size| u32::try_from(*size).is_err()) {
        return Err("not called, a size or stride has more than 32 bits".to_string());
    }
    let source = source_of(case);
    let [_, luma, chroma] = case.lengths;
    let mut planes = Planes::filled(luma, chroma, FILL);
    let answer = caught::run(|| {
        theirs::convert_with(
            &case.settings,
            &case.frame,
            &source,
            &mut planes,
            WeightType::OfTheDepth,
            PlaneChecks::LeftOut,
        )
    });
    match answer {
        Err(message) => Err(format!("panic, {message}")),
        Ok(None) => Err("not called, no loops for this depth and precision".to_string()),
        Ok(Some(Err(error))) => Err(format!("error, {}", theirs::error_name(&error))),
        Ok(Some(Ok(()))) => Ok(planes),
    }
}

pub fn run() -> bool {
    let mut are_read = true;
    for line in std::io::stdin().lock().lines() {
        let line = line.expect("standard input can be read");
        if !line.starts_with("case") {
            continue;
        }
        println!("{line}");
        match read(&line).map(|case| answered(&case)) {
            Some(Ok(planes)) => {
                println!("{}", shown("luma", &planes.luma));
                println!("{}", shown("chroma", &planes.chroma));
            }
            Some(Err(why)) => println!("no planes: {why}"),
            None => {
                are_read = false;
                println!("no planes: not {NUMBERS} numbers of a case");
            }
        }
    }
    are_read
}
