//! A source and a luma plane that are both some rows longer than the frame, at 4:2:0: the crate's checks let them through.
use crate::frame::{Frame, Planes};
use crate::ours;
use crate::settings::Settings;
use crate::theirs;

const FILL: u16 = 7;
const ROWS: [[u16; 3]; 6] = [
    [1023, 0, 0],
    [0, 1023, 0],
    [0, 0, 1023],
    [0, 0, 0],
    [512, 512, 512],
    [1023, 1023, 1023],
];

fn print(height: usize, rows: usize) {
    let settings = Settings::J;
    let frame = Frame::padded(&settings, 1, height, [0; 3]);
    let source = ROWS[..rows].concat();
    let mut planes = Planes::filled(rows, frame.chroma_length(&settings), FILL);
    let ours = ours::convert(&settings, &frame, &source, &mut planes);
    let theirs = match theirs::try_convert(&settings, &frame, &source, &mut planes) {
        Ok(()) => format!("luma {:?}, chroma {:?}", planes.luma, planes.chroma),
        Err(why) => why,
    };
    println!("| 1 x {height} | {rows} | {theirs} | {ours} |");
}

pub fn run() {
    println!("Source and luma both longer than the frame: J, 4:2:0, strides without padding, planes filled with 7 before; the rows are red, green, blue, black, grey and white");
    println!();
    println!("| size | rows of source and luma | crate | ours |");
    println!("|---|---|---|---|");
    for (height, rows) in [
        (1, 1),
        (1, 2),
        (1, 3),
        (1, 4),
        (1, 5),
        (2, 2),
        (2, 3),
        (2, 4),
        (3, 3),
        (3, 4),
        (3, 5),
    ] {
        print(height, rows);
    }
}
