//! Numbers that name nothing: the published conversions from numbers, and the library's answer to such settings.
use crate::caught;
use crate::frame::{Frame, Planes};
use crate::ours;
use crate::raw::ConvertedNumbers;
use crate::settings::Settings;
use published::{
    YuvBytesPacking, YuvChromaSubsampling, YuvEndianness, YuvNVOrder, YuvSourceChannels,
};

fn named<T: From<u8>>(number: u8) -> String {
    match caught::run(|| T::from(number)) {
        Ok(_) => "a name".to_string(),
        Err(message) => format!("panic: {message}"),
    }
}

fn answer(settings: Settings) -> ConvertedNumbers {
    let frame = Frame::whole(1, 1, [4, 1, 2]);
    ours::convert(&settings, &frame, &[0; 4], &mut Planes::filled(1, 2, 0))
}

fn print(what: &str, number: u32, theirs: String, settings: Settings) {
    println!("| {what} {number} | {theirs} | {} |", answer(settings));
}

pub fn run() {
    println!("Numbers of names, the greatest one and the first that names nothing");
    println!();
    println!("| number | crate | ours |");
    println!("|---|---|---|");
    let j = Settings::J;
    for number in [3, 4] {
        let theirs = named::<YuvSourceChannels>(number as u8);
        let channels = number;
        print("channels", number, theirs, Settings { channels, ..j });
    }
    for number in [2, 3] {
        let theirs = named::<YuvChromaSubsampling>(number as u8);
        let subsampling = number;
        print("subsampling", number, theirs, Settings { subsampling, ..j });
    }
    for number in [1, 2] {
        let theirs = named::<YuvNVOrder>(number as u8);
        print("order", number, theirs, Settings { order: number, ..j });
    }
    for number in [1, 2] {
        let theirs = named::<YuvBytesPacking>(number as u8);
        let packing = number;
        print("packing", number, theirs, Settings { packing, ..j });
    }
    for number in [1, 2] {
        let theirs = named::<YuvEndianness>(number as u8);
        let byte_order = number;
        print("byte order", number, theirs, Settings { byte_order, ..j });
    }
    for number in [1, 2] {
        let theirs = "no number".to_string();
        print("range", number, theirs, Settings { range: number, ..j });
    }
    for number in [4, 6] {
        let theirs = "no number".to_string();
        let matrix = number;
        print("matrix", number, theirs, Settings { matrix, ..j });
    }
}
