//! Sizes, strides and lengths: what the crate's check of the buffer says, what its loops then do, and what the library says.
use super::inputs::{self, Buffer, Input};
use super::trial::Trial;
use crate::caught;
use crate::settings::SUBSAMPLINGS;
use crate::theirs;
use published::checks;

/// As many elements of no size as a length can count, so that a check can be asked about any length.
static ELEMENTS: [(); usize::MAX] = [(); usize::MAX];
const CHANNELS: usize = 3;
const ACCEPTED: &str = "Ok";

/// The answer of the check that is meant for the buffer, or why it cannot be asked.
fn asked(input: &Input) -> String {
    let short = |size: u64| u32::try_from(size).ok();
    let sizes = (short(input.width), short(input.height), short(input.stride));
    let (Some(width), Some(height), Some(stride)) = sizes else {
        return "cannot be called: over 32 bits".to_string();
    };
    let elements = &ELEMENTS[..input.length as usize];
    let answer = caught::run(|| match input.buffer {
        Buffer::Source => checks::source(elements, stride, width, height, CHANNELS),
        Buffer::Luma => checks::luma(elements, stride, width, height),
        Buffer::Chroma => {
            let subsampling = (input.subsampling as u8).into();
            checks::chroma(elements, stride, width, height, subsampling)
        }
    });
    match answer {
        Ok(Ok(())) => ACCEPTED.to_string(),
        Ok(Err(error)) => theirs::error_name(&error),
        Err(message) => format!("panic: {message}"),
    }
}

fn print(input: &Input) {
    let answer = asked(input);
    let trial = Trial::new(input);
    let ours = match &trial {
        Some(trial) => trial.ours().to_string(),
        None => "not called: no room".to_string(),
    };
    let then = match &trial {
        Some(trial) if answer == ACCEPTED => trial.theirs(),
        _ => "-".to_string(),
    };
    println!(
        "| {} | {} | {} x {} | {} | {} | {answer} | {then} | {ours} |",
        input.why,
        SUBSAMPLINGS[input.subsampling as usize],
        input.width,
        input.height,
        input.stride,
        input.length
    );
}

pub fn run() {
    for (buffer, inputs) in inputs::all() {
        let check = match buffer {
            Buffer::Source => "Source of Rgb, `check_rgba_destination`",
            Buffer::Luma => "Luma, `check_y8_channel`",
            Buffer::Chroma => "Chroma, `check_interleaved_chroma_channel`",
        };
        println!("{check}");
        println!();
        println!("| input | subsampling | size | stride | length | crate's check | crate's loops then | ours |");
        println!("|---|---|---|---|---|---|---|---|");
        inputs.iter().for_each(print);
        println!();
    }
    println!("Before the loops the checks of all three buffers are asked; 'whole' is every visible element as the loops write it with exact lengths.");
    println!("The text has two checks more, `check_yuv_packed422` and `check_chroma_channel`, for packed frames and for planes of one chroma each; no loop here asks them.");
}
