//! Unexpected differences: how many, and the smallest input of them.
use crate::frame::{Frame, Planes};
use crate::settings::Settings;

const SHOWN: usize = 64;

pub struct Difference {
    pub what: &'static str,
    pub settings: Settings,
    pub frame: Frame,
    pub source: Vec<u16>,
    pub expected: Planes,
    pub found: Planes,
}

impl Difference {
    fn size(&self) -> (usize, usize) {
        let frame = &self.frame;
        (frame.width * frame.height, self.source.len())
    }

    fn print(&self) {
        println!("  {}: {}, {}", self.what, self.settings, self.frame);
        print_start("source", &self.source);
        print_start("luma expected", &self.expected.luma);
        print_start("luma found", &self.found.luma);
        print_start("chroma expected", &self.expected.chroma);
        print_start("chroma found", &self.found.chroma);
    }
}

fn print_start(name: &str, words: &[u16]) {
    let more = if words.len() > SHOWN { " ..." } else { "" };
    println!("    {name} {:?}{more}", &words[..words.len().min(SHOWN)]);
}

#[derive(Default)]
pub struct Differences {
    count: usize,
    smallest: Option<Difference>,
}

impl Differences {
    pub fn add(&mut self, difference: Difference) {
        self.count += 1;
        let is_smaller = |known: &Difference| difference.size() < known.size();
        if self.smallest.as_ref().is_none_or(is_smaller) {
            self.smallest = Some(difference);
        }
    }

    pub fn is_empty(&self) -> bool {
        self.count == 0
    }

    pub fn print(&self) {
        println!("unexpected differences: {}", self.count);
        if let Some(smallest) = &self.smallest {
            println!("the smallest:");
            smallest.print();
        }
    }
}
