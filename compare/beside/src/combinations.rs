//! The combinations that the crate offers, read from the lines of its text that make a function each.
use published::{LOOPS, ROOT};

const MAKER: &str = "d_cnv!(";

struct Offered {
    function: String,
    channels: String,
    subsampling: String,
    name: String,
    depth: String,
    weights: String,
}

fn after_colons(path: &str) -> String {
    path.rsplit("::").next().unwrap_or(path).to_string()
}

fn offered(arguments: &str) -> Offered {
    let list: Vec<&str> = arguments.split(',').map(str::trim).collect();
    let [function, channels, subsampling, name, _, depth, weights] = list[..] else {
        panic!("a line that makes a function has seven parts: {arguments}");
    };
    Offered {
        function: function.to_string(),
        channels: after_colons(channels),
        subsampling: after_colons(subsampling),
        name: name.trim_matches('"').to_string(),
        depth: depth.to_string(),
        weights: weights.to_string(),
    }
}

fn all_offered() -> Vec<Offered> {
    let makers = LOOPS.split(MAKER).skip(1);
    let arguments = makers.map(|rest| rest.split(')').next().unwrap_or(rest));
    arguments.map(offered).collect()
}

/// The one name of an enumeration that the maker itself sets for every function.
fn fixed(enumeration: &str) -> String {
    let start = format!("{{ {enumeration}::");
    let mut rest = LOOPS.split(&start).skip(1);
    let name = rest.next().and_then(|text| text.split(' ').next());
    assert!(rest.next().is_none(), "{enumeration} is set once");
    name.expect("the maker sets it").to_string()
}

fn is_exported(function: &str) -> bool {
    let mut words = ROOT.split(|c: char| !c.is_alphanumeric() && c != '_');
    words.any(|word| word == function)
}

pub fn run() -> bool {
    let order = fixed("YuvNVOrder");
    let byte_order = fixed("YuvEndianness");
    let packing = fixed("YuvBytesPacking");
    println!("| function | depth | channels | named | subsampling | order | packing | byte order | weights | exported |");
    println!("|---|---|---|---|---|---|---|---|---|---|");
    let list = all_offered();
    for o in &list {
        let exported = if is_exported(&o.function) {
            "yes"
        } else {
            "no"
        };
        println!(
            "| `{}` | {} | {} | {} | {} | {order} | {packing} | {byte_order} | {} | {exported} |",
            o.function, o.depth, o.channels, o.name, o.subsampling, o.weights
        );
    }
    println!();
    println!("{} functions", list.len());
    true
}
