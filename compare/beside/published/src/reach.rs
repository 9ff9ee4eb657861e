// Included after the loops, into their module: each function turns one number of the choice into a constant.

type Answer = Option<Result<(), YuvError>>;

fn run<J, const C: u8, const O: u8, const S: u8, const B: u8, const K: u8, const D: u8>(
    call: Call,
) -> Answer
where
    J: AsPrimitive<i32> + Send + Sync,
    i32: AsPrimitive<J>,
{
    let Call {
        image,
        source,
        source_stride,
        range,
        matrix,
    } = call;
    Some(rgbx_to_yuv_bi_planar_10_impl::<J, C, O, S, B, K, D>(
        image,
        source,
        source_stride,
        range,
        matrix,
    ))
}

// The crate casts weights to i16 at 10 and 12 bits and to i32 at 16; it has no other depth, and the others below 16 follow 10 and 12.
fn by_depth<const C: u8, const O: u8, const S: u8, const B: u8, const K: u8>(
    choice: Choice,
    call: Call,
) -> Answer {
    match choice.depth {
        10 => run::<i16, C, O, S, B, K, 10>(call),
        11 => run::<i16, C, O, S, B, K, 11>(call),
        12 => run::<i16, C, O, S, B, K, 12>(call),
        13 => run::<i16, C, O, S, B, K, 13>(call),
        14 => run::<i16, C, O, S, B, K, 14>(call),
        15 => run::<i16, C, O, S, B, K, 15>(call),
        16 => run::<i32, C, O, S, B, K, 16>(call),
        _ => None,
    }
}

fn by_packing<const C: u8, const O: u8, const S: u8, const B: u8>(
    choice: Choice,
    call: Call,
) -> Answer {
    match choice.packing {
        0 => by_depth::<C, O, S, B, 0>(choice, call),
        1 => by_depth::<C, O, S, B, 1>(choice, call),
        _ => None,
    }
}

fn by_byte_order<const C: u8, const O: u8, const S: u8>(choice: Choice, call: Call) -> Answer {
    match choice.byte_order {
        0 => by_packing::<C, O, S, 0>(choice, call),
        1 => by_packing::<C, O, S, 1>(choice, call),
        _ => None,
    }
}

fn by_subsampling<const C: u8, const O: u8>(choice: Choice, call: Call) -> Answer {
    match choice.subsampling {
        0 => by_byte_order::<C, O, 0>(choice, call),
        1 => by_byte_order::<C, O, 1>(choice, call),
        2 => by_byte_order::<C, O, 2>(choice, call),
        _ => None,
    }
}

fn by_order<const C: u8>(choice: Choice, call: Call) -> Answer {
    match choice.order {
        0 => by_subsampling::<C, 0>(choice, call),
        1 => by_subsampling::<C, 1>(choice, call),
        _ => None,
    }
}

pub fn reach(choice: Choice, call: Call) -> Answer {
    match choice.channels {
        0 => by_order::<0>(choice, call),
        1 => by_order::<1>(choice, call),
        2 => by_order::<2>(choice, call),
        3 => by_order::<3>(choice, call),
        _ => None,
    }
}

fn wide_by_depth<const C: u8, const S: u8>(choice: Choice, call: Call) -> Answer {
    match choice.depth {
        10 => run::<i32, C, 0, S, 1, 0, 10>(call),
        11 => run::<i32, C, 0, S, 1, 0, 11>(call),
        12 => run::<i32, C, 0, S, 1, 0, 12>(call),
        13 => run::<i32, C, 0, S, 1, 0, 13>(call),
        14 => run::<i32, C, 0, S, 1, 0, 14>(call),
        15 => run::<i32, C, 0, S, 1, 0, 15>(call),
        _ => None,
    }
}

fn wide_by_subsampling<const C: u8>(choice: Choice, call: Call) -> Answer {
    match choice.subsampling {
        0 => wide_by_depth::<C, 0>(choice, call),
        1 => wide_by_depth::<C, 1>(choice, call),
        2 => wide_by_depth::<C, 2>(choice, call),
        _ => None,
    }
}

// Only what the crate offers of order, packing and byte order: the cast of a weight comes before all three.
pub fn reach_wide(choice: Choice, call: Call) -> Answer {
    match (
        choice.order,
        choice.packing,
        choice.byte_order,
        choice.channels,
    ) {
        (0, 0, 1, 0) => wide_by_subsampling::<0>(choice, call),
        (0, 0, 1, 1) => wide_by_subsampling::<1>(choice, call),
        (0, 0, 1, 2) => wide_by_subsampling::<2>(choice, call),
        (0, 0, 1, 3) => wide_by_subsampling::<3>(choice, call),
        _ => None,
    }
}
