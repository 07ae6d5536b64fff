//! noise: how often a row of speckled cloth shows an outline, by the safe wrapper `lcr_ring`. Prints what examples/c/noise.c prints.
mod lcr_ring;
use lcr_ring::{Refusal, rows_without};

/// n / 2^length as a percentage, rounded to hundredths, a half up. A part of all rows is neither 0 nor 100 %.
fn percentage(n: u64, length: u32) -> String {
    let all = 1u128 << length;
    match (n, (20_000 * n as u128 + all) / (2 * all)) {
        (0, _) => "0".to_string(),
        (_, 0) => "< 0.01".to_string(),
        (_, 10_000) => "> 99.99".to_string(),
        (_, h) => format!("{}.{:02}", h / 100, h % 100),
    }
}

fn main() -> Result<(), Refusal> {
    println!("| pixels | run 2 | run 3 | run 4 | run 5 | run 6 | run 7 | run 8 | under 1 % from |");
    println!("|---|---|---|---|---|---|---|---|---|");
    for length in 0..=60 {
        let all = 1u64 << length;
        let rows = (2..=8).map(|run| Ok(all - rows_without(run, length)?)).collect::<Result<Vec<_>, Refusal>>()?;
        let cells = rows.iter().map(|&n| percentage(n, length)).collect::<Vec<_>>();
        let least = (2..).zip(&rows).find(|(_, n)| 100 * (**n as u128) < all as u128);
        let least = least.map_or("none".to_string(), |(run, _)| format!("run {run}"));
        println!("| {length} | {} | {least} |", cells.join(" | "));
    }
    Ok(())
}

/// Over all answers the rows of 12 pixels add up to 2^12, and what is out of range is refused.
#[test]
fn rows_add_up() {
    for run in 2..=8 {
        let pairs = (0..12).flat_map(|f| (0..12).map(move |l| lcr_ring::rows_with(run, 12, f, l).unwrap()));
        assert_eq!(rows_without(run, 12).unwrap() + pairs.sum::<u64>(), 1 << 12);
    }
    assert_eq!(rows_without(4, 4), Ok(15));
    assert_eq!(rows_without(9, 61), Err(Refusal(17)));
    assert_eq!(rows_without(8, 61), Err(Refusal(22)));
    assert_eq!(lcr_ring::rows_with(4, 12, 0, 12), Err(Refusal(22)));
}
