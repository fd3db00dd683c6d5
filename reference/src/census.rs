//! A census of small problems (document 02, 2.14), without proofs.

use crate::engine::solve_all;
use crate::record::BUFFER;

const MOST: u64 = 65_536;

/// How many problems there are, if so many are counted.
fn total(n: u64, m: u64, w: u64) -> Option<u64> {
    if w == 0 || w > 20_160 || n > 31 || m > 63 {
        return None;
    }
    let leads = 2 * (n + 1) * (m + 1);
    (0..leads).try_fold(1, |total, _| Some(total * (2 * w + 2)).filter(|total| *total <= MOST))
}

/// How many problems are least, bottomless, none, and under refusal 17; or refusal 27.
pub fn census(n: u64, m: u64, w: u64) -> Result<[u64; 4], u8> {
    let total = total(n, m, w).ok_or(27)?;
    let leads = 2 * (n + 1) * (m + 1);
    let (mut counts, mut buffer) = ([0; 4], [0; BUFFER]);
    for number in 0..total {
        let mut bytes = vec![6 + 4 * leads as u8, 0, 0, 0, 1, 0, n as u8, 0, m as u8, 0];
        let mut rest = number;
        for _ in 0..leads {
            let digit = (rest % (2 * w + 2)) as i32;
            rest /= 2 * w + 2;
            let lead = if digit == 0 { i32::MIN } else { digit - 1 - w as i32 };
            bytes.extend(lead.to_le_bytes());
        }
        let place = solve_all(&bytes, &mut buffer).map_or(3, |_| buffer[8] as usize - 1);
        counts[place] += 1;
    }
    Ok(counts)
}

fn joined(numbers: &[u64]) -> String {
    numbers.iter().map(u64::to_string).collect::<Vec<_>>().join(" ") + "\n"
}

/// The line of a census.
pub fn line(n: u64, m: u64, w: u64) -> String {
    census(n, m, w).map_or_else(|number| format!("refused {number}\n"), |counts| joined(&counts))
}

/// The handbook's table.
pub fn table() -> String {
    let mut table = String::from("n m w least bottomless none refused\n");
    for (n, m) in (0..32).flat_map(|n| (0..64).map(move |m| (n, m))) {
        for (w, counts) in (1..).map_while(|w| Some((w, census(n, m, w).ok()?))) {
            table += &joined(&[&[n, m, w], &counts[..]].concat());
        }
    }
    table
}
