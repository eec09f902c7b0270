//! #112: K divided among ten parts, the seven risks, PC, credit and market, by their margins.

use crate::*;
use std::cmp::Reverse;

/// "ten parts, the seven risks, PC, credit and market", numbered from 1 in this order.
pub const PARTS: usize = RISKS + 3;

/// The shares call: a share in cents for each part.
pub fn shares_call(b: &[u64; BLOCK_NUMBERS]) -> Result<[u64; PARTS], Refusal> {
    // 23 comes "after the block's own tests".
    let k = k_of(b)?;
    let margins = margins(b, k).ok_or(Refusal::nowhere(23))?;
    // "K × margin ÷ sum of margins", "first rounded down".
    let (k, sum) = (u128::from(k), margins.iter().map(|&margin| u128::from(margin)).sum::<u128>());
    let mut shares = margins.map(|margin| k * u128::from(margin) / sum);
    let remainders = margins.map(|margin| k * u128::from(margin) % sum);
    // "the cents left over go one each to the parts with the largest remainders, equal ones by lower number".
    let mut parts: Vec<usize> = (0..PARTS).collect();
    parts.sort_by_key(|&part| (Reverse(remainders[part]), part));
    let left_over = k - shares.iter().sum::<u128>();
    for &part in &parts[..left_over as usize] {
        shares[part] += 1;
    }
    Ok(shares.map(|share| share as u64))
}

/// The reported K.
fn k_of(b: &[u64; BLOCK_NUMBERS]) -> Result<u64, Refusal> {
    block_call(b).map(|[_, _, _, _, k, ..]| k)
}

/// "A part's margin is the reported K less the reported K with that part's amounts zero"; none where one is negative or all are
/// zero.
fn margins(b: &[u64; BLOCK_NUMBERS], k: u64) -> Option<[u64; PARTS]> {
    let mut margins = [0; PARTS];
    for (part, margin) in margins.iter_mut().enumerate() {
        *margin = k.checked_sub(k_of(&without(b, part)).expect("a part of an accepted block"))?;
    }
    margins.iter().any(|&margin| margin > 0).then_some(margins)
}

/// The block without a part, counted from 0: a risk has IR and LT, the others one amount.
fn without(b: &[u64; BLOCK_NUMBERS], part: usize) -> [u64; BLOCK_NUMBERS] {
    let mut b = *b;
    if part < RISKS {
        (b[2 * part], b[2 * part + 1]) = (0, 0);
    } else {
        b[RISKS + part] = 0;
    }
    b
}

/// Of an accepted block: do these shares keep what is promised of them? They total K; each is less than a cent from the unrounded
/// one; a part without margin has none; and of two parts one that got a cent has the larger remainder, or the same and the lower
/// number.
pub fn judge_shares(b: &[u64; BLOCK_NUMBERS], shares: &[u64; PARTS]) -> Result<(), String> {
    let k = k_of(b).map_err(|refusal| format!("refused: {refusal:?}"))?;
    let margins = margins(b, k).ok_or("a margin is negative, or all are zero")?;
    if shares.iter().map(|&share| u128::from(share)).sum::<u128>() != u128::from(k) {
        return Err(format!("the shares don't total K, {k}"));
    }
    let sum: u128 = margins.iter().map(|&margin| u128::from(margin)).sum();
    // Share and unrounded share, each times the sum of margins.
    let scaled: Vec<(u128, u128)> = shares
        .iter()
        .zip(margins)
        .map(|(&share, margin)| (u128::from(share) * sum, u128::from(k) * u128::from(margin)))
        .collect();
    for (part, &(share, exact)) in scaled.iter().enumerate() {
        if share.abs_diff(exact) >= sum {
            return Err(format!("the share of part {} is a cent or more from the unrounded one", part + 1));
        }
        if exact == 0 && share > 0 {
            return Err(format!("part {} has no margin and a share", part + 1));
        }
    }
    // A share above the unrounded one was rounded up.
    for (up, &(share, exact)) in scaled.iter().enumerate().filter(|(_, (share, exact))| share > exact) {
        for (down, &(other, unrounded)) in scaled.iter().enumerate().filter(|(_, (share, exact))| share <= exact) {
            let (remainder, rest) = (exact + sum - share, unrounded - other);
            if (remainder, Reverse(up)) < (rest, Reverse(down)) {
                return Err(format!("part {} got a cent before part {}", up + 1, down + 1));
            }
        }
    }
    Ok(())
}
