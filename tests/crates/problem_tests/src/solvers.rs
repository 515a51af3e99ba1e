// A system whose solution is known, and inner products of unknowns and residuals at their limits.
use multigrid::numbers::filled_value;
use multigrid::scaled::{Scaled, inner_product};
use multigrid::{Budget, Levels, Matrix};
use std::alloc::{AllocError, Global};
use test_lines::{Answered, Page};

const WEIGHT: i64 = 1_000;

const ONE: i64 = 1_073_741_824;

// Couples unknowns in a row, each with the next one, and the first and the last with 1 as well.
fn couple(matrix: &mut Matrix, count: u32) -> Answered {
    for i in 0..count {
        for other in [i.wrapping_sub(1), i.wrapping_add(1)] {
            if other < count {
                matrix.couple(other, WEIGHT)?;
            }
        }
        matrix.close_row(2 * WEIGHT)?;
    }
    Ok(())
}

/// Solves the system of `count` unknowns in a row between ones, each of which is one, and puts how many are.
pub fn push_system(page: &mut Page, count: u32) -> Answered {
    let mut matrix = Matrix::new(page.alloc());
    let coupled = couple(&mut matrix, count);
    let mut levels = Levels::new(page.alloc(), filled_value(matrix, coupled)?)?;
    let right = levels.right_side();
    let rows = right.len();
    if let Some(first) = right.first_mut() {
        *first = WEIGHT as i128 * ONE as i128;
    }
    if let Some(last) = right.last_mut() {
        *last = WEIGHT as i128 * ONE as i128;
    }
    let mut budget = Budget::new(1_000, count as usize);
    let unknowns = levels.solve(30, 4, &mut budget);
    let all = unknowns.len();
    let ones = unknowns.iter().filter(|x| x.abs_diff(ONE) < 65_536).count();
    drop(levels);
    let spent = budget.is_spent();
    page.line(format_args!("rows {rows} unknowns {all} ones {ones} spent {spent}"));
    Ok(())
}

// 2^16 and 2^21: units of the leading 44 bits of an unknown below 2^60 and of the leading 60 bits of a residual below 2^81.
const UNKNOWN_UNIT: i64 = 65_536;

const RESIDUAL_UNIT: i128 = 2_097_152;

// 2^60 - 2^16 and 2^81 - 2^21: all leading bits are ones.
const UNKNOWN: i64 = 1_152_921_504_606_781_440;

const RESIDUAL: i128 = 2_417_851_639_229_258_347_315_200;

const OPPOSITE: i128 = -2_417_851_639_229_258_347_315_200;

// The inner product of unknowns at their limit with `half` residuals at theirs and as many others, and of a unit of each.
fn product(alloc: Global, half: u32, other: i128) -> Result<Scaled, AllocError> {
    let mut unknowns = Vec::new(alloc);
    let mut residuals = Vec::new(alloc);
    for residual in [RESIDUAL, other] {
        for _ in 0..half {
            unknowns.push(UNKNOWN)?;
            residuals.push(residual)?;
        }
    }
    unknowns.push(UNKNOWN_UNIT)?;
    residuals.push(RESIDUAL_UNIT)?;
    Ok(inner_product(unknowns.as_slice(), residuals.as_slice()))
}

/// Puts two quotients in units of 2^-20: of the greatest inner product by that of its first half, and of one whose halves
/// cancel but for a unit by that unit.
pub fn push_products(page: &mut Page, half: u32) -> Answered {
    let alloc = page.alloc();
    let twice = product(alloc, half, RESIDUAL)?.over(product(alloc, half, 0)?);
    let once = product(alloc, half, OPPOSITE)?.over(product(alloc, 0, 0)?);
    page.line(format_args!("all by half {twice} rest by unit {once}"));
    Ok(())
}
