// Networks of nodes with links, grounds and inflows, whose heads are found by elimination.
use multigrid::Matrix;
use multigrid::numbers::filled_value;
use star_mesh::{Factor, Pattern};
use std::alloc::{AllocError, Global};
use test_lines::{Answered, Page, head_at, number_at};

// Heads are found in units of 2^-20.
const PLACES: u32 = 20;

/// The ground of each node, the flow into each, and for each link its two nodes and its weight.
#[derive(Clone, Copy)]
struct Network<'a> {
    count: u32,
    grounds: &'a [i128],
    flows: &'a [i128],
    links: &'a [i128],
}

impl Network<'_> {
    fn of(numbers: &[i128]) -> Network<'_> {
        let count = number_at(numbers, 0);
        let first = count as usize + 1;
        let end = first + count as usize;
        Network {
            count,
            grounds: numbers.get(1..first).unwrap_or(&[]),
            flows: numbers.get(first..end).unwrap_or(&[]),
            links: numbers.get(end..).unwrap_or(&[]),
        }
    }

    // The row of a node: its links, and on the diagonal their sum with the ground.
    fn add_node(&self, matrix: &mut Matrix, node: u32) -> Answered {
        let mut sum = head_at(self.grounds, node as usize);
        for link in self.links.chunks_exact(3) {
            let (a, b, weight) = (number_at(link, 0), number_at(link, 1), head_at(link, 2));
            if a == node || b == node {
                let other = if a == node { b } else { a };
                matrix.couple(other, weight)?;
                sum = sum.saturating_add(weight);
            }
        }
        matrix.close_row(sum)
    }

    fn add_nodes(&self, matrix: &mut Matrix) -> Answered {
        for node in 0..self.count {
            self.add_node(matrix, node)?;
        }
        Ok(())
    }

    fn matrix(&self, alloc: Global) -> Result<Matrix, AllocError> {
        let mut matrix = Matrix::new(alloc);
        let added = self.add_nodes(&mut matrix);
        filled_value(matrix, added)
    }

    fn pattern(&self, alloc: Global, most: u32) -> Result<Option<Pattern>, AllocError> {
        let matrix = self.matrix(alloc)?;
        let pattern = Pattern::new(alloc, &matrix, u64::from(most));
        drop(matrix);
        pattern
    }

    fn push_heads(&self, page: &mut Page, pattern: &Pattern, factor: &mut Factor) {
        for (right, flow) in factor.right_side().iter_mut().zip(self.flows) {
            *right = flow.wrapping_shl(PLACES);
        }
        page.text("heads");
        for unknown in factor.solve(pattern, 2) {
            page.word(unknown.saturating_add(1 << 19) >> PLACES);
        }
        page.end();
    }

    // Whether a pattern fits, where that is asked, or the heads by it.
    fn push_by(&self, page: &mut Page, pattern: &Pattern, is_fit: bool) -> Answered {
        let matrix = self.matrix(page.alloc())?;
        if is_fit || !pattern.fits(&matrix) {
            page.line(format_args!("fits {}", pattern.fits(&matrix)));
            return Ok(drop(matrix));
        }
        let mut factor = Factor::new(page.alloc(), pattern, matrix)?;
        self.push_heads(page, pattern, &mut factor);
        Ok(drop(factor))
    }
}

/// The heads of a network, if finding them takes no more than a number of operations, the first one of the line; or whether the
/// pattern of a network without links fits this one.
pub fn push_network(page: &mut Page, numbers: &[i128], is_fit: bool) -> Answered {
    let most = if is_fit { 0 } else { number_at(numbers, 0) };
    let first = if is_fit { 0 } else { 1 };
    let network = Network::of(numbers.get(first..).unwrap_or(&[]));
    let links: &[i128] = if is_fit { &[] } else { network.links };
    let patterned = Network { links, ..network };
    let Some(pattern) = patterned.pattern(page.alloc(), most)? else {
        return Ok(page.line(format_args!("more than {most} operations")));
    };
    let answer = network.push_by(page, &pattern, is_fit);
    drop(pattern);
    answer
}
