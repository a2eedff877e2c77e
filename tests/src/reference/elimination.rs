//! "a matrix is fit when no choice of digits, not all 0, makes the rows so
//! multiplied add to the zero row modulo 3": such a choice exists where the rank
//! is less than the number of rows.

/// The sum of two digits. It does not look for overflow, so that many are added at
/// once: the tests judge many matrices.
fn sum(a: u8, b: u8) -> u8 {
    let sum = a.wrapping_add(b);
    if sum < 3 {
        sum
    } else {
        sum.wrapping_sub(3)
    }
}

/// Adds digits to others, place by place.
pub(super) fn add(digits: &mut [u8], others: &[u8]) {
    for (digit, other) in digits.iter_mut().zip(others) {
        *digit = sum(*digit, *other);
    }
}

/// The rank of rows of digits, all of one length, by elimination: column by
/// column, a row with a digit there is brought up, and so often added to the rows
/// below it that they have 0 there.
pub fn rank(mut rows: Vec<Vec<u8>>) -> usize {
    let columns = rows.first().map_or(0, Vec::len);
    let mut done = 0;
    for column in 0..columns {
        let Some(found) = (done..rows.len()).find(|&i| rows[i][column] != 0) else {
            continue;
        };
        rows.swap(done, found);
        let (above, below) = rows.split_at_mut(done + 1);
        let brought = &above[done];
        for row in below {
            while row[column] != 0 {
                add(row, brought);
            }
        }
        done += 1;
    }
    done
}

/// Whether rows are tied.
pub fn tied(rows: Vec<Vec<u8>>) -> bool {
    let count = rows.len();
    rank(rows) < count
}

/// Whether the rows multiplied by these digits add to the zero row.
pub fn adds_to_zero(rows: &[Vec<u8>], digits: &[u8]) -> bool {
    let columns = rows.first().map_or(0, Vec::len);
    let term = |(row, digit): (&Vec<u8>, &u8), j: usize| usize::from(row[j] * digit);
    let sum = |j| rows.iter().zip(digits).map(|each| term(each, j)).sum::<usize>();
    (0..columns).all(|j| sum(j) % 3 == 0)
}

/// The words of the condition: of all choices of digits but that of zeros, those whose
/// rows so multiplied add to the zero row. For few rows.
pub fn choices_to_zero(rows: &[Vec<u8>]) -> Vec<Vec<u8>> {
    let digit = |choice: usize, i: usize| (choice / 3usize.pow(i as u32) % 3) as u8;
    let choices = 1..3usize.pow(rows.len() as u32);
    let choices = choices.map(|choice| (0..rows.len()).map(|i| digit(choice, i)).collect());
    choices.filter(|digits: &Vec<u8>| adds_to_zero(rows, digits)).collect()
}

#[cfg(test)]
mod tests {
    use super::{choices_to_zero, rank, tied};
    use crate::matrices::small;
    use crate::random::{report, Random};

    #[test]
    fn rows_are_tied_as_the_words_say() {
        let mut random = Random::for_test("ties by their words");
        let (count, mut found) = (4_000, [0; 2]);
        for _ in 0..count {
            let (height, columns) = (random.below(6), 1 + random.below(7));
            let rows = small(&mut random, height, columns);
            let right = !choices_to_zero(&rows).is_empty();
            found[usize::from(right)] += 1;
            assert_eq!(tied(rows.clone()), right, "{rows:?}");
        }
        assert!(found.iter().all(|times| *times > count / 10), "{found:?}");
        report("reference: ties by their words", count);
    }

    #[test]
    fn ranks_of_known_rows() {
        assert_eq!(rank(vec![]), 0);
        assert_eq!(rank(vec![vec![]; 3]), 0);
        assert_eq!(rank(vec![vec![0, 0], vec![0, 0]]), 0);
        assert_eq!(rank(vec![vec![0, 2], vec![0, 1]]), 1);
        assert_eq!(rank(vec![vec![0, 2], vec![1, 1]]), 2);
        assert_eq!(rank(vec![vec![1, 1, 0], vec![0, 1, 1], vec![1, 2, 1]]), 2);
        assert_eq!(rank(vec![vec![1], vec![2], vec![0]]), 1);
    }
}
