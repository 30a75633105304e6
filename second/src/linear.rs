//! Gaussian elimination over the rational numbers.

use crate::rational::Rational;

pub type Vector = Vec<Rational>;

/// A vector of whole numbers as a vector of rational numbers.
pub fn rational_vector(whole: &[i64]) -> Vector {
    whole.iter().map(|&component| Rational::whole(component)).collect()
}

/// The unit vector with 1 at the given place.
pub fn unit_vector(length: usize, place: usize) -> Vector {
    let mut unit = vec![Rational::ZERO; length];
    unit[place] = Rational::ONE;
    unit
}

pub fn difference(left: &[Rational], right: &[Rational]) -> Vector {
    left.iter().zip(right).map(|(&a, &b)| a - b).collect()
}

pub fn is_zero(vector: &[Rational]) -> bool {
    vector.iter().all(|component| component.is_zero())
}

/// Brings the first `width` columns of the matrix to reduced row echelon form, in place: each pivot
/// is 1 and stands alone in its column, the first pivot in the first row and so on. Answers the
/// columns that have a pivot.
fn reduce(matrix: &mut [Vector], width: usize) -> Vec<usize> {
    let mut pivots: Vec<usize> = Vec::new();
    for column in 0..width {
        let top = pivots.len();
        let Some(found) = (top..matrix.len()).find(|&row| !matrix[row][column].is_zero()) else {
            continue;
        };
        matrix.swap(top, found);
        scale_to_pivot(&mut matrix[top], column);
        clear_column(matrix, top, column);
        pivots.push(column);
    }
    pivots
}

/// Divides a row by its entry in the given column.
fn scale_to_pivot(row: &mut Vector, column: usize) {
    let pivot = row[column];
    for entry in row.iter_mut() {
        *entry = *entry / pivot;
    }
}

/// Subtracts multiples of the pivot's row from all other rows, so that their entry in the pivot's
/// column becomes 0.
fn clear_column(matrix: &mut [Vector], pivot_row: usize, column: usize) {
    let subtracted = matrix[pivot_row].clone();
    for (row, entries) in matrix.iter_mut().enumerate() {
        let factor = entries[column];
        if row == pivot_row || factor.is_zero() {
            continue;
        }
        for (entry, &above) in entries.iter_mut().zip(&subtracted) {
            *entry = *entry - factor * above;
        }
    }
}

/// The rank of the matrix whose rows are the given vectors.
pub fn rank(rows: &[Vector]) -> usize {
    let width = rows.first().map_or(0, Vec::len);
    let mut matrix = rows.to_vec();
    reduce(&mut matrix, width).len()
}

/// Whether the vectors are linearly independent. No vectors at all are; a zero vector never is.
pub fn are_independent(vectors: &[Vector]) -> bool {
    rank(vectors) == vectors.len()
}

/// The coefficients with which the vectors, which must be linearly independent, add up to the
/// target; none if the target is no combination of them.
pub fn coefficients(vectors: &[Vector], target: &[Rational]) -> Option<Vector> {
    let width = vectors.len();
    let mut matrix: Vec<Vector> = (0..target.len())
        .map(|place| {
            let mut row: Vector = vectors.iter().map(|vector| vector[place]).collect();
            row.push(target[place]);
            row
        })
        .collect();
    let pivots = reduce(&mut matrix, width);
    assert_eq!(pivots.len(), width, "the vectors are not linearly independent");
    let left_over = matrix[width..].iter().any(|row| !row[width].is_zero());
    if left_over {
        return None;
    }
    Some(matrix[..width].iter().map(|row| row[width]).collect())
}

#[cfg(test)]
mod tests {
    use super::*;

    fn vectors(whole: &[&[i64]]) -> Vec<Vector> {
        whole.iter().map(|vector| rational_vector(vector)).collect()
    }

    #[test]
    fn ranks() {
        assert_eq!(rank(&vectors(&[])), 0);
        assert_eq!(rank(&vectors(&[&[0, 0]])), 0);
        assert_eq!(rank(&vectors(&[&[1, 2], &[2, 4]])), 1);
        assert_eq!(rank(&vectors(&[&[2, -1, -1], &[-1, 2, -1], &[-1, -1, 2]])), 2);
        assert_eq!(rank(&vectors(&[&[1, 0, 0, 2], &[0, 1, 0, 3], &[2, -1, 0, 1]])), 2);
        assert_eq!(rank(&vectors(&[&[1, 0, 0, 2], &[0, 1, 0, 3], &[2, -1, 0, 2]])), 3);
        assert!(are_independent(&vectors(&[&[0, 1, 0], &[1, 0, 0]])));
        assert!(!are_independent(&vectors(&[&[0, 0, 0]])));
    }

    #[test]
    fn coefficients_of_a_combination() {
        let chosen = vectors(&[&[1, 1, 0], &[0, 2, 2]]);
        let target = rational_vector(&[3, 4, 1]);
        let expected = vec![Rational::whole(3), Rational::new(1, 2)];
        assert_eq!(coefficients(&chosen, &target), Some(expected));
        assert_eq!(coefficients(&chosen, &rational_vector(&[0, 0, 1])), None);
    }

    /// 2 (1,0,0,1) - 3 (0,1,0,1) + (0,0,1,1) = (2,-3,1,0), and with any other last component it is
    /// none of theirs.
    #[test]
    fn coefficients_of_three_vectors() {
        let chosen = vectors(&[&[1, 0, 0, 1], &[0, 1, 0, 1], &[0, 0, 1, 1]]);
        let reached = coefficients(&chosen, &rational_vector(&[2, -3, 1, 0]));
        assert_eq!(reached, Some([2, -3, 1].map(Rational::whole).to_vec()));
        assert_eq!(coefficients(&chosen, &rational_vector(&[2, -3, 1, 1])), None);
    }

    #[test]
    fn no_vectors_reach_zero_only() {
        assert_eq!(coefficients(&[], &rational_vector(&[0, 0])), Some(vec![]));
        assert_eq!(coefficients(&[], &rational_vector(&[0, 1])), None);
    }
}
