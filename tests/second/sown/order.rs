//! How a fault of order is sown in the rows that can refuse something.

/// One row is tested before another. Nothing moves where one of the two is not
/// tested at all.
pub fn move_before<Row: Copy + PartialEq>(rows: &mut Vec<Row>, moved: Row, other: Row) {
    if rows.contains(&moved) && rows.contains(&other) {
        rows.retain(|row| *row != moved);
        let target = rows.iter().take_while(|row| **row != other).count();
        rows.insert(target, moved);
    }
}
