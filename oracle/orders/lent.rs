//! Lent bytes: what a call of the writer answers and leaves there. crates/order_cases/src/lent.rt does the same.
use super::digest;
use super::spelling::spell;

/// How many more bytes than the order has the last call lends.
pub const MORE: usize = 3;

/// The order spelled into one byte less than it has (not where it has none), into as many and into more.
pub fn line(order: &[u8]) -> String {
    let n = order.len();
    let rooms = n.checked_sub(1).into_iter().chain([n, n + MORE]);
    rooms.fold("spelled".to_string(), |line, room| line + &call(order, room))
}

/// How many bytes are lent, the answer, and a digest of all of them afterwards.
pub fn call(order: &[u8], room: usize) -> String {
    let mut lent: Vec<u8> = (0..room).map(|i| (37 * i + 11) as u8).collect();
    let answer = spell(order, &mut lent);
    format!(" in {room} {answer} {}", digest(&lent))
}
