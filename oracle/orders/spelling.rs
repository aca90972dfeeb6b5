//! 02's request 2: the writer of an order's one spelling.
use super::reader::{operand_size, read, Fault, Order};

/// "puts settings as 01 to 06, and consecutive advances unchanged".
pub fn spelling(order: &[u8]) -> Result<Vec<u8>, Fault> {
    let Order { operands, budgets } = read(order)?;
    let mut bytes = Vec::new();
    for (command, operand) in (1..=6).zip(operands) {
        bytes.push(command);
        bytes.extend(&operand.to_le_bytes()[..operand_size(command).unwrap()]);
    }
    bytes.push(7);
    for budget in budgets {
        bytes.push(8);
        bytes.extend(budget.to_le_bytes());
    }
    bytes.push(9);
    Ok(bytes)
}

/// Writes the spelling into lent bytes and answers where it ends; or "17 for that shortage, after the reader's 1 to 4, all
/// with nothing written".
pub fn spell(order: &[u8], lent: &mut [u8]) -> String {
    match spelling(order) {
        Err(fault) => fault.to_string(),
        Ok(_) if lent.len() < order.len() => "refused 17".to_string(),
        Ok(bytes) => {
            lent[..bytes.len()].copy_from_slice(&bytes);
            format!("ends {}", bytes.len())
        }
    }
}
