//! Sent bytes that stand for content, some of it in pairs.

use crate::frame::ESCAPE;

/// Where the content bytes that are sent as pairs stand among the others.
#[derive(Clone, Copy, Debug)]
pub enum Order {
    First,
    Last,
    Spread,
}

pub const ORDERS: [Order; 3] = [Order::First, Order::Last, Order::Spread];

/// The second of these is a pair's last byte that stands alone, the last one is near an escape.
const PLAIN: [u8; 4] = [0x41, 0x5e, 0x00, 0x7c];

const PAIRS: [[u8; 2]; 2] = [[ESCAPE, 0x5e], [ESCAPE, 0x5d]];

/// The sent bytes of so much content, of which so many bytes are sent as pairs.
pub fn sent(content: usize, pairs: usize, order: Order) -> Vec<u8> {
    let is_pair = |place: usize| match order {
        Order::First => place < pairs,
        Order::Last => place + pairs >= content,
        // Just where the share of pairs gains a whole one.
        Order::Spread => (place + 1) * pairs / content > place * pairs / content,
    };
    let byte = |place: usize| match is_pair(place) {
        true => PAIRS[place % PAIRS.len()].to_vec(),
        false => vec![PLAIN[place % PLAIN.len()]],
    };
    (0..content).flat_map(byte).collect()
}

/// The fewest pairs among so many sent bytes that keep their content within a limit, if any do.
pub fn fewest_pairs(sent: usize, limit: usize) -> usize {
    sent.saturating_sub(limit).min(sent / 2)
}
