// Types as a program has them; the driver has the same ones for the original.
use std::net::IpAddr;

/// Twelve fields of most kinds.
// derive: borsh
#[derive(Drop)]
pub struct Order {
    pub number: u64,
    pub buyer: String,
    pub seller: [u8; 32],
    pub amount: u128,
    pub change: i64,
    pub is_open: bool,
    pub note: Option<String>,
    pub tags: Vec<String>,
    pub parts: Vec<u32>,
    pub share: f64,
    pub place: (u8, u16),
    pub address: IpAddr,
}

/// A small one.
// derive: borsh
#[derive(Drop)]
pub struct Transfer {
    pub from: [u8; 32],
    pub to: [u8; 32],
    pub amount: u64,
    pub nonce: u32,
}
