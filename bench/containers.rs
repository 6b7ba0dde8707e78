// The look-ups of `vg_bench containers lookups COUNT` in std's HashMap with its default hasher: the same keys in the same order.
use std::collections::HashMap;

fn key_of(flow: u16) -> [u8; 13] {
    let product = (flow as u64).wrapping_mul(0x9e37_79b9_7f4a_7c15);
    let mixed = product.wrapping_mul(0xbf58_476d_1ce4_e5b9) ^ product >> 32;
    let x = product.to_le_bytes();
    let y = mixed.to_le_bytes();
    [
        x[0], x[1], x[2], x[3], x[4], x[5], x[6], x[7], y[0], y[1], y[2], y[3], y[4],
    ]
}

fn main() {
    let count: u32 = std::env::args()
        .nth(1)
        .and_then(|word| word.parse().ok())
        .expect("a count");
    let mut map: HashMap<[u8; 13], u32> = HashMap::with_capacity(65_536);
    for flow in 0..=u16::MAX {
        map.insert(key_of(flow), flow as u32);
    }
    let mut state: u64 = 1;
    let mut found = 0;
    for _ in 0..count {
        state = state
            .wrapping_mul(6_364_136_223_846_793_005)
            .wrapping_add(1_442_695_040_888_963_407);
        if map.get(&key_of((state >> 48) as u16)).is_some() {
            found += 1;
        }
    }
    println!("found {found}");
}
