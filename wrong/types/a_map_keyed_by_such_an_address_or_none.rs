// Refused: the trait bound `SocketAddrV6: BorshKey` is not satisfied
// An option is a key only where its part is one.
use borsh::to_vec;
use std::collections::BTreeMap;
use std::net::SocketAddrV6;

fn main(rt: HostRuntime) {
    let map: BTreeMap<Option<SocketAddrV6>, u8> = BTreeMap::new(rt.alloc());
    let _ = to_vec(rt.alloc(), &map);
}
