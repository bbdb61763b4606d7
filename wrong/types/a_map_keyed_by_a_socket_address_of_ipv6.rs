// Refused: the trait bound `SocketAddrV6: BorshKey` is not satisfied
// The flow and the scope of the address aren't written, so two keys could be written alike.
use borsh::to_vec;
use std::collections::BTreeMap;
use std::net::SocketAddrV6;

fn main(rt: HostRuntime) {
    let map: BTreeMap<SocketAddrV6, u8> = BTreeMap::new(rt.alloc());
    let _ = to_vec(rt.alloc(), &map);
}
