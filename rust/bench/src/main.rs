//! Speed of the library, the second implementation and OpenSSL.

mod building;
mod hash_calls;
mod hashing;
mod mpc;
mod openssl;
mod price;
mod proofs;
mod published;
mod rows;
mod shared;
mod texts;

use openssl::OpenSsl;
use reference::small::Small;

fn main() {
    let openssl = OpenSsl::load();
    let message = vec![0x5a; 64 * 1024];
    hashing::table(&message, openssl.as_ref()).print();

    let [gates, groups] = [texts::of_gates(), texts::of_groups()];
    texts::table(&[("4096 gates", &gates), ("groups", &groups)]).print();

    building::table(&building::Circuits::new()).print();
    let list = Small::of(2, 1, 2).expect("sizes of small circuits");
    building::small_table(&list).print();

    let instance = mpc::Instance::worst();
    mpc::gates_table(&instance).print();
    mpc::challenge_table().print();
    proofs::print(openssl.as_ref());
    shared::print();
}
