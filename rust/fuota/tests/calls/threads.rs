//! No object goes to another thread, nor is it shared: this file is not compiled where one could.

use fuota::{Device, Receiver, Server};

/// Stands for each type once, and once more for one that goes to another thread: then it is not clear which is meant.
trait Stays<A> {
    const IT: () = ();
}

impl<T> Stays<()> for T {}
impl<T: Send> Stays<u8> for T {}

/// The same of one that is shared.
trait IsAlone<A> {
    const IT: () = ();
}

impl<T> IsAlone<()> for T {}
impl<T: Sync> IsAlone<u8> for T {}

const _: [(); 6] = [
    <Receiver as Stays<_>>::IT,
    <Device as Stays<_>>::IT,
    <Server as Stays<_>>::IT,
    <Receiver as IsAlone<_>>::IT,
    <Device as IsAlone<_>>::IT,
    <Server as IsAlone<_>>::IT,
];
