//! Single calls of the erased code, and the values that they have to return: those that no line of
//! a case can write.

mod allocators;
mod claims;
mod devices;
mod faults;
mod handles;
mod inputs;
mod maps;
mod overflow;
mod queues;
mod replays;
mod storages;
