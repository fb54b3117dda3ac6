//! The example `game`, on the one thread that a page has:
//!
//! ```sh
//! cargo build --release --target wasm32-unknown-unknown && python3 -m http.server
//! ```
//!
//! Then http://localhost:8000 shows the ships and the drones of each frame, and at the end the
//! digest that the example prints.

#[allow(dead_code)] // It has a main of its own.
#[path = "../game.rs"]
mod game;

use game::Game;
use std::cell::RefCell;

thread_local! {
    static GAME: RefCell<Game> = RefCell::new(Game::new().expect("memory"));
    static DRAWN: RefCell<Vec<[i32; 3]>> = const { RefCell::new(Vec::new()) };
}

/// Plays a frame, and returns how many entities are alive.
#[no_mangle]
extern "C" fn frame() -> usize {
    GAME.with_borrow_mut(|game| {
        game.frame(1).expect("memory");
        let drawn = game.parts.bodies.iter().map(|(one, body)| {
            let is_drone = game.parts.ships.contains(one);
            [one.index() as i32, body.place, is_drone.into()]
        });
        DRAWN.with_borrow_mut(|all| {
            all.clear();
            all.extend(drawn);
            all.len()
        })
    })
}

/// Where they begin: of each its slot, its place, and 1 for a drone.
#[no_mangle]
extern "C" fn drawn() -> *const [i32; 3] {
    DRAWN.with_borrow(|all| all.as_ptr())
}

#[no_mangle]
extern "C" fn digest() -> u64 {
    GAME.with_borrow(|game| game.parts.digest())
}
