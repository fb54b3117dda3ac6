//! A game in lockstep over TCP: a host on one worker, a guest on four, and a third player who joins
//! by an image. No machine waits for late inputs: a machine plays the player's last one, and steps
//! back if another one comes. Eight frames later it compares a digest of its world with the
//! others'.
//!
//! In a second game the guest's machine loses an entity in frame 100. The digests after that frame
//! differ, and the images of both machines say in which slot. It prints
//!
//! ```text
//! frame 120: a third player joins by 10082 bytes
//! 240 frames: the same digest after each, ba7c5053aa496494 at the end
//! late inputs: 29 frames played again
//! a machine that goes wrong in frame 100: slot 159 differs first
//! ```
//!
//! What is played when depends on the messages alone, so it is the same each time.

use forgeni::{fill_in_blocks, BlockSize, Blocks, ComponentId, Handle, View, World};
use forgeni::{OutOfMemory, StdThreads, WorldCommands};
use std::io::{Read, Write};
use std::net::{TcpListener, TcpStream};
use std::process::{Child, Command};
use std::{env, time::Duration};

/// An error from any thread.
type Result<T> = std::result::Result<T, Box<dyn std::error::Error + Send + Sync>>;

const FRAMES: usize = 240;
const PLAYERS: usize = 3;
const SYSTEMS: usize = 4;
/// After this many frames each machine knows all inputs, and none steps back further.
const LAG: usize = 8;
const KEPT: usize = LAG + 2;
/// The frame from which on the third player plays, and the one that goes wrong in the second game.
const JOINS: usize = 120;
const WRONG: usize = 100;
/// The most bytes and the most slots that an image from elsewhere may have.
const MOST: u32 = 1 << 20;
const ENERGY: ComponentId = ComponentId(0);

/// A pseudo-random number (the steps of splitmix64).
fn mixed(number: u64) -> u64 {
    let mut all = number.wrapping_add(0x9e37_79b9_7f4a_7c15);
    all = (all ^ all >> 30).wrapping_mul(0xbf58_476d_1ce4_e5b9);
    all = (all ^ all >> 27).wrapping_mul(0x94d0_49bb_1331_11eb);
    all ^ all >> 31
}

/// What a player does in a frame: mostly the same as before, and never 0, which means unknown.
fn input(player: usize, frame: usize) -> u64 {
    mixed((PLAYERS * (frame / 3) + player) as u64) | 1
}

/// By how many frames a player's input comes late: mostly by none.
fn late(player: usize, frame: usize) -> usize {
    (mixed(!(PLAYERS * frame + player) as u64) % 16).saturating_sub(12) as usize
}

#[derive(Clone)]
struct Game {
    world: World,
    /// How many handles each system's block has in the next frame.
    sizes: [BlockSize; SYSTEMS],
}

impl Game {
    fn new() -> Result<Self> {
        let (mut world, sizes) = (World::new(), [BlockSize::new(4096); SYSTEMS]);
        for seed in 0..100 {
            world.spawn(&[(ENERGY, mixed(seed) as i64)])?;
        }
        Ok(Self { world, sizes })
    }

    /// One frame. Of a system's entities some spawn two more, some go, and the others change.
    fn step(&mut self, inputs: [u64; PLAYERS], workers: usize) -> Result<()> {
        let input = inputs.into_iter().fold(0, |all, one| mixed(all ^ one));
        let systems: [_; SYSTEMS] = std::array::from_fn(|system| {
            move |view: &View<'_>, commands: &mut WorldCommands<'_, Blocks>| {
                let all = view.with(ENERGY)?;
                let crowd = all.len() as u64;
                let is_own = |it: &Handle| it.index() as usize % SYSTEMS == system;
                for one in all.into_iter().filter(is_own) {
                    let energy = view.get(one, ENERGY).unwrap_or(0) as u64;
                    let luck = mixed(one.to_bits() ^ energy ^ input);
                    match luck % 64 {
                        0..4 if luck >> 8 & 0xff < 256 - crowd.min(256) => {
                            let two = commands.spawn_many_with(2, &[(ENERGY, luck as i64)]);
                            two.map_or_else(|refused| refused.or_memory(), |_| Ok(()))?;
                        }
                        4..7 if crowd > 60 => commands.despawn(one)?,
                        _ => commands.insert_with(one, &[(ENERGY, luck as i64)])?,
                    }
                }
                Ok::<_, OutOfMemory>(())
            }
        });
        let world = std::mem::take(&mut self.world);
        let (phase, mut reservers) = world.open_in::<Blocks>(&self.sizes.map(|it| it.size()))?;
        let queues = fill_in_blocks(&StdThreads, &phase, &mut reservers, &systems, workers)?;
        for (size, reserver) in self.sizes.iter_mut().zip(&reservers) {
            size.adapt(reserver.wanted());
        }
        self.world = phase.close(reservers)?.into_world()?;
        self.world.apply(queues)?;
        Ok(())
    }

    /// The sizes of the blocks, and the image of the world.
    fn image(&self) -> Result<Vec<u8>> {
        let sizes = self.sizes.iter().flat_map(|it| it.size().to_le_bytes());
        let mut image = sizes.collect();
        self.world.write_image(&mut image)?;
        Ok(image)
    }

    fn read(image: &[u8]) -> Result<Self> {
        let (sizes, image) = image.split_at_checked(4 * SYSTEMS).ok_or("no image")?;
        let mut game = Game::new()?;
        for (size, bytes) in game.sizes.iter_mut().zip(sizes.chunks(4)) {
            size.adapt(u32::from_le_bytes(bytes.try_into()?).div_ceil(2));
        }
        game.world = World::read_image_within(image, MOST)?;
        Ok(game)
    }

    fn digest(&self) -> Result<u64> {
        let bytes = self.image()?.into_iter().map(u64::from);
        Ok(bytes.fold(0, |all, byte| mixed(all ^ byte)))
    }

    /// All entities with their energy, in slot order.
    fn entities(&self) -> Result<Vec<(Handle, Option<i64>)>> {
        let all = self.world.by_birth()?.into_iter();
        let mut all: Vec<_> = all.map(|one| (one, self.world.get(one, ENERGY))).collect();
        all.sort_unstable();
        Ok(all)
    }
}

/// A machine of one player. The host, player 0, passes what it knows to each guest.
struct Machine {
    player: usize,
    /// The frames from which on the third player plays, and in which this machine goes wrong.
    joins: usize,
    wrong: usize,
    links: Vec<TcpStream>,
    /// The next frame, and the game before it and the last ones, at their number modulo `KEPT`.
    frame: usize,
    ring: Vec<Game>,
    /// Of each frame: the inputs that are known, those that were played, and the digest before it.
    known: Vec<[u64; PLAYERS]>,
    played: Vec<[u64; PLAYERS]>,
    digests: Vec<u64>,
    /// How many frames it played again.
    again: usize,
}

impl Machine {
    /// The machine whose next frame is this one. It knows that there is no third player yet.
    fn new(player: usize, joins: usize, wrong: usize, game: Game, frame: usize) -> Result<Self> {
        let (count, third) = (FRAMES + LAG + 1, |frame| [0, 0, u64::from(frame < joins)]);
        let mut machine = Self {
            player,
            joins,
            wrong,
            links: vec![],
            frame,
            known: (0..count).map(third).collect(),
            played: vec![[0; PLAYERS]; count],
            digests: vec![0; count],
            again: 0,
            ring: vec![game; KEPT],
        };
        machine.digests[frame] = machine.ring[0].digest()?;
        Ok(machine)
    }

    /// Inputs and digests go to and fro, and a frame is played. Whether the digests are the same.
    fn go_on(&mut self, now: usize) -> Result<bool> {
        if self.player < 2 || now >= self.joins {
            self.known[now][self.player] = input(self.player, now);
        }
        let settled = now.saturating_sub(LAG);
        let mut words = vec![self.digests[settled]];
        for frame in settled..=now {
            let mut inputs = self.known[frame];
            inputs[self.player] *= u64::from(frame + late(self.player, frame) <= now);
            words.extend(inputs);
        }
        let message: Vec<u8> = words.iter().flat_map(|it| it.to_le_bytes()).collect();
        for link in &mut self.links {
            link.write_all(&message)?;
        }
        let (mut is_same, mut first, mut bytes) = (true, self.frame, message.clone());
        for link in &mut self.links {
            link.read_exact(&mut bytes)?;
            let (theirs, _) = bytes.as_chunks();
            is_same &= theirs[0] == message[..8];
            let inputs = theirs[1..].iter().map(|it| u64::from_le_bytes(*it));
            for (place, input) in inputs.enumerate() {
                let (frame, player) = (settled + place / PLAYERS, place % PLAYERS);
                if player != self.player && input != 0 {
                    self.known[frame][player] = input;
                    if frame < first && self.played[frame][player] != input {
                        first = frame;
                    }
                }
            }
        }
        self.again += self.frame - first;
        self.frame = first;
        while self.frame < FRAMES.min(now + 1) {
            self.play()?;
        }
        Ok(is_same)
    }

    /// Plays a frame by the inputs that are known, and for each other one by the last that is.
    fn play(&mut self) -> Result<()> {
        let (frame, known) = (self.frame, &self.known[..=self.frame]);
        let last = |player: usize| {
            known
                .iter()
                .rev()
                .map(move |it| it[player])
                .find(|it| *it != 0)
        };
        self.played[frame] = std::array::from_fn(|player| last(player).unwrap_or(0));
        let mut game = self.ring[frame % KEPT].clone();
        game.step(self.played[frame], [1, 4, 2][self.player])?;
        if frame == self.wrong {
            let one = game.world.by_birth()?[30];
            game.world.despawn(one)?;
        }
        self.frame += 1;
        self.digests[self.frame] = game.digest()?;
        self.ring[self.frame % KEPT] = game;
        Ok(())
    }

    /// The game that was compared last.
    fn settled(&self, now: usize) -> &Game {
        &self.ring[now.saturating_sub(LAG) % KEPT]
    }

    /// The first slot that differs in the game that was compared last, here and there.
    fn difference(&mut self, now: usize) -> Result<u32> {
        let game = self.settled(now).clone();
        send(&mut self.links[0], &game.image()?)?;
        let theirs = Game::read(&receive(&mut self.links[0])?)?.entities()?;
        let mut pairs = game.entities()?.into_iter().zip(theirs);
        let differ = pairs.find(|(one, other)| one != other);
        let (one, other) = differ.ok_or("no slot differs")?;
        Ok(one.0.index().min(other.0.index()))
    }
}

fn send(link: &mut TcpStream, image: &[u8]) -> Result<()> {
    link.write_all(&(image.len() as u32).to_le_bytes())?;
    Ok(link.write_all(image)?)
}

fn receive(link: &mut TcpStream) -> Result<Vec<u8>> {
    let mut len = [0; 4];
    link.read_exact(&mut len)?;
    let mut image = vec![0; u32::from_le_bytes(len).min(MOST) as usize];
    link.read_exact(&mut image)?;
    Ok(image)
}

fn linked(stream: TcpStream) -> Result<TcpStream> {
    stream.set_nodelay(true)?;
    // A machine that is silent for this long is gone.
    stream.set_read_timeout(Some(Duration::from_secs(60)))?;
    Ok(stream)
}

/// Starts a guest in a process of its own.
fn invite(listener: &TcpListener, numbers: [usize; 3]) -> Result<(TcpStream, Child)> {
    let [player, joins, wrong] = numbers.map(|it| it.to_string());
    let port = listener.local_addr()?.port().to_string();
    let mut command = Command::new(env::current_exe()?);
    let child = command.args([port, player, joins, wrong]).spawn()?;
    Ok((linked(listener.accept()?.0)?, child))
}

/// A game of the host's, with a third player from a frame on, and a machine that goes wrong in one.
fn host(joins: usize, wrong: usize) -> Result<()> {
    let listener = TcpListener::bind(("127.0.0.1", 0))?;
    let mut machine = Machine::new(0, joins, FRAMES, Game::new()?, 0)?;
    let (link, guest) = invite(&listener, [1, joins, wrong])?;
    let mut guests = vec![guest];
    machine.links.push(link);
    for now in 0..=FRAMES + LAG {
        if now == joins {
            let (mut link, guest) = invite(&listener, [2, joins, wrong])?;
            let image = machine.settled(now).image()?;
            send(&mut link, &image)?;
            println!("frame {now}: a third player joins by {} bytes", image.len());
            machine.links.push(link);
            guests.push(guest);
        }
        if !machine.go_on(now)? {
            let (frame, slot) = (now - LAG - 1, machine.difference(now)?);
            println!("a machine that goes wrong in frame {frame}: slot {slot} differs first");
            break;
        }
    }
    for mut guest in guests {
        let ended = guest.wait()?;
        ended.success().then_some(()).ok_or("a guest failed")?;
    }
    let (count, digest) = (machine.frame, machine.digests[machine.frame]);
    if count == FRAMES {
        println!("{count} frames: the same digest after each, {digest:016x} at the end");
        println!("late inputs: {} frames played again", machine.again);
    }
    Ok(())
}

fn guest(numbers: &[usize]) -> Result<()> {
    let [port, player, joins, wrong] = numbers else {
        return Err("lockstep_net PORT PLAYER JOINS WRONG".into());
    };
    let mut link = linked(TcpStream::connect(("127.0.0.1", *port as u16))?)?;
    let (game, from) = match player {
        1 => (Game::new()?, 0),
        _ => (Game::read(&receive(&mut link)?)?, *joins),
    };
    let mut machine = Machine::new(*player, *joins, *wrong, game, from.saturating_sub(LAG))?;
    machine.links.push(link);
    for now in from..=FRAMES + LAG {
        if !machine.go_on(now)? {
            machine.difference(now)?;
            break;
        }
    }
    Ok(())
}

fn main() -> Result<()> {
    let numbers = env::args().skip(1).map(|it| Ok(it.parse()?));
    let numbers = numbers.collect::<Result<Vec<usize>>>()?;
    if !numbers.is_empty() {
        return guest(&numbers);
    }
    host(JOINS, FRAMES)?;
    host(FRAMES + LAG + 1, WRONG)
}
