//! The same machine in ordinary Rust, without proofs, to measure against.
//!
//! It reads a script from standard input, over the pool network, and prints
//! one answer line for each line. Build it with `rustc -O plain.rs`.

use std::convert::{TryFrom, TryInto};
use std::io::{self, BufRead, BufReader, BufWriter, Write};

const NODES: usize = 16;
const LINES: usize = 16;
const CELLS: usize = 64;
const PLACES: usize = 32;
const WRITES: usize = 32;
const COMMANDS: usize = PLACES + WRITES;
const LIMIT: usize = 64;
const LINE_BYTES: usize = 96;
const BUFFER: usize = 1 << 16;

// ---------------------------------------------------------------- lists

/// A list of at most `N` items in a fixed table.
#[derive(Clone, Copy)]
struct List<T, const N: usize> {
    items: [T; N],
    len: usize,
}

impl<T: Copy, const N: usize> List<T, N> {
    const fn new(blank: T) -> Self {
        List {
            items: [blank; N],
            len: 0,
        }
    }

    fn push(&mut self, item: T) {
        self.items[self.len] = item;
        self.len += 1;
    }

    /// Takes out the item at `index`; the others keep their order.
    fn remove(&mut self, index: usize) -> T {
        let item = self.items[index];
        self.items.copy_within(index + 1..self.len, index);
        self.len -= 1;
        item
    }

    fn as_slice(&self) -> &[T] {
        &self.items[..self.len]
    }
}

/// The numbers below `len`, counted up and round from `start`.
fn round(start: usize, len: usize) -> impl Iterator<Item = usize> {
    (start..len).chain(0..start)
}

// --------------------------------------------------------------- faults

#[derive(Clone, Copy)]
enum Fault {
    SizeOutside,
    ArrayOutside,
    NoNode(u64),
    NoAddress(u64, u64),
    NoCommand(u64),
    NotDrawn(u64),
    NoLine,
    NotStarted,
    Started,
    PlacesTaken(u64),
    WritesHeld(u64),
    LinesWait(u64, u64),
    NetworkFull(u64, u64),
    NothingInTransit,
    NothingReady(u64),
    TwiceAtLine(u64, u64),
    TwiceAtHome(u64, u64),
    NoRoom,
}

impl Fault {
    /// Number, layer, node and address.
    fn parts(self) -> (u64, &'static str, Option<u64>, Option<u64>) {
        use Fault::*;
        match self {
            SizeOutside => (1, "system", None, None),
            ArrayOutside => (1, "array", None, None),
            NoNode(node) => (2, "system", Some(node), None),
            NoAddress(node, address) => (3, "system", Some(node), Some(address)),
            NoCommand(node) => (4, "system", Some(node), None),
            NotDrawn(node) => (5, "system", Some(node), None),
            NoLine => (6, "script", None, None),
            NotStarted => (20, "system", None, None),
            Started => (21, "system", None, None),
            PlacesTaken(node) => (23, "system", Some(node), None),
            WritesHeld(node) => (24, "system", Some(node), None),
            LinesWait(node, address) => (25, "lines", Some(node), Some(address)),
            NetworkFull(node, address) => (26, "system", Some(node), Some(address)),
            NothingInTransit => (27, "system", None, None),
            NothingReady(node) => (28, "system", Some(node), None),
            TwiceAtLine(node, address) => (29, "lines", Some(node), Some(address)),
            TwiceAtHome(writer, address) => (30, "home", Some(writer), Some(address)),
            NoRoom => (31, "array", None, None),
        }
    }
}

// ------------------------------------------------------------- messages

#[derive(Clone, Copy)]
enum Kind {
    Read,
    Write,
    Reply,
}

#[derive(Clone, Copy)]
struct Message {
    kind: Kind,
    to: u8,
    from: u8,
    address: u16,
    word: u64,
}

const NO_MESSAGE: Message = Message {
    kind: Kind::Read,
    to: 0,
    from: 0,
    address: 0,
    word: 0,
};

/// The network: messages in the order of sending.
struct Pool {
    messages: List<Message, LIMIT>,
}

impl Pool {
    fn send(&mut self, message: Message) {
        self.messages.push(message);
    }

    fn take(&mut self, pick: u64) -> Option<Message> {
        let count = self.count();
        (count > 0).then(|| self.messages.remove((pick % count as u64) as usize))
    }

    fn count(&self) -> usize {
        self.messages.len
    }
}

// ---------------------------------------------------------------- board

#[derive(Clone, Copy)]
struct Read {
    address: u16,
    frame: u32,
    instruction: u32,
}

#[derive(Clone, Copy)]
enum Place {
    Free,
    Held(Read),
    Deferred(Read),
    Ready(Read, u64),
    Drawn(Read, u64),
}

#[derive(Clone, Copy)]
enum Command {
    Read { place: u8, address: u16 },
    Write { address: u16, word: u64 },
}

type Waiters = List<u8, PLACES>;

#[derive(Clone, Copy)]
enum Line {
    Empty,
    Waiting(u16, Waiters),
    Filled(u16, u64),
}

impl Line {
    fn is_for(&self, wanted: u16) -> bool {
        matches!(self, Line::Waiting(address, _) | Line::Filled(address, _) if *address == wanted)
    }
}

/// What an act did: the places made ready, and what is to be sent.
struct Step {
    ready: u64,
    send: Option<(Kind, u16, u64)>,
}

enum Stop {
    NoCommand,
    LinesWait(u16),
    NetworkFull(u16),
    TwiceAtLine(u16),
}

struct Drawn {
    place: u64,
    read: Read,
    word: u64,
}

#[derive(Clone, Copy)]
struct Board {
    commands: List<Command, COMMANDS>,
    writes: usize,
    places: [Place; PLACES],
    next_place: usize,
    lines: [Line; LINES],
    line_count: usize,
    hand: usize,
    ready: List<u8, PLACES>,
}

impl Board {
    fn new(line_count: usize) -> Self {
        Board {
            commands: List::new(Command::Write {
                address: 0,
                word: 0,
            }),
            writes: 0,
            places: [Place::Free; PLACES],
            next_place: 0,
            lines: [Line::Empty; LINES],
            line_count,
            hand: 0,
            ready: List::new(0),
        }
    }

    fn read(&mut self, read: Read) -> Option<u64> {
        let place = round(self.next_place, PLACES)
            .find(|&place| matches!(self.places[place], Place::Free))?;
        self.places[place] = Place::Held(read);
        self.next_place = (place + 1) % PLACES;
        self.commands.push(Command::Read {
            place: place as u8,
            address: read.address,
        });
        Some(place as u64)
    }

    fn write(&mut self, address: u16, word: u64) -> Option<()> {
        if self.writes == WRITES {
            return None;
        }
        self.writes += 1;
        self.commands.push(Command::Write { address, word });
        Some(())
    }

    fn act(&mut self, pick: u64, load: usize) -> Result<Step, Stop> {
        let pick = usize::try_from(pick).map_err(|_| Stop::NoCommand)?;
        match self.commands.as_slice().get(pick) {
            None => Err(Stop::NoCommand),
            Some(&Command::Read { place, address }) => self.act_read(pick, place, address, load),
            Some(&Command::Write { address, word }) => self.act_write(pick, address, word, load),
        }
    }

    fn act_read(
        &mut self,
        pick: usize,
        place: u8,
        address: u16,
        load: usize,
    ) -> Result<Step, Stop> {
        let mut step = Step {
            ready: 0,
            send: None,
        };
        match self.find(address) {
            Some(line) => match &mut self.lines[line] {
                Line::Filled(_, word) => {
                    let word = *word;
                    self.make_ready(place, word);
                    step.ready = 1;
                }
                Line::Waiting(_, waiters) => {
                    waiters.push(place);
                    self.defer(place);
                }
                Line::Empty => unreachable!("a line that was found is not empty"),
            },
            None => {
                let line = self.claimable().ok_or(Stop::LinesWait(address))?;
                if load + 1 >= LIMIT {
                    return Err(Stop::NetworkFull(address));
                }
                let mut waiters = List::new(0);
                waiters.push(place);
                self.claim(line, Line::Waiting(address, waiters));
                self.defer(place);
                step.send = Some((Kind::Read, address, 0));
            }
        }
        self.commands.remove(pick);
        Ok(step)
    }

    fn act_write(
        &mut self,
        pick: usize,
        address: u16,
        word: u64,
        load: usize,
    ) -> Result<Step, Stop> {
        let found = self.find(address);
        if let Some(Line::Filled(..)) = found.map(|line| &self.lines[line]) {
            self.drop_write(pick);
            return Err(Stop::TwiceAtLine(address));
        }
        if load >= LIMIT {
            return Err(Stop::NetworkFull(address));
        }
        let ready = match found {
            Some(line) => self.fill(line, word),
            None => {
                if let Some(line) = self.claimable() {
                    self.claim(line, Line::Filled(address, word));
                }
                0
            }
        };
        self.drop_write(pick);
        Ok(Step {
            ready,
            send: Some((Kind::Write, address, word)),
        })
    }

    fn reply(&mut self, address: u16, word: u64) -> u64 {
        self.find(address).map_or(0, |line| self.fill(line, word))
    }

    fn draw(&mut self) -> Option<Drawn> {
        if self.ready.len == 0 {
            return None;
        }
        let place = self.ready.remove(0);
        let Place::Ready(read, word) = self.places[place as usize] else {
            unreachable!("the order names ready places only");
        };
        self.places[place as usize] = Place::Drawn(read, word);
        Some(Drawn {
            place: place.into(),
            read,
            word,
        })
    }

    fn finish(&mut self, place: u64) -> Option<()> {
        let (place, _, _) = self.drawn(place)?;
        self.places[place] = Place::Free;
        Some(())
    }

    fn put_back(&mut self, place: u64) -> Option<()> {
        let (place, read, word) = self.drawn(place)?;
        self.places[place] = Place::Ready(read, word);
        self.ready.push(place as u8);
        Some(())
    }

    fn drawn(&self, place: u64) -> Option<(usize, Read, u64)> {
        let place = usize::try_from(place).ok()?;
        match self.places.get(place) {
            Some(&Place::Drawn(read, word)) => Some((place, read, word)),
            _ => None,
        }
    }

    fn find(&self, address: u16) -> Option<usize> {
        self.lines[..self.line_count]
            .iter()
            .position(|line| line.is_for(address))
    }

    /// The line that a claim would take: never a waiting one.
    fn claimable(&self) -> Option<usize> {
        let from_hand = || round(self.hand, self.line_count);
        from_hand()
            .find(|&line| matches!(self.lines[line], Line::Empty))
            .or_else(|| from_hand().find(|&line| matches!(self.lines[line], Line::Filled(..))))
    }

    fn claim(&mut self, line: usize, content: Line) {
        self.lines[line] = content;
        self.hand = (line + 1) % self.line_count;
    }

    /// Fills a waiting line and answers how many places became ready.
    fn fill(&mut self, line: usize, word: u64) -> u64 {
        let Line::Waiting(address, waiters) = self.lines[line] else {
            return 0;
        };
        for &place in waiters.as_slice() {
            self.make_ready(place, word);
        }
        self.lines[line] = Line::Filled(address, word);
        waiters.len as u64
    }

    fn make_ready(&mut self, place: u8, word: u64) {
        if let Place::Held(read) | Place::Deferred(read) = self.places[place as usize] {
            self.places[place as usize] = Place::Ready(read, word);
            self.ready.push(place);
        }
    }

    fn defer(&mut self, place: u8) {
        if let Place::Held(read) = self.places[place as usize] {
            self.places[place as usize] = Place::Deferred(read);
        }
    }

    fn drop_write(&mut self, pick: usize) {
        self.commands.remove(pick);
        self.writes -= 1;
    }
}

// --------------------------------------------------------------- system

#[derive(Clone, Copy)]
enum Cell {
    Undefined,
    Waiting(u16),
    Defined(u64),
}

struct System {
    nodes: usize,
    cells: usize,
    boards: [Board; NODES],
    memory: [Cell; NODES * CELLS],
    pool: Pool,
    /// The members of all waiting sets.
    waiting: usize,
    /// The end of the last array created.
    end: u64,
}

impl System {
    fn start(nodes: u64, lines: u64, cells: u64) -> Result<Self, Fault> {
        let sizes = [(nodes, NODES), (lines, LINES), (cells, CELLS)];
        if sizes
            .iter()
            .any(|&(size, most)| size == 0 || size > most as u64)
        {
            return Err(Fault::SizeOutside);
        }
        Ok(System {
            nodes: nodes as usize,
            cells: cells as usize,
            boards: [Board::new(lines as usize); NODES],
            memory: [Cell::Undefined; NODES * CELLS],
            pool: Pool {
                messages: List::new(NO_MESSAGE),
            },
            waiting: 0,
            end: 0,
        })
    }

    fn size(&self) -> u64 {
        (self.nodes * self.cells) as u64
    }

    fn load(&self) -> usize {
        self.pool.count() + self.waiting
    }

    fn board(&mut self, node: u64) -> Result<&mut Board, Fault> {
        self.boards[..self.nodes]
            .get_mut(usize::try_from(node).unwrap_or(usize::MAX))
            .ok_or(Fault::NoNode(node))
    }

    /// The board of a node, and the address in its own width.
    fn board_for(&mut self, node: u64, address: u64) -> Result<(&mut Board, u16), Fault> {
        let size = self.size();
        let board = self.board(node)?;
        if address < size {
            Ok((board, address as u16))
        } else {
            Err(Fault::NoAddress(node, address))
        }
    }

    fn read(
        &mut self,
        node: u64,
        address: u64,
        frame: u32,
        instruction: u32,
    ) -> Result<u64, Fault> {
        let (board, address) = self.board_for(node, address)?;
        board
            .read(Read {
                address,
                frame,
                instruction,
            })
            .ok_or(Fault::PlacesTaken(node))
    }

    fn write(&mut self, node: u64, address: u64, word: u64) -> Result<(), Fault> {
        let (board, address) = self.board_for(node, address)?;
        board.write(address, word).ok_or(Fault::WritesHeld(node))
    }

    fn act(&mut self, node: u64, pick: u64) -> Result<u64, Fault> {
        let load = self.load();
        let step = self
            .board(node)?
            .act(pick, load)
            .map_err(|stop| match stop {
                Stop::NoCommand => Fault::NoCommand(node),
                Stop::LinesWait(address) => Fault::LinesWait(node, address.into()),
                Stop::NetworkFull(address) => Fault::NetworkFull(node, address.into()),
                Stop::TwiceAtLine(address) => Fault::TwiceAtLine(node, address.into()),
            })?;
        if let Some((kind, address, word)) = step.send {
            let to = (address as usize / self.cells) as u8;
            self.pool.send(Message {
                kind,
                to,
                from: node as u8,
                address,
                word,
            });
        }
        Ok(step.ready)
    }

    fn deliver(&mut self, pick: u64) -> Result<u64, Fault> {
        let message = self.pool.take(pick).ok_or(Fault::NothingInTransit)?;
        match message.kind {
            Kind::Read => self.serve_read(message),
            Kind::Write => self.serve_write(message)?,
            Kind::Reply => {
                return Ok(self.boards[message.to as usize].reply(message.address, message.word));
            }
        }
        Ok(0)
    }

    fn serve_read(&mut self, message: Message) {
        let sender = 1 << message.from;
        match &mut self.memory[message.address as usize] {
            cell @ Cell::Undefined => {
                *cell = Cell::Waiting(sender);
                self.waiting += 1;
            }
            Cell::Waiting(set) => {
                self.waiting += usize::from(*set & sender == 0);
                *set |= sender;
            }
            Cell::Defined(word) => {
                let word = *word;
                self.pool.send(answer_to(message, message.from, word));
            }
        }
    }

    fn serve_write(&mut self, message: Message) -> Result<(), Fault> {
        let cell = &mut self.memory[message.address as usize];
        let set = match *cell {
            Cell::Undefined => 0,
            Cell::Waiting(set) => set,
            Cell::Defined(_) => {
                return Err(Fault::TwiceAtHome(
                    message.from.into(),
                    message.address.into(),
                ));
            }
        };
        *cell = Cell::Defined(message.word);
        self.waiting -= set.count_ones() as usize;
        for node in (0..NODES as u8).filter(|node| set >> node & 1 == 1) {
            self.pool.send(answer_to(message, node, message.word));
        }
        Ok(())
    }

    fn draw(&mut self, node: u64) -> Result<Drawn, Fault> {
        self.board(node)?.draw().ok_or(Fault::NothingReady(node))
    }

    fn finish(&mut self, node: u64, place: u64) -> Result<(), Fault> {
        self.board(node)?.finish(place).ok_or(Fault::NotDrawn(node))
    }

    fn put_back(&mut self, node: u64, place: u64) -> Result<(), Fault> {
        self.board(node)?
            .put_back(place)
            .ok_or(Fault::NotDrawn(node))
    }

    fn create(&mut self, kind: u64, length: u64) -> Result<u64, Fault> {
        if length == 0 || !(1..=255).contains(&kind) {
            return Err(Fault::ArrayOutside);
        }
        let base = self.end;
        if length > self.size() - base {
            return Err(Fault::NoRoom);
        }
        self.end = base + length;
        Ok(base)
    }
}

/// The reply that a home sends on a message, to a node that asked.
fn answer_to(message: Message, to: u8, word: u64) -> Message {
    Message {
        kind: Kind::Reply,
        to,
        from: message.to,
        address: message.address,
        word,
    }
}

// --------------------------------------------------------------- script

enum Call {
    Start {
        nodes: u64,
        lines: u64,
        cells: u64,
    },
    Read {
        node: u64,
        address: u64,
        frame: u32,
        instruction: u32,
    },
    Write {
        node: u64,
        address: u64,
        word: u64,
    },
    Act {
        node: u64,
        pick: u64,
    },
    Deliver {
        pick: u64,
    },
    Draw {
        node: u64,
    },
    Finish {
        node: u64,
        place: u64,
    },
    PutBack {
        node: u64,
        place: u64,
    },
    Create {
        kind: u64,
        length: u64,
    },
}

fn number(field: &[u8]) -> Option<u64> {
    match field {
        [] | [b'0', _, ..] => None,
        _ => field.iter().try_fold(0u64, |sum, &byte| {
            let digit = byte.wrapping_sub(b'0');
            if digit > 9 {
                return None;
            }
            sum.checked_mul(10)?.checked_add(digit.into())
        }),
    }
}

/// The call that a line writes, if it writes one.
fn parse(line: &[u8]) -> Option<Call> {
    let [letter, b',', rest @ ..] = line else {
        return None;
    };
    let mut fields = rest.split(|&byte| byte == b',');
    let mut wide = || number(fields.next()?);
    let call = match *letter as char {
        'S' => Call::Start {
            nodes: wide()?,
            lines: wide()?,
            cells: wide()?,
        },
        'R' => Call::Read {
            node: wide()?,
            address: wide()?,
            frame: wide()?.try_into().ok()?,
            instruction: wide()?.try_into().ok()?,
        },
        'W' => Call::Write {
            node: wide()?,
            address: wide()?,
            word: wide()?,
        },
        'A' => Call::Act {
            node: wide()?,
            pick: wide()?,
        },
        'D' => Call::Deliver { pick: wide()? },
        'T' => Call::Draw { node: wide()? },
        'F' => Call::Finish {
            node: wide()?,
            place: wide()?,
        },
        'P' => Call::PutBack {
            node: wide()?,
            place: wide()?,
        },
        'C' => Call::Create {
            kind: wide()?,
            length: wide()?,
        },
        _ => return None,
    };
    fields.next().is_none().then_some(call)
}

enum Answer {
    Done,
    Number(u64),
    Drawn(Drawn),
}

/// A session: a system that may not have started yet. A drawn place stays
/// drawn until it is finished or put back, so the places park the answers.
struct Session {
    system: Option<System>,
}

impl Session {
    /// The answer to a line; `None` is one that is too long or has no end.
    fn answer(&mut self, line: Option<&[u8]>) -> Result<Answer, Fault> {
        let call = line.and_then(parse).ok_or(Fault::NoLine)?;
        if let Call::Start {
            nodes,
            lines,
            cells,
        } = call
        {
            if self.system.is_some() {
                return Err(Fault::Started);
            }
            self.system = Some(System::start(nodes, lines, cells)?);
            return Ok(Answer::Done);
        }
        let system = self.system.as_mut().ok_or(Fault::NotStarted)?;
        match call {
            Call::Start { .. } => Err(Fault::Started),
            Call::Read {
                node,
                address,
                frame,
                instruction,
            } => system
                .read(node, address, frame, instruction)
                .map(Answer::Number),
            Call::Write {
                node,
                address,
                word,
            } => system.write(node, address, word).map(|()| Answer::Done),
            Call::Act { node, pick } => system.act(node, pick).map(Answer::Number),
            Call::Deliver { pick } => system.deliver(pick).map(Answer::Number),
            Call::Draw { node } => system.draw(node).map(Answer::Drawn),
            Call::Finish { node, place } => system.finish(node, place).map(|()| Answer::Done),
            Call::PutBack { node, place } => system.put_back(node, place).map(|()| Answer::Done),
            Call::Create { kind, length } => system.create(kind, length).map(Answer::Number),
        }
    }
}

// ------------------------------------------------------------- printing

fn print_number(out: &mut impl Write, mut number: u64) -> io::Result<()> {
    let mut digits = [0; 20];
    let mut at = digits.len();
    loop {
        at -= 1;
        digits[at] = b'0' + (number % 10) as u8;
        number /= 10;
        if number == 0 {
            return out.write_all(&digits[at..]);
        }
    }
}

fn print_field(out: &mut impl Write, number: u64) -> io::Result<()> {
    out.write_all(b",")?;
    print_number(out, number)
}

fn print_name(out: &mut impl Write, name: Option<u64>) -> io::Result<()> {
    match name {
        Some(number) => print_field(out, number),
        None => out.write_all(b",-"),
    }
}

fn print(out: &mut impl Write, answer: Result<Answer, Fault>) -> io::Result<()> {
    match answer {
        Ok(Answer::Done) => out.write_all(b"ok")?,
        Ok(Answer::Number(number)) => {
            out.write_all(b"ok")?;
            print_field(out, number)?;
        }
        Ok(Answer::Drawn(Drawn { place, read, word })) => {
            out.write_all(b"ok")?;
            for field in [
                place,
                read.address.into(),
                word,
                read.frame.into(),
                read.instruction.into(),
            ] {
                print_field(out, field)?;
            }
        }
        Err(fault) => {
            let (number, layer, node, address) = fault.parts();
            out.write_all(b"no")?;
            print_field(out, number)?;
            out.write_all(b",")?;
            out.write_all(layer.as_bytes())?;
            print_name(out, node)?;
            print_name(out, address)?;
        }
    }
    out.write_all(b"\n")
}

// ---------------------------------------------------------------- input

/// The bytes of a line read so far; a line too long is only counted as such.
struct Partial {
    bytes: [u8; LINE_BYTES],
    len: usize,
    long: bool,
}

impl Partial {
    fn new() -> Self {
        Partial {
            bytes: [0; LINE_BYTES],
            len: 0,
            long: false,
        }
    }

    fn add(&mut self, piece: &[u8]) {
        match self.bytes.get_mut(self.len..self.len + piece.len()) {
            Some(room) if !self.long => {
                room.copy_from_slice(piece);
                self.len += piece.len();
            }
            _ => self.long = true,
        }
    }

    fn begun(&self) -> bool {
        self.long || self.len > 0
    }

    /// The line, unless it is too long.
    fn line(&self) -> Option<&[u8]> {
        (!self.long).then(|| &self.bytes[..self.len])
    }
}

/// Answers every line; what is known is written out before more is waited for.
fn run(mut input: impl BufRead, mut out: impl Write) -> io::Result<()> {
    let mut session = Session { system: None };
    let mut partial = Partial::new();
    loop {
        let chunk = input.fill_buf()?;
        let used = chunk.len();
        if used == 0 {
            break;
        }
        for piece in chunk.split_inclusive(|&byte| byte == b'\n') {
            let Some((b'\n', end)) = piece.split_last() else {
                partial.add(piece);
                continue;
            };
            if partial.begun() {
                partial.add(end);
                print(&mut out, session.answer(partial.line()))?;
                partial = Partial::new();
            } else {
                let line = (end.len() <= LINE_BYTES).then_some(end);
                print(&mut out, session.answer(line))?;
            }
        }
        input.consume(used);
        out.flush()?;
    }
    if partial.begun() {
        print(&mut out, session.answer(None))?;
    }
    out.flush()
}

fn main() -> io::Result<()> {
    let input = BufReader::with_capacity(BUFFER, io::stdin().lock());
    let out = BufWriter::with_capacity(BUFFER, io::stdout().lock());
    run(input, out)
}
