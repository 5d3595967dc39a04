//! A stream: a puzzle's image is checked and sent; turns go to a live viewer one by one, and to a viewer who is behind as one element.
//!
//!     cargo run --example stream
use hypergroup::{Element, Factor, Generator, Image, Refusal};

/// Shows each turn as it comes.
struct LiveViewer<'a> {
    image: Image<'a>,
    state: Element,
}

impl LiveViewer<'_> {
    fn turn(&mut self, turn: Generator) -> Result<Element, Refusal> {
        self.state = self.image.walk(self.state, &[turn])?;
        Ok(self.state)
    }
}

/// Gets one element now and then: the product of the turns since the last.
struct DelayedViewer {
    puzzle: Factor,
    state: Element,
}

impl DelayedViewer {
    fn catch_up(&mut self, missed: Element) -> Result<Element, Refusal> {
        self.state = self.puzzle.compose(self.state, missed)?;
        Ok(self.state)
    }
}

/// A page of tiles, each with a lag of its own: what each shows and what it has missed are two lists, and one call brings all of them to where the match is.
fn wall(puzzle: &Factor, turns: &[Generator], lags: &[usize]) -> Result<Vec<Element>, Refusal> {
    let walked = |turns: &[Generator]| puzzle.walk(Element::IDENTITY, turns);
    let shown: Vec<Element> = lags.iter().map(|lag| walked(&turns[..turns.len() - lag])).collect::<Result<_, _>>()?;
    let missed: Vec<Element> = lags.iter().map(|lag| walked(&turns[turns.len() - lag..])).collect::<Result<_, _>>()?;
    Ok(puzzle.compose_each(&shown, &missed)?)
}

/// The move table that once went out with two steps crossed: single turns drew one state, and the catch-up product another.
const CROSSED: [u32; 64] = [
    1, 2, 3, 4, 0, 5, 6, 7, 5, 0, 8, 9, 6, 8, 0, 10, 7, 9, 10, 0, 2, 1, 11, 12, 3, 12, 1, 13, 4, 11, 13, 1, 11, 3, 2, 14, 12, 4, 14, 2, 13,
    14, 4, 3, 8, 7, 5, 15, 9, 6, 15, 5, 10, 15, 7, 6, 15, 10, 9, 8, 14, 13, 12, 11,
];

/// An image of any table, right or not, as a careless program might send it.
fn careless_image(generators: u8, rows: &[u32]) -> Vec<u8> {
    let count = (rows.len() / usize::from(generators)) as u16;
    let mut bytes = (4 + 2 * rows.len() as u32).to_be_bytes().to_vec();
    bytes.extend([1, generators]);
    bytes.extend(count.to_be_bytes());
    rows.iter().for_each(|&x| bytes.extend((x as u16).to_be_bytes()));
    bytes
}

fn stream(sent: &[u8], turns: &[Generator], delay: usize) -> Result<(), Refusal> {
    let image = Image::check(sent)?;
    println!("image of {} bytes checked: {} generators, {} elements", sent.len(), image.generator_count(), image.element_count());
    let mut live = LiveViewer { image, state: Element::IDENTITY };
    let mut delayed = DelayedViewer { puzzle: image.read()?, state: Element::IDENTITY };
    for missed in turns.chunks(delay) {
        for &turn in missed {
            println!("  live viewer: turn {turn}, state {}", live.turn(turn)?);
        }
        let product = image.walk(Element::IDENTITY, missed)?;
        println!("  delayed viewer: element {product} for {} turns, state {}", missed.len(), delayed.catch_up(product)?);
        assert_eq!(live.state, delayed.state);
    }
    println!("both viewers are at state {}", live.state);
    Ok(())
}

fn main() -> Result<(), Refusal> {
    // The rotations and reflections of a cube: three turns, with these orders of their products; and its name for the screen.
    let puzzle = Factor::named("cube").from_orders(3, &[4, 2, 3], 1000)?;
    println!("on the screen: {}", String::from_utf8_lossy(puzzle.name()));
    let sent = puzzle.to_image()?;
    let turns = [0, 1, 2, 1, 0, 2, 1, 0, 1, 2, 0].map(Generator);
    stream(&sent, &turns, 4)?;

    let tiles = wall(&puzzle, &turns, &[0, 1, 2, 5, 7, 11])?;
    assert!(tiles.iter().all(|&tile| tile == tiles[0]));
    println!("all {} tiles of the wall are at state {}", tiles.len(), tiles[0]);

    println!("\nthe crossed table is not sent:");
    println!("  {}", Factor::from_rows(4, &CROSSED).expect_err("no group has this table"));
    println!("sent all the same, it is not shown:");
    println!("  {}", stream(&careless_image(4, &CROSSED), &turns, 4).expect_err("no group has this table"));

    println!("\nan image that is damaged on its way is not shown:");
    let mut damaged = sent.clone();
    damaged[100] ^= 1;
    println!("  {}", stream(&damaged, &turns, 4).expect_err("a step is missing"));
    println!("  {}", stream(&sent[..sent.len() - 1], &turns, 4).expect_err("a byte is missing"));
    Ok(())
}
