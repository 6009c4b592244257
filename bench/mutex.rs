//! Adds 1 to a counter under the `Mutex` of Rust's std from several threads, and prints what the counter has then. `hall_count` does
//! the same under the `Mutex` of Rattle's std. The words are how many threads, how many additions each makes, and how many rounds of
//! work each addition takes, and each thread does after each of its additions.
use std::sync::Mutex;
use std::{env, process, thread};

/// Rounds of a generator of numbers, by shifts (xorshift), and the number that it has come to.
#[derive(Clone, Copy)]
struct Toil {
    rounds: u32,
    number: u64,
}

impl Toil {
    fn once(&mut self) {
        let mut number = self.number;
        for _ in 0..self.rounds {
            number ^= number << 13;
            number ^= number >> 7;
            number ^= number << 17;
        }
        self.number = number;
    }

    /// Whether the number is 0, which the rounds never come to. Who asks makes sure that they are gone.
    fn is_nothing(&self) -> bool {
        self.number == 0
    }
}

struct Counter {
    total: u64,
    toil: Toil,
}

/// Adds 1 so often, and works after each addition.
fn add_often(counter: &Mutex<Counter>, acts: u64, mut toil: Toil) {
    for _ in 0..acts {
        let mut locked = counter.lock().unwrap();
        locked.toil.once();
        locked.total += 1;
        drop(locked);
        toil.once();
        if toil.is_nothing() {
            break;
        }
    }
}

fn main() {
    let words: Vec<u64> = env::args().skip(1).map_while(|word| word.parse().ok()).collect();
    let [threads, acts, rounds] = words[..] else {
        eprintln!("the words are threads, acts and rounds");
        process::exit(1);
    };
    let toil = Toil {
        rounds: rounds as u32,
        number: 88_172_645_463_325_252,
    };
    let counter = Mutex::new(Counter { total: 0, toil });
    thread::scope(|scope| {
        for _ in 0..threads {
            scope.spawn(|| add_often(&counter, acts, toil));
        }
    });
    let counter = counter.into_inner().unwrap();
    if counter.toil.is_nothing() {
        process::exit(1);
    }
    println!("{}", counter.total);
}
