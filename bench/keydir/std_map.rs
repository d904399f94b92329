// What crates/bench_keydir does, over the HashMap of Rust's std, with its own hasher (`rust`) and with one as quick as the
// kit's (`rust-fold`). The words are how many keys there are, which of the two hashers is meant, and `hold`.
use std::collections::HashMap;
use std::hash::{BuildHasher, BuildHasherDefault, Hash, Hasher, RandomState};
use std::io::Read;
use std::time::Instant;

#[derive(PartialEq, Eq)]
struct Key(Vec<u8>);

impl Hash for Key {
    fn hash<H: Hasher>(&self, state: &mut H) {
        state.write(&self.0);
    }
}

#[derive(Clone, Copy)]
#[allow(dead_code)]
struct Version {
    seq: u64,
    at: u64,
    moment: u32,
    file: u32,
    size: u32,
    crc: u32,
    gone: bool,
}

#[derive(Default)]
struct Fold(u64);

fn folded(a: u64, b: u64) -> u64 {
    let product = u128::from(a) * u128::from(b);
    product as u64 ^ (product >> 64) as u64
}

fn word(bytes: &[u8]) -> u64 {
    let mut word = [0; 8];
    word[..bytes.len()].copy_from_slice(bytes);
    u64::from_le_bytes(word)
}

impl Hasher for Fold {
    fn write(&mut self, bytes: &[u8]) {
        let mut hash = self.0 ^ bytes.len() as u64;
        let mut pairs = bytes.chunks_exact(16);
        for pair in &mut pairs {
            let a = u64::from_le_bytes(pair[..8].try_into().unwrap());
            let b = u64::from_le_bytes(pair[8..].try_into().unwrap());
            hash = folded(a ^ 0xa409_3822_299f_31d0 ^ hash, b ^ 0x082e_fa98_ec4e_6c89);
        }
        for rest in pairs.remainder().chunks(8) {
            hash = folded(word(rest) ^ hash, 0x082e_fa98_ec4e_6c89);
        }
        self.0 = folded(hash, 0x9e37_79b9_7f4a_7c15);
    }

    fn finish(&self) -> u64 {
        self.0
    }
}

fn key_of(number: u32) -> Key {
    let number = u64::from(number);
    let mut bytes = Vec::with_capacity(16);
    bytes.extend_from_slice(&number.to_le_bytes());
    bytes.extend_from_slice(&number.wrapping_mul(0x9e37_79b9_7f4a_7c15).to_le_bytes());
    Key(bytes)
}

fn version(seq: u64, gone: bool) -> Version {
    Version { seq, at: seq, moment: 5, file: 1, size: 138, crc: 7, gone }
}

fn shuffle(numbers: &mut [u32]) {
    let mut state = 1u64;
    for place in 1..numbers.len() {
        state = state.wrapping_mul(6_364_136_223_846_793_005).wrapping_add(1_442_695_040_888_963_407);
        numbers.swap(place, (state >> 33) as usize % (place + 1));
    }
}

fn put_each<S: BuildHasher>(map: &mut HashMap<Key, Version, S>, numbers: &[u32], first: u64, gone: bool) {
    for (seq, number) in (first..).zip(numbers) {
        map.insert(key_of(*number), version(seq, gone));
    }
}

fn hold<S: BuildHasher + Default>(items: u32) {
    let mut map = HashMap::with_hasher(S::default());
    for number in 0..items {
        map.insert(key_of(number), version(u64::from(number) + 1, false));
    }
    println!("{} keys are held", map.len());
    let _ = std::io::stdin().read_to_end(&mut Vec::new());
}

fn run<S: BuildHasher + Default>(name: &str, items: u32) {
    let counted: Vec<u32> = (0..items).collect();
    let mut shuffled = counted.clone();
    shuffle(&mut shuffled);
    let mut again = shuffled.clone();
    shuffle(&mut again);
    let wanted: Vec<Key> = again.iter().map(|number| key_of(*number)).collect();
    let mut map = HashMap::with_hasher(S::default());
    let count = u128::from(items.max(1));
    let start = Instant::now();
    put_each(&mut map, &counted, 1, false);
    let put = start.elapsed().as_nanos() / count;
    let start = Instant::now();
    put_each(&mut map, &shuffled, 1 + u64::from(items), false);
    let overwrite = start.elapsed().as_nanos() / count;
    let start = Instant::now();
    let mut sum = 0u64;
    for key in &wanted {
        if let Some(version) = map.get(key) {
            sum = sum.wrapping_add(version.at);
        }
    }
    let get = start.elapsed().as_nanos() / count;
    let start = Instant::now();
    let mut last = 0u64;
    for place in 0..wanted.len() {
        if let Some(version) = map.get(&wanted[place | (last >> 40) as usize]) {
            last = version.at;
            sum = sum.wrapping_add(last);
        }
    }
    let waiting = start.elapsed().as_nanos() / count;
    put_each(&mut map, &shuffled[..items as usize / 10], 1 + 2 * u64::from(items), true);
    let before = map.len();
    let start = Instant::now();
    map.retain(|_, version| !version.gone);
    let dropped = before - map.len();
    let sweep = start.elapsed().as_micros();
    println!("{name}: {} keys, sum {sum}, {dropped} dropped", map.len());
    eprintln!("{name} put {put}\n{name} overwrite {overwrite}\n{name} get {get}\n{name} get-waiting {waiting}\n{name} sweep {sweep}");
}

fn main() {
    let words: Vec<String> = std::env::args().collect();
    let items = words.get(1).and_then(|word| word.parse().ok()).unwrap_or(1000);
    let is_fold = words.get(2).is_some_and(|word| word == "rust-fold");
    match (words.len() > 3, is_fold) {
        (true, true) => hold::<BuildHasherDefault<Fold>>(items),
        (true, false) => hold::<RandomState>(items),
        (false, true) => run::<BuildHasherDefault<Fold>>("rust-fold", items),
        (false, false) => run::<RandomState>("rust", items),
    }
}
