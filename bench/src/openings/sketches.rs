//! The sketches and lists that are measured: differences as they come, and what a hostile sender or a
//! spoilt list may cost.

use conformance::random::Random;
use reference::shingle::Shingle;
use reference::sketch::{part, places, plus, sketch, Cell};

/// One opening.
pub struct Asked {
    pub name: String,
    pub width: u64,
    pub list: Vec<Shingle>,
    pub theirs: Vec<Cell>,
    pub own: Vec<Cell>,
}

const ZERO: Cell = [0; 5];

/// So many shingles of random ids, sorted.
fn random_list(length: usize, random: &mut Random) -> Vec<Shingle> {
    let shingle = |random: &mut Random| Shingle {
        level: random.between(0, 4),
        previous: random.number(),
        own: random.number(),
        count: random.between(1, 3),
    };
    let mut list: Vec<Shingle> = (0..length).map(|_| shingle(random)).collect();
    list.sort();
    list
}

/// A list of this length that the sender's differs from by so many shingles, half of them new. Tried
/// until the sketch opens.
fn differing(length: usize, differences: usize, width: u64) -> Asked {
    for case in 0.. {
        let mut random = Random::of_case(length as u64, 1_000 * differences + case);
        let new = differences.div_ceil(2);
        let gone = differences - new;
        let all = random_list(length + new, &mut random);
        // Every so many of the list are new, and of the rest every so many are gone.
        let every = |step: usize, count: usize| move |k: usize| k % step == 0 && k / step < count;
        let is_new = every((length + new).checked_div(new).unwrap_or(1), new);
        let of = |wanted: bool| {
            let chosen = all.iter().enumerate().filter(|(k, _)| is_new(*k) == wanted);
            chosen.map(|(_, shingle)| *shingle).collect::<Vec<_>>()
        };
        let list = of(false);
        let is_gone = every(list.len().checked_div(gone).unwrap_or(1), gone);
        let mut theirs = of(true);
        let kept = list.iter().enumerate().filter(|(k, _)| !is_gone(*k));
        theirs.extend(kept.map(|(_, shingle)| *shingle));
        let (own, theirs) = (sketch(&list, width), sketch(&theirs, width));
        if reference::opening::open(4, width, &theirs, &own, &list).is_ok() {
            return Asked {
                name: match differences {
                    1 => "1 difference".to_string(),
                    _ => format!("{differences} differences"),
                },
                width,
                list,
                theirs,
                own,
            };
        }
    }
    unreachable!("some sketch opens");
}

/// A shingle that passes the wanted test on its cells.
fn lying(random: &mut Random, wanted: impl Fn([usize; 3]) -> bool) -> Shingle {
    loop {
        let shingle = random_list(1, random)[0];
        if wanted(places(&shingle, 64)) {
            return shingle;
        }
    }
}

/// Every cell holds a shingle that does not lie there, so that it is told apart only after all four
/// hashes; and one more shingle comes and goes in two cells, late or early ones of their groups, until
/// 3q were taken.
fn endless(name: &str, misplaced: bool, late: bool) -> Asked {
    let mut random = Random::of_case(7, 7);
    let random = &mut random;
    let comes_and_goes = lying(random, |at| match late {
        true => at[1] >= 124 && at[2] >= 188,
        false => at[1] < 68 && at[2] < 132,
    });
    let mut theirs = vec![ZERO; 192];
    for (i, cell) in theirs.iter_mut().enumerate() {
        let mut held = part(&lying(random, |at| !at.contains(&i)));
        if !misplaced {
            held[4] ^= 1;
        }
        *cell = held;
    }
    let [blocked, first, second] = places(&comes_and_goes, 64);
    theirs[blocked][0] = 7;
    theirs[first] = ZERO;
    theirs[second] = part(&comes_and_goes);
    Asked {
        name: name.to_string(),
        width: 64,
        list: random_list(4_096, random),
        theirs,
        own: vec![ZERO; 192],
    }
}

/// The sketch of another, with the list in another order.
fn reordered(name: &str, asked: Asked, order: impl Fn(&mut Vec<Shingle>)) -> Asked {
    let mut list = asked.list;
    order(&mut list);
    Asked {
        name: format!("{}, {name}", asked.name),
        list,
        ..asked
    }
}

/// A list of which no setup knows, and no difference.
fn spoilt(name: &str, list: Vec<Shingle>) -> Asked {
    Asked {
        name: name.to_string(),
        width: 64,
        list,
        theirs: vec![ZERO; 192],
        own: vec![ZERO; 192],
    }
}

fn shuffle(list: &mut [Shingle]) {
    let mut random = Random::of_case(3, list.len());
    for k in (1..list.len()).rev() {
        let other = random.between(0, k as u64) as usize;
        list.swap(k, other);
    }
}

/// Organ pipes: the even ones rising, then the odd ones falling.
fn pipes(list: &mut Vec<Shingle>) {
    let even = list.iter().copied().step_by(2);
    let odd = list.iter().copied().skip(1).step_by(2);
    let falling: Vec<Shingle> = odd.collect::<Vec<_>>().into_iter().rev().collect();
    *list = even.chain(falling).collect();
}

/// As many new shingles as were found to open, all of them new.
fn most_takings(length: usize) -> Asked {
    for number in [150, 145, 140, 135, 130, 125, 120] {
        for case in 0..40 {
            let mut random = Random::of_case(11, 100 * number + case);
            let all = random_list(length + number, &mut random);
            let (new, list) = all.split_at(number);
            let own = sketch(list, 64);
            let more = sketch(new, 64);
            let theirs: Vec<Cell> = own.iter().zip(&more).map(|(a, b)| plus(a, b)).collect();
            if reference::opening::open(4, 64, &theirs, &own, list).is_ok() {
                return Asked {
                    name: format!("{number} differences, all of them new"),
                    width: 64,
                    list: list.to_vec(),
                    theirs,
                    own,
                };
            }
        }
    }
    unreachable!("some sketch opens");
}

/// All of them.
pub fn all() -> Vec<Asked> {
    let mut all = Vec::new();
    for length in [1_000, 4_000] {
        for differences in [0, 1, 30, 100] {
            all.push(differing(length, differences, 64));
        }
    }
    for differences in [1, 30, 100] {
        all.push(differing(4_000, differences, 61));
    }
    all.push(most_takings(3_900));
    all.push(endless(
        "hostile sketch, F(3) wrong, 3q takings",
        false,
        true,
    ));
    all.push(endless(
        "hostile sketch, cell wrong, 3q takings",
        true,
        true,
    ));
    all.push(endless(
        "hostile sketch, cell wrong, 3q takings early",
        true,
        false,
    ));
    let full = || differing(4_046, 100, 64);
    all.push(reordered("list falling", full(), |list| list.reverse()));
    all.push(reordered("list shuffled", full(), |list| shuffle(list)));
    all.push(reordered("list as organ pipes", full(), pipes));
    let one = random_list(1, &mut Random::of_case(1, 1))[0];
    let mut random = Random::of_case(5, 5);
    let mut equal = random_list(4_096, &mut random);
    equal.iter_mut().for_each(|shingle| *shingle = one);
    all.push(spoilt("list of one shingle 4,096 times", equal.clone()));
    for (k, shingle) in equal.iter_mut().enumerate() {
        shingle.own = 4_096 - k as u64;
    }
    all.push(spoilt("list of one previous id, falling", equal.clone()));
    let last = equal[4_095];
    equal[0] = last;
    all.push(spoilt("the same, its last pair twice", equal));
    let mut garbage = random_list(4_096, &mut random);
    garbage
        .iter_mut()
        .for_each(|shingle| shingle.level = random.number() >> 16);
    shuffle(&mut garbage);
    all.push(spoilt("list of random rows", garbage));
    all
}
