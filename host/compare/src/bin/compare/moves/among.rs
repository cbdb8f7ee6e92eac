//! Moves among all other calls on a cabinet, and moves on states and areas made by hand.
use super::call::call;
use super::drawn::{routed, whole_move};
use crate::calls::World;
use crate::hostile;
use crate::pools::Pool;
use crate::states::{any_snapshot, area_of};
use crate::tally::Tally;
use compare::area::Lent;
use compare::random::Random;

/// Tables made by hand in a turn, and moves on each.
const TABLES: usize = 6;
const MOVES: usize = 3;

/// A table of the pool, the same changed, or one of drawn words.
fn any_table(random: &mut Random, pool: &Pool) -> Lent {
    let built = &pool.tables[random.below(pool.tables.len())].table;
    match random.below(3) {
        0 => hostile::drawn(random),
        1 => hostile::changed(random, built),
        _ => built.clone(),
    }
}

/// Moves on a state and an area that may be any. The original is not asked.
fn by_hand(tally: &mut Tally, random: &mut Random, pool: &Pool) {
    let table = any_table(random, pool);
    let (snapshot, area) = (any_snapshot(random, &table), area_of(random, &table));
    let length = |text: &[u8]| table.walk(text).map_or(0, |(list, _)| list.len());
    let routed = routed(&pool.subjects, length);
    for _ in 0..MOVES {
        let (subjects, places) = whole_move(random, &pool.subjects, &routed);
        let asked = subjects.asked(snapshot, &area);
        call(tally, asked, places, None, || format!("  {area:?}\n"));
    }
}

/// One turn.
pub fn turn(tally: &mut Tally, random: &mut Random) {
    let pool = if random.once_in(3) {
        Pool::matched(tally, random, 30)
    } else {
        Pool::small(tally, random)
    };
    for _ in 0..TABLES {
        by_hand(tally, random, &pool);
    }
    let (others, capacity) = (random.below(2), 1 + random.below(3));
    let world = World::new(tally, random, pool, others, &[capacity]);
    let calls = 20 + random.below(60);
    world.moves(tally, random, calls);
}
