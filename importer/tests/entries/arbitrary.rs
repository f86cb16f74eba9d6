//! Lists of arbitrary words.

use harness::lists::List;
use harness::random::Random;
use harness::settings::Settings;

pub fn any_word(random: &mut Random) -> u32 {
    match random.below(8) {
        0..=3 => 0,
        4 => random.below(4),
        5 => random.below(24),
        6 => random.between(250, 262),
        _ => random.word(),
    }
}

pub fn arbitrary_list(random: &mut Random) -> List {
    let settings = Settings {
        count_regs: if random.percent(95) { random.between(0, 66) } else { random.word() },
        compress: random.percent(20),
        ..Settings::default()
    };
    let records = random.below(6);
    let more = if random.percent(95) { 0 } else { random.below(8) };
    let table = 2 * random.below(4) + u32::from(random.percent(5));
    let mut words: Vec<u32> = (0..records * 8 + more).map(|_| any_word(random)).collect();
    words.iter_mut().step_by(8).for_each(|kind| *kind = random.below(22));
    List { settings, table: (0..table).map(|_| any_word(random)).collect(), words }
}
