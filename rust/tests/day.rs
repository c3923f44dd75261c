//! A day against 24 hours settled one by one: the summaries, each hour's part of the lists, and the refusals of the whole call.
use naomhral::{sheets, AGENTS_MOST, CONTRACTS_MOST, FIGURES_MOST, HOURS, PLANTS_MOST};

const PAINT: u32 = 0xa5a5_a5a5;

struct Lists {
    figures: Vec<u32>,
    money: Vec<i64>,
    schedule: Vec<u32>,
    amounts: Vec<u32>,
}

impl Lists {
    /// Lists of so many parts, painted.
    fn parts(parts: usize) -> Lists {
        Lists {
            figures: vec![PAINT; parts * FIGURES_MOST],
            money: vec![i64::MIN; parts * AGENTS_MOST],
            schedule: vec![PAINT; parts * PLANTS_MOST],
            amounts: vec![PAINT; parts * CONTRACTS_MOST],
        }
    }

    fn part(&self, hour: usize) -> (&[u32], &[i64], &[u32], &[u32]) {
        (
            &self.figures[FIGURES_MOST * hour..][..FIGURES_MOST],
            &self.money[AGENTS_MOST * hour..][..AGENTS_MOST],
            &self.schedule[PLANTS_MOST * hour..][..PLANTS_MOST],
            &self.amounts[CONTRACTS_MOST * hour..][..CONTRACTS_MOST],
        )
    }

    fn day(&mut self, bytes: &[u8], lengths: &[u32; HOURS]) -> naomhral::Day {
        naomhral::day(bytes, lengths, &mut self.figures, &mut self.money, &mut self.schedule, &mut self.amounts)
    }
}

/// Settled hours of every size, refused ones between them, one of no bytes.
fn day() -> Vec<Vec<u8>> {
    let kinds = [sheets::worked().bytes(), sheets::largest().bytes(), sheets::march().bytes(), Vec::new(), sheets::middling().bytes()];
    (0..HOURS).map(|hour| kinds[hour % kinds.len()].clone()).collect()
}

fn lengths(day: &[Vec<u8>]) -> [u32; HOURS] {
    std::array::from_fn(|hour| day[hour].len() as u32)
}

#[test]
fn each_hour_as_alone() {
    let sheets = day();
    let mut lists = Lists::parts(HOURS + 1);
    let told = lists.day(&[sheets.concat(), vec![7; 5]].concat(), &lengths(&sheets)).expect("a day");
    for (hour, sheet) in sheets.iter().enumerate() {
        let mut alone = Lists::parts(1);
        let answer =
            naomhral::settle(sheet, &mut alone.figures, &mut alone.money, &mut alone.schedule, &mut alone.amounts);
        assert_eq!(told[hour], answer, "hour {hour}");
        assert_eq!(lists.part(hour), alone.part(0), "hour {hour}");
    }
    assert_eq!(lists.part(HOURS), Lists::parts(1).part(0), "behind the parts");
}

#[test]
fn refused_whole() {
    let sheets = day();
    let bytes = sheets.concat();
    let untouched = |lists: &Lists, parts: usize| (0..parts).all(|hour| lists.part(hour) == Lists::parts(1).part(0));

    let mut lists = Lists::parts(HOURS);
    let short = lists.day(&bytes[..bytes.len() - 1], &lengths(&sheets)).expect_err("a byte short");
    assert_eq!((short.number, short.place), (1, 0));
    assert!(untouched(&lists, HOURS));

    // 16 lengths of 2^28 sum to 2^32
    let wrapping = std::array::from_fn(|hour| if hour < 16 { 1 << 28 } else { 0 });
    assert_eq!(lists.day(&bytes, &wrapping).expect_err("lengths past 2^32").number, 1);
    assert!(untouched(&lists, HOURS));

    let mut lists = Lists::parts(HOURS - 1);
    assert_eq!(lists.day(&bytes, &lengths(&sheets)).expect_err("a part short").number, 11);
    assert_eq!(lists.day(&bytes[1..], &lengths(&sheets)).expect_err("both").number, 1);
    assert!(untouched(&lists, HOURS - 1));
}
