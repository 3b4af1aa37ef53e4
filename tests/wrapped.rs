//! Tests of include/yendrufal.rs, by the paper's worked values: `rustc --test tests/wrapped.rs -C link-arg=ARCHIVE`, as tests/header does.
//! Run with `words` as its one test it prints the words of each refusal.

#[allow(dead_code)]
#[path = "../include/yendrufal.rs"]
mod yendrufal;

use yendrufal::*;

const SAMPLES: [i16; 8] = [-3, -2, 4, -1, 5, 6, -1, 7];
const ROWS: [u64; 4] = [0x0f, 0x5a, 0x3c, 0xf0];

fn paper() -> Plate {
    Plate::prepare(8, Kind::G, &ROWS, 0).unwrap()
}

/// Runs a step over rooms of these lengths, filled with old values; gives the rooms back too.
fn with<T>(metrics: usize, decisions: usize, step: impl FnOnce(&mut Rooms) -> T) -> (T, Vec<i32>, Vec<u64>) {
    let (mut metrics, mut decisions) = (vec![9; metrics], vec![9; decisions]);
    let found = step(&mut Rooms { metrics: &mut metrics, decisions: &mut decisions });
    (found, metrics, decisions)
}

fn refused<T>(number: u64, place: u64) -> Result<T> {
    Err(Refusal { number, place })
}

#[test]
fn a_plate_has_its_parts() {
    let plate = paper();
    assert_eq!((plate.n(), plate.k(), plate.mask(), plate.widest()), (8, 4, 0, 3));
    assert_eq!(plate.widest_entry(), Ok(3));
    assert_eq!(Plate::from_words([0; 132]).widest_entry(), refused(5, 0));
    assert_eq!(plate.profile(), [0, 1, 2, 3, 2, 3, 2, 1, 0]);
    assert_eq!(plate.rows(), [0x0f, 0x5a, 0x3c, 0xf0]);
    assert_eq!((plate.metrics_needed(), plate.decisions_needed()), (16, 8));
    assert_eq!(Plate::from_words(*plate.words()), plate);
    assert_eq!(Plate::prepare(8, Kind::H, &ROWS, 0), Ok(plate), "this code is its own dual");
    let widest: Vec<u64> = (0..12).map(|i| 1 << i | 1 << (i + 12)).collect();
    let widest = Plate::prepare(64, Kind::G, &widest, 0).unwrap();
    assert_eq!((widest.metrics_needed(), widest.decisions_needed()), (METRICS_MOST, DECISIONS_MOST));
}

#[test]
fn preparing_is_refused() {
    assert_eq!(Plate::prepare(0, Kind::G, &[], 0), refused(1, 0));
    assert_eq!(Plate::prepare(8, Kind::G, &[0; 65], 0), refused(2, 0));
    assert_eq!(Plate::prepare(8, Kind::G, &[1, 256], 0), refused(3, 1));
    assert_eq!(Plate::prepare(8, Kind::G, &[1], 256), refused(23, 0));
    let wide: Vec<u64> = (0..13).map(|i| 1 << i | 1 << (i + 13)).collect();
    assert_eq!(Plate::prepare(26, Kind::G, &wide, 0), refused(4, 13));
}

#[test]
fn a_sheet_has_its_plate() {
    let sheet = include_bytes!("../examples/paper.sheet");
    assert_eq!(Plate::of_sheet(sheet), Ok((paper(), Order::First)));
    let turned = Plate::of_sheet(b"cover\t3\tG\tlast\nmask\t100\nrow\t011\nend\n");
    assert_eq!(turned, Ok((Plate::prepare(3, Kind::G, &[3], 4).unwrap(), Order::Last)));
    let refusal = |number, place, field| Err(SheetRefusal { refusal: Refusal { number, place }, field });
    assert_eq!(Plate::of_sheet(b""), refusal(10, 1, 0));
    assert_eq!(Plate::of_sheet(b"cover\t3\tG\tfirst\nrow\t01\nend\n"), refusal(20, 2, 2));
    assert_eq!(Plate::of_sheet(b"cover\t0\tG\tfirst\nend\n"), refusal(1, 0, 0));
}

#[test]
fn a_block_is_decoded() {
    let plate = paper();
    let counts = Counts { additions: 44, comparisons: 11 };
    let (found, metrics, decisions) = with(17, 9, |rooms| plate.decode(&SAMPLES, rooms));
    assert_eq!(found, Ok(Answer { word: 0x0f, metric: 19, counts }));
    assert_eq!((&metrics[..16], metrics[16]), (&[0; 16][..], 9), "what was needed is zero, and no more");
    assert_eq!((&decisions[..8], decisions[8]), (&[0; 8][..], 9));
    assert_eq!(with(16, 8, |rooms| plate.best_word(&SAMPLES, rooms)).0, Ok((0x0f, counts)));
    assert_eq!(plate.best_metric(&SAMPLES, &mut [9; 16]), Ok((19, counts)));
}

#[test]
fn decoding_is_refused() {
    let plate = paper();
    let decode = |metrics, decisions, samples: &[i16]| {
        with(metrics, decisions, |rooms| plate.decode(samples, rooms)).0
    };
    assert_eq!(decode(16, 8, &SAMPLES[1..]), refused(6, 0));
    assert_eq!(decode(16, 8, &[0, 0, 0, 0, 0, -2048, 0, 0]), refused(7, 5));
    assert_eq!(decode(15, 8, &SAMPLES), refused(8, 0));
    assert_eq!(decode(16, 7, &SAMPLES), refused(9, 0));
    assert_eq!(decode(0, 0, &[]), refused(6, 0), "empty runs may be lent");
    let none = Plate::from_words([0; 132]);
    let (found, metrics, decisions) = with(16, 8, |rooms| none.decode(&SAMPLES, rooms));
    assert_eq!((found, metrics, decisions), (refused(5, 0), vec![9; 16], vec![9; 8]));
}

#[test]
fn blocks_are_decoded() {
    let plate = paper();
    let mut samples = SAMPLES.repeat(2);
    samples.extend([1; 8]);
    let (mut words, mut scores) = ([7; 3], [7; 3]);
    let batch = |samples: &[i16], words: &mut [u64], scores: &mut [i32]| {
        with(16, 8, |rooms| plate.decode_blocks(samples, rooms, words, scores)).0
    };
    let counts = Counts { additions: 44, comparisons: 11 };
    assert_eq!(batch(&samples, &mut words, &mut scores), Ok(counts));
    assert_eq!((words, scores), ([0x0f, 0x0f, 0], [19, 19, 8]));
    assert_eq!(batch(&[], &mut [], &mut []), Ok(Counts::default()), "no block has no counts");
    assert_eq!(batch(&samples[1..], &mut words, &mut scores), refused(6, 0));
    assert_eq!(batch(&samples, &mut words[1..], &mut scores[1..]), refused(6, 0));
    assert_eq!(batch(&samples, &mut words, &mut scores[1..]), refused(6, 0));
    samples[17] = 2048;
    assert_eq!(batch(&samples, &mut words, &mut scores), refused(7, 17), "the place in the whole run");
    assert_eq!((words, scores), ([0x0f, 0x0f, 0], [19, 19, 8]), "a refusal changes nothing");
}

#[test]
fn branches_are_asked() {
    let plate = paper();
    assert_eq!(plate.branch(4, 1, 0), Ok(Some(5)));
    assert_eq!(plate.branch(4, 1, 1), Ok(Some(1)));
    assert_eq!(plate.branch(3, 1, 1), Ok(Some(0)));
    assert_eq!(plate.branch(3, 1, 0), Ok(None));
    assert_eq!(plate.branch(4, 4, 0), refused(12, 0));
}

#[test]
fn words_are_coded() {
    let plate = paper();
    assert_eq!(plate.encode(9), Ok(0xff));
    assert_eq!(plate.read_back(0xff), Ok(9));
    assert_eq!(plate.encode(16), refused(13, 0));
    assert_eq!(plate.read_back(0x4b), refused(14, 0), "11010010 on paper");
    let masked = Plate::prepare(8, Kind::G, &ROWS, 0x81).unwrap();
    assert_eq!((masked.mask(), masked.encode(9), masked.read_back(0x7e)), (0x81, Ok(0x7e), Ok(9)));
}

#[test]
fn questions_are_answered() {
    let plate = paper();
    let firm = |position| with(16, 8, |rooms| plate.firmness(&SAMPLES, position, rooms)).0;
    for position in 0..8 {
        let Ok(Reading::Open(margin)) = firm(position) else { panic!("every position is open") };
        let bit = 0x0f >> position & 1;
        assert!(if bit == 0 { margin >= 0 } else { margin <= 0 }, "the margin has the sign of the bit");
    }
    assert_eq!(firm(8), refused(21, 0));
    let all = with(17, 9, |rooms| plate.firmness_all(&SAMPLES, rooms));
    let readings = all.0.unwrap();
    assert!(
        (0..8).all(|position| readings[position] == firm(position as u64).ok()),
        "each is what firmness gives"
    );
    assert!(readings[8..].iter().all(Option::is_none));
    assert_eq!((&all.1[..16], all.1[16], &all.2[..8], all.2[8]), (&[0; 16][..], 9, &[0; 8][..], 9));
    assert_eq!(with(15, 8, |rooms| plate.firmness_all(&SAMPLES, rooms)).0, refused(8, 0));
    assert_eq!(with(16, 8, |rooms| plate.firmness_all(&[0, 0, 2048, 0, 0, 0, 0, 0], rooms)).0, refused(7, 2));
    let fixed = Plate::prepare(2, Kind::G, &[1], 2).unwrap();
    assert_eq!(with(4, 2, |rooms| fixed.firmness(&[5, 5], 1, rooms)).0, Ok(Reading::Fixed(true)));
    let why = |word| with(16, 8, |rooms| plate.why_not(&SAMPLES, word, rooms)).0;
    assert_eq!(why(0x0f), Ok(Reason::Chosen));
    assert_eq!(why(0x10f), Ok(Reason::NotInCode(8)));
    assert_eq!(why(0x00), Ok(Reason::ScoresLess(4)));
    let three = Plate::prepare(3, Kind::G, &[7], 0).unwrap();
    assert_eq!(with(4, 3, |rooms| three.why_not(&[2, -1, -1], 7, rooms)).0, Ok(Reason::Ties(0)));
}

#[test]
fn matrices_are_written_and_read() {
    let mut room = [b'x'; ALIST_MOST];
    let size = write_alist(8, &ROWS, &mut room).unwrap();
    assert!(room[..size].starts_with(b"8 4\n3 4\n"));
    let matrix = Matrix::read_alist(&room[..size]).unwrap();
    assert_eq!((matrix.n, matrix.rows()), (8, &ROWS[..]));
    assert_eq!(write_alist(8, &ROWS, &mut room[..size - 1]), refused(11, 0));
    assert_eq!(write_alist(8, &[1, 256], &mut room), refused(3, 1));
    assert_eq!(write_alist(8, &[], &mut room), refused(16, 0));
    assert_eq!(Matrix::read_alist(&room[..size - 1]), refused(16, 16), "the last line is not ended");
    assert_eq!(Matrix::read_alist(b""), refused(16, 1));
}

#[test]
fn a_listing_is_judged() {
    let plate = Plate::prepare(3, Kind::H, &[7], 0).unwrap();
    let branch = |numbers: [u64; 4]| {
        numbers.iter().fold(String::from("branch"), |line, number| format!("{line}\t{number}")) + "\n"
    };
    let lines = |list: &[[u64; 4]]| list.iter().map(|&numbers| branch(numbers)).collect::<String>();
    let ours = [
        [0, 0, 0, 0],
        [0, 0, 1, 1],
        [1, 0, 0, 0],
        [1, 0, 1, 1],
        [1, 1, 1, 0],
        [1, 1, 0, 1],
        [2, 0, 0, 0],
        [2, 1, 1, 0],
    ];
    let judge = |list: &[[u64; 4]], room| plate.judge(lines(list).as_bytes(), &mut vec![9; room]);
    assert_eq!(judge(&ours, 32), Ok(Judgement::Right(Surplus { states: [0; 65], branches: [0; 64] })));
    assert_eq!(judge(&ours, 31), refused(8, 0));
    assert_eq!(judge(&ours[1..], 32), Ok(Judgement::NotSpelled(0)));
    assert_eq!(
        judge(&[[0, 0, 0, 0], [1, 0, 0, 0], [2, 0, 0, 0], [2, 0, 1, 0]], 16),
        Ok(Judgement::SpelledWrongly(4))
    );
    assert_eq!(judge(&[ours[1], ours[1]], 8), refused(27, 2));
    assert_eq!(judge(&[ours[2], ours[0]], 8), refused(26, 2));
    assert_eq!(judge(&[ours[0]; 1025], JUDGING_MOST), refused(28, 0));
    assert_eq!(Plate::from_words([0; 132]).judge(b"", &mut []), refused(5, 0));
}

#[test]
fn weights_are_counted() {
    let plate = paper();
    let mut counts = [0; 65];
    (counts[0], counts[4], counts[8]) = (1, 14, 1);
    assert_eq!(plate.weight_working_needed(), 130 << 3);
    let mut working = vec![9; plate.weight_working_needed() + 1];
    assert_eq!(plate.weights(&mut working), Ok(Weights { counts, least: Some(4) }));
    assert!(working[..130 << 3].iter().all(|&cell| cell == 0) && working[130 << 3] == 9);
    assert_eq!(plate.weights(&mut working[..(130 << 3) - 1]), refused(8, 0));
    assert_eq!(Plate::from_words([0; 132]).weights(&mut working), refused(5, 0));
    let whole: Vec<u64> = (0..64).map(|i| 1 << i).collect();
    assert_eq!(
        Plate::prepare(64, Kind::G, &whole, 0).unwrap().weights(&mut []),
        refused(22, 0),
        "22 before 8"
    );
    counts = [0; 65];
    counts[0] = 1;
    let zero = Plate::prepare(8, Kind::G, &[], 0x81).unwrap();
    assert_eq!(zero.weights(&mut working), Ok(Weights { counts, least: None }));
}

#[test]
fn values_become_levels() {
    let setting = Setting { step: 0.5, top: 127 };
    assert_eq!(level(setting, Some(1.9)), Ok(3));
    assert_eq!(level(setting, Some(-1.9)), Ok(-3));
    assert_eq!(level(setting, Some(f32::NEG_INFINITY)), Ok(-127));
    assert_eq!(level(setting, None), Ok(0));
    assert_eq!(level(setting, Some(f32::NAN)), refused(25, 0));
    for top in [0, 128, 256 + 5, 1 << 63] {
        assert_eq!(
            level(Setting { top, ..setting }, Some(f32::NAN)),
            refused(24, 0),
            "no top is cut to a permitted one"
        );
    }
    let mut room = [7; 4];
    let values = [1.9, f32::NAN, -0.5, 1000.0];
    assert_eq!(levels(4, setting, &values, 0, &mut room), refused(25, 1));
    assert_eq!(
        levels(4, Setting { top: 256 + 5, ..setting }, &values[1..], 2, &mut room),
        refused(24, 0),
        "24 before 6"
    );
    assert_eq!(
        levels(0, Setting { top: 256 + 5, ..setting }, &values, 2, &mut room),
        refused(1, 0),
        "1 before 24"
    );
    assert_eq!(levels(4, setting, &values, 2, &mut room[1..]), refused(6, 0));
    assert_eq!(room, [7; 4], "a refusal changes nothing");
    assert_eq!((levels(4, setting, &values, 2, &mut room), room), (Ok(()), [3, 0, -1, 127]));
}

#[test]
fn lines_are_written() {
    let (plate, mut line) = (paper(), [0; LINE_MOST]);
    let counts = Counts { additions: 44, comparisons: 11 };
    let answer = Answer { word: 0x0f, metric: 19, counts };
    let mut text = Vec::new();
    let mut add = |room: &[u8], size: Result<usize>| text.extend_from_slice(&room[..size.unwrap()]);
    let size = plate.write_plate(&mut line);
    add(&line, size);
    let size = plate.write_profile(&mut line);
    add(&line, size);
    let size = plate.write_word(&answer, &mut line);
    add(&line, size);
    let size = write_end(1, &mut line);
    add(&line, size);
    let sheet = include_bytes!("../examples/paper.sheet");
    assert_eq!(text, include_bytes!("../examples/paper.listing"));
    let mut room = vec![0; listing_room(sheet)];
    let size = with(METRICS_MOST, DECISIONS_MOST, |rooms| listing(sheet, rooms, &mut room)).0.unwrap();
    assert_eq!(&room[..size], &text[..]);
    let size = write_refused(Refusal { number: 19, place: 1 }, 3, &mut line).unwrap();
    assert_eq!(&line[..size], b"refused\t19\t1\t3\n");
    assert_eq!(plate.write_plate(&mut line[..5]), refused(11, 0));
}

#[test]
fn summaries_are_written() {
    let mut line = [0; LINE_MOST];
    let tally = Tally { decoded: 3, refused: 1, late: 2, zeros: 5, above: 7, below: 19, ..Tally::default() };
    let size = write_tally(&tally, &mut line).unwrap();
    assert_eq!(&line[..size], b"tally\t3\t1\t0\t2\t0\t0\t5\t-12\t3\n");
    let size = write_weight(4, 14, &mut line).unwrap();
    assert_eq!(&line[..size], b"weight\t4\t14\n");
    let size = write_least(Some(4), &mut line).unwrap();
    assert_eq!(&line[..size], b"least\t4\n");
    let size = write_least(None, &mut line).unwrap();
    assert_eq!(&line[..size], b"least\tnone\n");
    assert_eq!(write_least(None, &mut line[..10]), refused(11, 0));
}

#[test]
fn words() {
    for number in 1.. {
        let refusal = Refusal { number, place: 3 };
        if refusal.words() == (Refusal { number: 0, place: 0 }).words() {
            break;
        }
        assert_eq!(refusal.to_string(), format!("refusal {number}, place 3: {}", refusal.words()));
        println!("{number} {}", refusal.words());
    }
}
