//! The example sheets, through the wrapper: what each gets from check, from each pass and from all five.
mod common;

use common::{down, edition, examples, listing, origins, output, up};
use std::fs;

#[test]
fn checked() {
    let sheets = examples();
    assert!(sheets.len() >= 35, "only {} examples", sheets.len());
    for path in sheets {
        let line = match reqshabu::check(&fs::read(&path).unwrap()) {
            Ok(a) => format!("accepted cells {} columns {}\n", a.cells, a.columns),
            Err(r) => format!("refused {} place {}\n", r.number, r.place),
        };
        assert_eq!(line, fs::read_to_string(path.with_extension("check")).unwrap(), "{}", path.display());
    }
}

#[test]
fn optimized() {
    for path in examples() {
        let mut output = output();
        let answer = reqshabu::optimize(&fs::read(&path).unwrap(), &mut output);
        let expected = fs::read_to_string(path.with_extension("list")).unwrap();
        assert_eq!(listing(answer, &output), expected, "{}", path.display());
    }
}

#[test]
fn each_pass() {
    for path in examples() {
        let sheet = fs::read(&path).unwrap();
        let one = |pass| {
            let mut output = output();
            let answer = reqshabu::pass(&sheet, pass, &mut output);
            format!("pass {pass}\n{}", listing(answer, &output))
        };
        let text: String = (1..=5).map(one).collect();
        assert_eq!(text, fs::read_to_string(path.with_extension("passes")).unwrap(), "{}", path.display());
    }
}

/// The passes by number, and all five as 6.
fn operate(number: usize, sheet: &[u8]) -> Result<Vec<u8>, reqshabu::Refusal> {
    match number {
        6 => reqshabu::optimize_to_vec(sheet),
        _ => reqshabu::pass_to_vec(sheet, number),
    }
}

#[test]
fn stored_origins() {
    let mut found = 0;
    for path in examples() {
        let sheet = fs::read(&path).unwrap();
        let Ok(stored) = fs::read_to_string(path.with_extension("origins")) else { continue };
        let line = |what: String, sheet: &[u8]| {
            let numbers: Vec<String> = origins(sheet).iter().map(u16::to_string).collect();
            format!("{what}: {}\n", numbers.join(" "))
        };
        let mut text = line("handed in".into(), &sheet);
        (1..=5).for_each(|pass| text += &line(format!("pass {pass}"), &operate(pass, &sheet).unwrap()));
        text += &line("all five".into(), &operate(6, &sheet).unwrap());
        assert_eq!(text, stored, "{}", path.display());
        found += 1;
    }
    assert!(found >= 2, "only {found} examples of edition 2");
}

#[test]
fn editions_are_answered_alike() {
    for path in examples() {
        let sheet = fs::read(&path).unwrap();
        if reqshabu::check(&sheet).is_err() {
            continue;
        }
        let (one, two) = (down(&sheet), up(&sheet, |i| (i as u16).wrapping_mul(40_503)));
        assert_eq!(reqshabu::check(&two), reqshabu::check(&one), "{}", path.display());
        for number in 1..=6 {
            let (plain, with) = (operate(number, &one), operate(number, &two));
            if let (Ok(plain), Ok(with)) = (&plain, &with) {
                assert_eq!((edition(plain), edition(with)), (1, 2), "{}, {number}", path.display());
                assert!(origins(plain).iter().all(|&origin| origin == 0), "{}, {number}", path.display());
                assert!(origins(with).iter().all(|origin| origins(&two).contains(origin)), "{}, {number}", path.display());
            }
            assert_eq!(with.map(|with| down(&with)), plain, "{}, {number}", path.display());
        }
    }
}

#[test]
fn every_refusal_has_an_example() {
    // Check gives 2 to 10, the passes 11 to 14; 1 and 15 come from the call.
    let mut seen = [false; 16];
    for path in examples() {
        if let Err(r) = reqshabu::optimize(&fs::read(&path).unwrap(), &mut output()) {
            seen[r.number as usize] = true;
        }
    }
    assert_eq!(seen, std::array::from_fn(|number| (2..=14).contains(&number)));
}

#[test]
fn short_inputs() {
    for n in 0..40 {
        let sheet = vec![0; n];
        assert_eq!(reqshabu::check(&sheet).unwrap_err().number, 2);
        assert_eq!(reqshabu::optimize(&sheet, &mut []).unwrap_err().number, 2);
        for pass in 1..=5 {
            assert_eq!(reqshabu::pass(&sheet, pass, &mut []).unwrap_err().number, 2);
        }
    }
}
