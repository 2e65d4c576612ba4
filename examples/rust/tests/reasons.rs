// `reason` on every stored case of tests/answers/told.txt, finished in one call and by steps, with the lines that are stored; the work space is only read.
use outline::*;

const STORED: &str = include_str!("../../../tests/answers/told.txt");

fn bytes(hex: &str) -> Vec<u8> {
    (0..hex.len()).step_by(2).map(|at| u8::from_str_radix(&hex[at..at + 2], 16).expect("hex")).collect()
}

/// A line for each record that there is.
fn told(work: &[u32]) -> String {
    let reasons = (0..).map_while(|record| reason(work, record).ok());
    reasons.enumerate().map(|(record, reason)| format!("record {record}: {reason}\n")).collect()
}

fn in_one_call(job: &[u8]) -> String {
    let (mut work, mut tray) = (vec![7; WORK_WORDS], vec![7; TRAY_BYTES]);
    match finish(job, &mut work, &mut tray) {
        Err(refused) => format!("refused {}\n", refused.0),
        Ok(()) => told(&work),
    }
}

/// Records rising, asked before each step.
fn by_steps(job: &[u8]) -> String {
    let mut work = vec![7; WORK_WORDS];
    if let Err(refused) = open(job, &mut work) {
        return format!("refused {}\n", refused.0);
    }
    for record in 0..RECORDS as u32 {
        loop {
            let asked = reason(&work, 0);
            match step(&mut work, record) {
                Ok(()) => assert_eq!(asked, Err(Refused::OUT_OF_TURN)),
                Err(Refused::OUT_OF_TURN) => break,
                Err(refused) => return format!("refused {}\n", refused.0),
            }
        }
    }
    told(&work)
}

#[test]
fn stored() {
    let mut kinds = [0; 9];
    let mut cases = 0;
    for case in STORED.split("\n\n").filter(|case| !case.is_empty()) {
        let (head, lines) = case.split_once("\njob ").expect("a case and its job");
        let (job, lines) = lines.split_once('\n').unwrap_or((lines, ""));
        let (job, wanted) = (bytes(job), lines.trim_end());
        assert_eq!(in_one_call(&job).trim_end(), wanted, "{head}");
        assert_eq!(by_steps(&job).trim_end(), wanted, "{head}, by steps");
        let (mut work, mut tray) = (vec![0; WORK_WORDS], vec![0; TRAY_BYTES]);
        let _ = finish(&job, &mut work, &mut tray);
        let before = work.clone();
        (0..RECORDS as u32).for_each(|record| kinds[reason(&work, record).map_or(0, Reason::number) as usize] += 1);
        assert_eq!(work, before, "{head}: a word is written");
        cases += 1;
    }
    assert!(cases > 150 && kinds.iter().all(|count| *count > 0), "{cases} cases: {kinds:?}");
}
