// The quick call as an editor makes it while a sheet is typed: on sheets of 8 to 64 entries, with a budget of 64, beside the full call with the same budget and
// with 256; then on larger sheets, where it may be stopped. Interleaved in one run, the median of many calls each. Not part of the gate: it measures, and judges
// nothing.

#[allow(dead_code)]
mod calls;
#[allow(dead_code)]
mod kinds;
#[allow(dead_code)]
mod sheets;
use sheets::{sheet, FRONT};
use std::time::Instant;

type Call = (fn(&[u8], u32, u32, &mut [u8]) -> u32, u32);

fn median(mut times: Vec<f64>) -> f64 {
    times.sort_by(|a, b| a.partial_cmp(b).unwrap());
    times[times.len() / 2]
}

// The answers and the microseconds of the quick call, of the full one with the same budget, and of the full one with 256.
fn measure(s: &[u8], cut: u32) -> ([u32; 3], [f64; 3]) {
    let calls: [Call; 3] = [(calls::quick, 64), (calls::verdict, 64), (calls::verdict, 256)];
    let mut buffer = vec![0u8; FRONT + 40 * 256];
    let mut answers = [0; 3];
    let mut times = [vec![], vec![], vec![]];
    for round in 0..1000 {
        // Each call comes first, second and third equally often.
        for i in (0..3).map(|k| (k + round) % 3) {
            let (call, budget) = calls[i];
            let begin = Instant::now();
            answers[i] = call(s, cut, budget, &mut buffer);
            times[i].push(begin.elapsed().as_secs_f64() * 1e6);
        }
        assert!(answers[0] == answers[1], "the calls differ: {answers:?}");
    }
    (answers, times.map(median))
}

fn words(answer: u32) -> String {
    format!("{} {}", ["reached", "out of reach", "stopped"][(answer / 1000 - 1) as usize], answer % 1000)
}

// A row for each kind and size. Hands back how many times as long as the full call with the same budget each quick call takes.
fn rows(sizes: &[usize]) -> Vec<f64> {
    println!("                        full call, us             quick to full   verdict and rungs:");
    println!("sheet       n   quick us   budget 64   budget 256   at budget 64   the quick call, the full one with 256");
    let mut ratios = vec![];
    for (name, make) in kinds::BY_NAME {
        for n in sizes {
            let (entries, heard, goal) = make(*n);
            let (answers, [quick, same, full]) = measure(&sheet(&entries, &heard, goal), heard.len() as u32);
            let verdicts = if answers[0] == answers[2] { words(answers[0]) } else { format!("{}, {}", words(answers[0]), words(answers[2])) };
            println!("{name:8} {n:4} {quick:10.1} {same:11.1} {full:12.1} {:14.3}   {verdicts}", quick / same);
            ratios.push(quick / same);
        }
    }
    ratios
}

fn main() {
    let mut ratios = rows(&[8, 16, 24, 32, 40, 48, 56, 64]);
    ratios.sort_by(|a, b| a.partial_cmp(b).unwrap());
    let [least, middle, most] = [0, ratios.len() / 2, ratios.len() - 1].map(|i| ratios[i]);
    println!("quick to full at the same budget: least {least:.3}, middle {middle:.3}, most {most:.3} of {} sheets", ratios.len());
    rows(&[128, 256]);
}
