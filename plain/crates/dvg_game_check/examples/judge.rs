// A trial, not proved: judges programs, each by its file and that of its vector ROM.
use dvg_game_check::{Verdict, all_broken, judge};
use dvg_mem::Rom;
use plain_std::alloc::Global;
use std::time::Instant;

fn main() {
    let files: Vec<String> = std::env::args().skip(1).collect();
    for pair in files.chunks(2) {
        let rom = std::fs::read(&pair[0]).unwrap();
        let shapes = std::fs::read(&pair[1]).unwrap();
        if rom.len() != 6144 {
            println!("{} Size {}", pair[0], rom.len());
            continue;
        }
        let began = Instant::now();
        let vectors = Rom::new(Global, &shapes).unwrap();
        let judged = judge(Global, &rom, &vectors).unwrap();
        let all = began.elapsed();
        println!("{} {:X?} {} us", pair[0], judged.verdict, all.as_micros());
        if matches!(judged.verdict, Verdict::Refused(_)) {
            let broken = all_broken(Global, &rom, judged.notes.as_slice()).unwrap();
            for one in broken.as_slice() {
                println!("  {:04X} {:?}", one.at, one.rule);
            }
        }
    }
}
