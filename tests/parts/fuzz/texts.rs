//! The engines of `dvg` for clang's libFuzzer (tests/fuzz). An input has the words of a command, a
//! line each, up to an empty line, and then what stands on standard input. Whatever they are, this
//! comes to its end without a panic, and so do the texts of what came of it.
use dvg_explain::explain_line;
use dvg_tool::{Done, Job, ToolFault, Watched, finish, job, perform, status};
use plain_std::alloc::Global;

/// Returns the words of an input and what stands behind them, if it has words that are text.
fn split(input: &[u8]) -> Option<(Vec<&str>, &[u8])> {
    let (mut words, mut rest) = (vec!["dvg"], input);
    loop {
        let end = rest.iter().position(|byte| *byte == b'\n')?;
        let (line, after) = (&rest[..end], &rest[end + 1..]);
        if line.is_empty() {
            return Some((words, after));
        }
        words.push(str::from_utf8(line).ok()?);
        rest = after;
    }
}

/// Does what these words ask for, with `text` on standard input, and makes the texts that the
/// program prints then.
fn run(words: &[&str], text: &[u8]) {
    let asked = match job(Global, words) {
        Ok(asked) => asked,
        Err(error) => return drop(error.to_string()),
    };
    let mut reader = Watched::new(text);
    let mut writer = Watched::new(std::io::sink());
    let done = perform(Global, asked, &mut reader, &mut writer);
    let answer = finish(done, &mut writer);
    match &answer {
        Ok(Done::Refused(refusal)) => drop(refusal.to_string()),
        Ok(Done::Undrawn(undrawn)) => drop(undrawn.to_string()),
        Ok(_) => {}
        Err(fault) => drop(fault.to_string()),
    }
    let reads_sketch = matches!(asked, Job::Render { .. } | Job::RenderCheck | Job::Lay { .. });
    if let (Err(ToolFault::Text(fault)), true) = (&answer, reads_sketch) {
        let small = text.to_ascii_lowercase();
        if let Some(explained) = explain_line(*fault, text, &small) {
            drop(format!("{}{}", explained.line, explained.expected));
        }
    }
    assert!(status(&answer) != 2, "no stream fails here, and no memory is refused");
}

/// # Safety
///
/// At `data` there are `size` bytes, as libFuzzer has them.
#[unsafe(no_mangle)]
pub unsafe extern "C" fn LLVMFuzzerTestOneInput(data: *const u8, size: usize) -> i32 {
    // SAFETY: the caller's word; a slice of no bytes may be anywhere but at null.
    let input: &[u8] = match size {
        0 => &[],
        _ => unsafe { std::slice::from_raw_parts(data, size) },
    };
    if let Some((words, text)) = split(input) {
        run(&words, text);
    }
    0
}
