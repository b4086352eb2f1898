// What `dvg explain` says of the faults of a frame, for the page's editors: what each means, and
// what to do. It is taken out of the plain form of dvg_explain.
import { readFileSync } from 'node:fs';

const SOURCE = new URL('../plain/crates/dvg_explain/src/lib.rs', import.meta.url);
const ADVICE = /means: "([^"]*)",\s*cure: "([^"]*)"/g;

// Two sentences for each fault, by their numbers from 1 on; and after all of them those of a loop
// in the ROM, as those of fault 9 are of a loop in the frame.
export function explainedFaults() {
  return [...readFileSync(SOURCE, 'utf8').matchAll(ADVICE)].map(([, ...sentences]) => (
    sentences.map((text) => text.replace(/\\\n\s*/g, ''))));
}
