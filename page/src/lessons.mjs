/* Seven lessons. Each is a state of the page: two frames, what happened, and the moment that is
 * shown; and three sentences. `shows` is the entry at that moment. */

const TRIANGLE = 'labs 262 300 0\nvctr 9 500 0 12\nvctr 9 -250 433 12\nvctr 9 -250 -433 12\nhalt';
const HOUSE = `labs 312 250 0
vctr 9 400 0 12
vctr 9 0 300 12
vctr 9 -200 200 12
vctr 9 -200 -200 12
vctr 9 400 0 12
vctr 9 -400 0 0
vctr 9 0 -300 12
halt`;

/* The triangle is written and published, and its strobe is sent: 2 + 1 + 22 events. */
const PUBLISHED = ['tick 2', 'offer A', 'tick 22'];
/* The house was drawn before that, from half 1. */
const HOUSE_DRAWN = ['tick 2', 'offer B', 'tick 38', 'strobe', 'fetch 36'];
const THEN_PUBLISHED = ['offer A', 'tick 22'];
/* Both ends by turns. */
const both = (times, ticks) => Array(times).fill(['fetch', `tick ${ticks}`]).flat();

/* The paragraphs of a text, between which there is an empty line. */
function paragraphs(text) {
  return text.split('\n\n').map((part) => part.trim().replace(/\s+/g, ' '));
}

export const LESSONS = [
  {
    title: 'A first picture', at: 46, shows: '45 done 209 B000 3',
    steps: [...PUBLISHED, 'strobe', 'fetch 20'],
    sentences: paragraphs(`
      In events 3 to 20 the driver wrote a triangle into half 1 of the vector RAM, a byte
      each tick, and in event 22 it published it by one byte, of word zero.

      Event 24 sent a strobe, which reached the generator in event 25: from word zero on it
      fetched a byte each event, drew three strokes and halted.

      Click into the rows over time, or walk through them by the arrow keys, and see the
      triangle grow.`),
  },
  {
    title: 'Two frames in turn', at: 67, shows: '66 fetched 206 C4FA',
    steps: [...PUBLISHED, 'strobe', 'offer B', ...both(16, 2), 'tick 5', 'fetch 4', 'tick 2',
      'strobe', 'fetch 36'],
    sentences: paragraphs(`
      Half 1 is being drawn, and meanwhile the driver writes a house into half 0: the two
      rows have two colours.

      No byte is written in the half that is being drawn, whatever the order of the events.

      The flip in event 77 leads the next run to the house, and the strobe for that run is
      sent only after the HALT wire has told that the triangle is done.`),
  },
  {
    title: 'A lost strobe', at: 104, shows: '103 still',
    steps: [...HOUSE_DRAWN, ...THEN_PUBLISHED, 'fetch 3', 'redraw', 'tick 2', 'strobe',
      'fetch 20'],
    sentences: paragraphs(`
      Event 99 sent a strobe for a triangle, and it got lost: the generator stays still, and
      the house of before is all that is seen, dim.

      Nothing is torn by that, as the driver knows of the generator just what the HALT wire
      tells.

      A redraw sends another strobe in event 106, which arrives, and the triangle is drawn
      whole.`),
  },
  {
    title: 'A reset amid a frame', at: 139, shows: '138 read running',
    steps: [...HOUSE_DRAWN, ...THEN_PUBLISHED, 'strobe', 'offer B', ...both(8, 3), 'resetcpu',
      'tick', 'fetch', 'tick', 'fetch 11', 'tick'],
    sentences: paragraphs(`
      The processor was reset while the driver wrote a house into half 1 and the generator
      began to draw a triangle from half 0, over the dim picture of before: the driver knows
      nothing any more.

      So it looks which half is published, reads the HALT wire, and takes no frame before it
      has seen the generator halt.

      The triangle comes out whole.`),
  },
  {
    title: 'A strobe before the flip', at: 83, shows: '82 done 209 B000 3',
    steps: [...PUBLISHED, 'strobe', 'fetch 20', 'offer B', 'tick 10', 'strobe', 'fetch 2', 'tick 5',
      'fetch 18'],
    sentences: paragraphs(`
      A strobe comes too soon: the driver has written only ten bytes of a house, and hasn't
      published it.

      Word zero still leads to half 1, so the triangle is drawn once more, whole.

      The house comes with the flip, which is one byte: before it all of the old picture is
      drawn, and after it all of the new one.`),
  },
  {
    title: 'The cut wire', at: 85, shows: '84 done 209 B000 3',
    steps: [...PUBLISHED, 'strobe', 'fetch 9', '# wire cut', 'offer A', 'tick 21', 'offer B',
      'tick 16', 'fetch 11'],
    sentences: paragraphs(`
      The HALT wire is cut, so the driver is told that the generator is always halted, and
      doesn't wait.

      It takes one frame after the other, and from event 58 on it writes a house into the
      very half that is being drawn: the picture is neither the triangle nor the house.

      Such early bytes are what dvg torn finds in a log, and the proved driver writes none,
      in whichever order events come, as long as the wire is whole.`),
  },
  {
    title: 'One half alone', at: 63, shows: '62 done 009 B000 3',
    steps: ['# one half', ...PUBLISHED, 'strobe', 'fetch 9', 'offer B', 'tick 16', 'fetch 11'],
    sentences: paragraphs(`
      Here is one half only: from event 36 on the driver writes a house into the very words
      that the generator reads, and the picture is torn, though the HALT wire is whole.

      The third small picture is of the same events with two halves: there the house came
      into the other half, and the triangle is whole.

      With one half, the driver would have to wait while a picture is drawn, and the generator
      while one is written: with two, both work at the same time.`),
  },
];

/* A state that names a lesson and brings no trace is that lesson's, but for what it says itself. */
export function withLesson(state) {
  const number = Number(state.lesson) - 1;
  if (state.lesson !== undefined && !(number in LESSONS)) {
    throw new Error(`there is no lesson ${state.lesson}`);
  }
  if (state.trace !== undefined || LESSONS[number] === undefined) return state;
  return { ...stateOfLesson(number), ...state };
}

/* The state of a lesson, for a link. */
export function stateOfLesson(number) {
  const { at, steps } = LESSONS[number];
  const draftOf = { A: TRIANGLE, B: HOUSE };
  const trace =
    steps.map((step) => step.replace(/^offer (.)$/, (_, name) => `offer\n${draftOf[name]}\nend`));
  return { lesson: number + 1, a: TRIANGLE, b: HOUSE, trace: `${trace.join('\n')}\n`, at };
}
