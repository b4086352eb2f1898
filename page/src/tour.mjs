/* The tour: whole, cut, torn. It runs by itself when the page is opened, and can be skipped. */

/* How many events happen in a second of it, and after how many it gives up to find a tear. */
export const TOUR_RATE = 3600, MOST_TOUR_EVENTS = 50000;

/* The steps: whether the wire is cut, and how many events each has at least, so that the same ones
 * happen each time. */
export const TOUR_STEPS = [
  {
    title: 'Whole', cut: false, least: 6 * TOUR_RATE,
    text: `The beam draws lines out of one half of a memory; dim is the picture before. Meanwhile a
      program, the driver, writes the next list into the other half. In both rows, blue is one half
      and orange the other: at any time they differ.`,
  },
  {
    title: 'Cut', cut: true, least: 5 * TOUR_RATE,
    text: `The HALT wire tells the driver when a picture is done. Now it is cut: the driver always
      hears "done", doesn't wait, and writes into the half that is being drawn. Such a byte is
      yellow, and red if the beam comes to it.`,
  },
  {
    title: 'Torn', cut: true, least: 0,
    text: `This picture began as one frame and went on as a later one. The thin lines are both
      frames, whole. Red, dashed strokes are the later one's; the ring marks where the tear begins.
      With the wire, the driver would have waited. Mend it, and press Run.`,
  },
];

/* At least this part of the strokes of the picture that the tour ends with is of either frame. */
const LEAST_PART = 0.2;

export class Tour {
  /* `stage` is what the tour does on the page: setWire, tearOf, isOneScene and showTear. */
  constructor(stage) {
    this.stage = stage;
    this.step = -1;
  }

  get running() { return this.step >= 0 && this.step < TOUR_STEPS.length - 1; }

  begin(board) { this.goOn(0, board); }

  goOn(step, board) {
    this.step = step;
    this.until = board.length + TOUR_STEPS[step].least;
  }

  /* How many events may happen until the wire is cut; of the next step any. */
  room(board) { return this.step === 0 ? this.until - board.length : Infinity; }

  end() { this.step = -1; }

  /* After each frame of the animation: goes on to the next step where it is time for that. */
  pass(board) {
    if (board.length < this.until) return;
    if (this.step === 0) {
      this.goOn(1, board);
      this.stage.setWire(true);
      return;
    }
    const picture = this.goodTear(board, this.until);
    if (picture === null && board.length < MOST_TOUR_EVENTS) return;
    this.step = 2;
    this.stage.showTear(picture);
  }

  /* The last step at once, without the others: `run` lets some events happen. */
  jump(board, run) {
    let picture = null;
    while (picture === null && board.length < MOST_TOUR_EVENTS) {
      run();
      picture = this.goodTear(board, 0);
    }
    this.step = TOUR_STEPS.length - 1;
    this.stage.showTear(picture);
  }

  /* The first torn picture, done in this event or later, in which enough is seen of both frames,
   * which are of one scene; or null. */
  goodTear(board, from) {
    const isGood = (picture) => {
      const part = this.stage.tearOf(picture).wrong.length / picture.strokes.length;
      return part >= LEAST_PART && part <= 1 - LEAST_PART && this.stage.isOneScene(picture);
    };
    return board.pictures.find((one) => one.torn && one.at >= from && isGood(one)) ?? null;
  }
}
