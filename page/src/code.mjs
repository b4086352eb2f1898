/* The driver's 6502 code, as it is listed, in step with a board. */
import { COMMAND } from './engine.mjs';
import { hex } from './hex.mjs';
import { byId } from './parts.mjs';
import { Twin, bytesOfTable, linesOfListing } from './twin.mjs';
import { counted } from './words.mjs';

/* Scrolls a box so that a line of it is in sight, and nothing else. */
function showLine(box, line) {
  if (line !== null) box.scrollTop = line.offsetTop - box.offsetTop - box.clientHeight / 2;
}

export class Code {
  constructor(engine, listing) {
    Object.assign(this, { engine, listing, twin: null });
  }

  /* Begins beside another board: a line of the listing each. */
  begin(board) {
    const lines = linesOfListing(this.listing);
    byId('code-lines').replaceChildren(...lines.map(({ at, bytes, source }) => (
      Object.assign(document.createElement('span'), {
        textContent: `${bytes.length > 0 ? hex(at, 4) : '    '} ${source}`,
      }))));
    this.twin = Object.assign(new Twin(lines, (draft) => this.tableOf(board, draft)),
      { of: board, lines });
  }

  /* The table of a draft as bytes; null of one that has none. */
  tableOf(board, draft) {
    const got = this.engine.run(COMMAND.layTable, `${board.rom.text}${draft.join('\n')}\n`);
    return got.error === '' ? bytesOfTable(got.output) : null;
  }

  /* The listing, with the instructions of the event before a moment, and the one that acted. A
   * recording has no such code, and a driver that is held to one half another. */
  show(shown, at, isBoard) {
    if (!byId('code').open) return;
    if (!isBoard || shown.oneHalf) {
      byId('code-text').textContent = isBoard ? 'The code is that of a driver with two halves.'
        : 'What happened elsewhere tells no calls of the driver.';
      return;
    }
    if (this.twin?.of !== shown) this.begin(shown);
    const { twin } = this;
    twin.follow(shown, at);
    const ran = new Set(twin.ran), spans = byId('code-lines').children;
    twin.lines.forEach(({ at: place, bytes }, k) => {
      const holds = (one) => one >= place && one < place + bytes.length;
      const now = twin.actor !== null && holds(twin.actor);
      spans[k].className = [[...ran].some(holds) && 'ran', now && 'now'].filter(Boolean).join(' ');
    });
    byId('code-text').textContent = this.text(at);
    showLine(byId('code-lines'), byId('code-lines').querySelector('.now, .ran'));
  }

  text(at) {
    const { differs, ran, actor } = this.twin;
    if (differs !== null) return `The code does otherwise in event ${differs}.`;
    if (ran.length === 0) return 'This event is none of the driver\'s: none of its code runs.';
    const count = counted(ran.length, 'instruction');
    return `Event ${at - 1} takes ${count}${actor === null ? '.' : '; the framed one acts.'}`;
  }
}
