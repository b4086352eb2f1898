/* The boards' sounds: which of them are on, by what is written, and how they are made here, by
 * oscillators and noise. They are rough: the boards have circuits. Tested, not proved. */
import { AT } from './places.mjs';

/* What is written for them, as board/asteroids.inc names it. */
export const SOUND = {
  EXPLOSION: 0x3600, THUMP: 0x3A00, SAUCER: 0x3C00, SAUCER_FIRE: 0x3C01, SAUCER_LARGE: 0x3C02,
  THRUST: 0x3C03, FIRE: 0x3C04, SHIP: 0x3C05,
};
/* The bits that have them on: of an explosion how loud it is, of all others one. */
const LOUD_BITS = 0x3C, THUMP_ON = 0x10, SOUND_ON = 0x80;
const ON_BITS = new Map(Object.values(SOUND).map((at) => [at, SOUND_ON]));
ON_BITS.set(SOUND.EXPLOSION, LOUD_BITS).set(SOUND.THUMP, THUMP_ON);

/* Asteroids Deluxe has only two of these, and the four voices of a POKEY: of each a byte says how
 * low it is, and the next one how loud, and whether it is a tone. */
const SOUNDS_OF_DELUXE = [SOUND.EXPLOSION, SOUND.THRUST];
const VOICES = [0, 1, 2, 3].map((k) => AT.POKEY + 2 * k + 1), VOICE_LOUD = 0x0F, TONE = 0xA0;

/* The bytes that were written last, and since when each sound is on; `changes` are those that
 * nobody has taken yet. Times are in seconds of the board. */
export class Latches {
  constructor(isDeluxe = false) {
    const bits = isDeluxe ? SOUNDS_OF_DELUXE.map((at) => [at, ON_BITS.get(at)]) : ON_BITS;
    Object.assign(this, { bytes: new Map(), since: new Map(), changes: [], bits: new Map(bits) });
    if (isDeluxe) for (const at of VOICES) this.bits.set(at, VOICE_LOUD).set(at - 1, 0);
  }

  write(at, byte, time) {
    if (!this.bits.has(at) || this.bytes.get(at) === byte) return;
    this.bytes.set(at, byte);
    if ((byte & this.bits.get(at)) === 0) this.since.delete(at);
    else if (!this.since.has(at)) this.since.set(at, time);
    this.changes.push({ at, byte, time });
  }

  /* A reset clears them all. */
  reset(time) { for (const at of this.bytes.keys()) this.write(at, 0, time); }
}

/* How loud all is at most, how many seconds after a frame of the animation its last change is
 * heard, and how soon a level is what it is to be. */
const MASTER = 0.2, LATE = 0.03, SOFT = 0.004;
/* Noise: how many values, how many of them in a second; the board's clock, and by how much an
 * explosion divides it. */
const NOISE_VALUES = 16000, NOISE_HERTZ = 8000, NOISE_CLOCK = 12000, DIVIDERS = [12, 6, 3, 2];
/* The tones in Hertz: the saucers', by whether it is the large one; how far and how often they go
 * up and down; a shot's, from and to, within so many seconds; the thumps', and from one to the
 * next; a new ship's. */
const SAUCERS = [900, 600], WAVES = 200, WAVES_HERTZ = 6, SHOT = [820, 110, 0.28];
const THUMPS = [45, 3], SHIP_HERTZ = 3000;
/* The highest tone of a voice of the POKEY: the board's clock by 28, and by 2. */
const POKEY_HERTZ = 1512000 / 56;

export class Speaker {
  constructor() {
    this.context = new AudioContext();
    Object.assign(this, { isOn: true, last: 0 });
    this.out = this.gain(MASTER, this.context.destination);
    this.noise = this.context.createBuffer(1, NOISE_VALUES, NOISE_HERTZ);
    const values = this.noise.getChannelData(0);
    for (let k = 0; k < values.length; k++) values[k] = Math.random() < 0.5 ? -1 : 1;
    this.voices = new Map([
      [SOUND.EXPLOSION, this.voice(this.hiss(), 4000)],
      [SOUND.THUMP, this.voice(this.tone('square', THUMPS[0]), 300)],
      [SOUND.SAUCER, this.voice(this.tone('triangle', SAUCERS[0]), 4000)],
      [SOUND.SAUCER_FIRE, this.voice(this.tone('sawtooth', SHOT[0]), 3000)],
      [SOUND.THRUST, this.voice(this.hiss(), 250)],
      [SOUND.FIRE, this.voice(this.tone('square', SHOT[0]), 3000)],
      [SOUND.SHIP, this.voice(this.tone('square', SHIP_HERTZ), 6000)],
    ]);
    const waves = this.tone('sine', WAVES_HERTZ);
    waves.connect(this.gain(WAVES, this.voices.get(SOUND.SAUCER).source.frequency));
    waves.start();
    for (const at of VOICES) this.voices.set(at, this.voice(this.tone('square', 0), 8000));
  }

  /* --- Parts --- */

  gain(value, to) {
    const gain = this.context.createGain();
    gain.gain.value = value;
    gain.connect(to);
    return gain;
  }

  tone(type, hertz) {
    const tone = this.context.createOscillator();
    tone.type = type;
    tone.frequency.value = hertz;
    return tone;
  }

  hiss() {
    return Object.assign(this.context.createBufferSource(), { buffer: this.noise, loop: true });
  }

  /* A source that begins, without what is higher than this; it isn't heard yet. */
  voice(source, hertz) {
    const filter = this.context.createBiquadFilter(), gain = this.gain(0, this.out);
    filter.frequency.value = hertz;
    source.connect(filter);
    filter.connect(gain);
    source.start();
    return { source, level: gain.gain };
  }

  /* --- What is heard --- */

  /* Goes on with what these latches hold, or is silent. */
  follow(latches, isOn) {
    const places = [...ON_BITS.keys(), ...VOICES.flatMap((at) => [at - 1, at])];
    if (isOn) for (const at of places) this.take(at, latches.bytes.get(at) ?? 0, 0);
    if (isOn !== this.isOn) this.context[isOn ? 'resume' : 'suspend']();
    this.isOn = isOn;
  }

  /* A byte was written so many seconds before this frame of the animation ends. What came before is
   * heard before, whatever the clocks say. */
  take(at, byte, before) {
    const time = Math.max(this.last, this.context.currentTime + LATE - before);
    const isOn = (byte & ON_BITS.get(at)) !== 0;
    this.last = time;
    if (at < SOUND.EXPLOSION) return this.takeVoice(at, byte, time);
    if (at === SOUND.SAUCER_LARGE) {
      const { frequency } = this.voices.get(SOUND.SAUCER).source;
      return frequency.setValueAtTime(SAUCERS[Number(isOn)], time);
    }
    const { source, level } = this.voices.get(at);
    if (at === SOUND.EXPLOSION) {
      source.playbackRate.setValueAtTime(NOISE_CLOCK / DIVIDERS[byte >> 6] / NOISE_HERTZ, time);
    } else if (at === SOUND.THUMP) {
      source.frequency.setValueAtTime(THUMPS[0] + THUMPS[1] * (byte & 0xF), time);
    } else if (isOn && (at === SOUND.FIRE || at === SOUND.SAUCER_FIRE)) {
      this.fall(source.frequency, time);
    }
    const loud = at === SOUND.EXPLOSION ? (byte & LOUD_BITS) / LOUD_BITS : Number(isOn);
    return level.setTargetAtTime(loud, time, SOFT);
  }

  /* A byte for a voice of the POKEY. What isn't a tone there is one here, half as loud. */
  takeVoice(at, byte, time) {
    const { source: { frequency }, level } = this.voices.get(at | 1);
    if (!VOICES.includes(at)) return frequency.setValueAtTime(POKEY_HERTZ / (byte + 1), time);
    const loud = (byte & VOICE_LOUD) / VOICE_LOUD / ((byte & TONE) === TONE ? 1 : 2);
    return level.setTargetAtTime(loud, time, SOFT);
  }

  /* A shot's tone falls. */
  fall(frequency, time) {
    const [from, to, length] = SHOT;
    frequency.cancelScheduledValues(time);
    frequency.setValueAtTime(from, time);
    frequency.exponentialRampToValueAtTime(to, time + length);
  }
}

/* What is heard of a board: nothing until somebody asks for it by a button. */
export class Ears {
  constructor(button) {
    Object.assign(this, { button, speaker: null, isLoud: false });
  }

  /* Asks for sounds, or for none. Returns false in a browser that makes none. */
  setLoud(isLoud) {
    if (isLoud && globalThis.AudioContext === undefined) return false;
    if (isLoud) this.speaker ??= new Speaker();
    this.isLoud = isLoud;
    this.button.setAttribute('aria-pressed', String(isLoud));
    return true;
  }

  /* Goes on with a board, or is silent. */
  follow(board, isHeard) {
    this.speaker?.follow(board.latches, isHeard && this.isLoud && board.fault === '');
  }

  /* Hands on what was written since the frame before. */
  take({ latches, time: now, fault }) {
    const changes = latches.changes.splice(0);
    if (!this.speaker?.isOn) return;
    for (const { at, byte, time } of changes) this.speaker.take(at, byte, now - time);
    if (fault !== '') this.speaker.follow(latches, false);
  }
}
