// What browser.mjs puts into a page before its script, so that its clock goes on by the
// frames of its animation: minutes go by in seconds, or each frame is a 60th of a second.

// How long a frame is, in milliseconds: the page makes up for no more.
const FRAME = 100;

export const FRAMES_OF_MINUTE = 60000 / FRAME;

// Frames come when they are asked for: then passFrames(N) lets so many pass, and wasmBytes()
// tells how much memory the WebAssembly has.
export const FAST_TIME = `{
  const frames = [], memories = [], { instantiate } = WebAssembly;
  let now = 0;
  performance.now = () => now;
  window.requestAnimationFrame = (frame) => frames.push(frame);
  window.passFrames = (count) => {
    for (let k = 0; k < count; k++) {
      now += ${FRAME};
      for (const frame of frames.splice(0)) frame(now);
    }
  };
  WebAssembly.instantiate = async (...words) => {
    const made = await instantiate(...words);
    memories.push(made.instance.exports.memory);
    return made;
  };
  window.wasmBytes = () => memories.reduce((sum, { buffer }) => sum + buffer.byteLength, 0);
}`;

// Frames come when the browser can show them, and each is a 60th of a second to the page, however
// late it is: window.frameCount is how many there were.
export const FRAME_TIME = `{
  window.frameCount = 0;
  performance.now = () => window.frameCount * 1000 / 60;
  const count = () => { window.frameCount++; requestAnimationFrame(count); };
  requestAnimationFrame(count);
}`;

// A number of bytes in words.
export function megabytes(bytes) {
  return `${(bytes / 1e6).toFixed(2)} MB`;
}
