/* A page with one game alone, which `make page` makes. */
import { Engine } from './engine.mjs';
import { listenToSizes } from './gestures.mjs';
import { bytesOfBase64 } from './hex.mjs';
import { byId, setText } from './parts.mjs';
import { Player, listenToPlayer } from './player.mjs';
import { GAME, WASM } from './built.mjs';

class Alone extends Player {
  restart() {
    this.insert(bytesOfBase64(GAME.program), bytesOfBase64(GAME.shapes));
    this.setPaused(false);
    byId('tube').focus({ preventScroll: true });
  }

  tell() { setText(byId('game-said'), this.arcade.fault); }
}

async function beginAlone() {
  const player = new Alone(await Engine.ofPacked(WASM));
  listenToPlayer(player);
  listenToSizes([byId('tube')], () => player.drawAnew());
  player.restart();
  player.setShown(true);
  if (matchMedia('(prefers-reduced-motion: reduce)').matches) player.setPaused(true);
  document.body.dataset.ready = 'yes';
}

beginAlone();
