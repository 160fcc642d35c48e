// What is told while something runs: for how long, and a button that stops it. It shows only where it takes a while. Tests wait for the
// body's `data-busy` to go.

import { element } from '../page/elements.js';

const PATIENCE = 200;

/** The bar; `stop` is told when its button is pressed. */
export class Working {
  constructor(stop) {
    this.text = element('span', { 'role': 'status', 'data-name': 'working' });
    this.node = element('span', { class: 'working', hidden: true }, element('progress', { 'aria-label': 'It runs' }), this.text,
      element('button', { type: 'button', click: stop }, 'Stop'));
    this.timer = null;
  }

  /** Something begins; what ran before is told no more. */
  begin(words) {
    this.end();
    this.words = words;
    this.from = performance.now();
    document.body.dataset.busy = '';
    this.timer = setInterval(() => this.draw(), PATIENCE);
  }

  /** What runs is another thing from here on. */
  tell(words) { this.words = words; }

  /** Nothing runs. */
  end() {
    clearInterval(this.timer);
    this.node.hidden = true;
    this.text.textContent = '';
    delete document.body.dataset.busy;
  }

  // Tells for how long it runs.
  draw() {
    this.node.hidden = false;
    this.text.textContent = `${this.words}, ${((performance.now() - this.from) / 1000).toFixed(1)} s`;
  }
}
