// The worker of play.html: it is handed the module once, then calls of commands, and answers each.

import { callCommand } from './calls.js';

let compiled = null;

// Answers a call; what the module or the browser breaks off with is told.
function answerCall(asked) {
  const from = performance.now();
  try {
    const answer = callCommand(compiled, asked);
    self.postMessage({ ...answer, milliseconds: performance.now() - from }, [answer.text.buffer]);
  } catch (fault) {
    self.postMessage({ fault: String(fault) });
  }
}

self.addEventListener('message', ({ data }) => {
  if (data.module !== undefined) compiled = data.module;
  else answerCall(data);
});
