// What is measured in a page: texts that cover one another, numbers that are cut off, and parts that are wider than the page.

/** Runs in the page: what covers what, which numbers are cut off, and what scrolls sideways; empty lists where all is well. */
export function faultsOfLayout() {
  const cut = (box, frame) => ({
    left: Math.max(box.left, frame.left), right: Math.min(box.right, frame.right), top: Math.max(box.top, frame.top), bottom: Math.min(box.bottom, frame.bottom),
  });
  const framesOf = (node) => {
    const frames = [];
    for (let one = node; one !== null; one = one.parentElement) {
      const style = getComputedStyle(one);
      if (style.overflowX !== 'visible' || style.overflowY !== 'visible') frames.push(one.getBoundingClientRect());
    }
    return frames;
  };
  const isSeen = (box) => box.right - box.left > 1 && box.bottom - box.top > 1;
  const boxes = [];
  const hidden = [];
  const add = (node, holder, rects) => {
    const frames = framesOf(holder);
    if (holder.tagName === 'DATA' && rects.length > 1 && holder.textContent.length < 13) hidden.push(`${holder.textContent}, on two lines`);
    for (const rect of rects) {
      const box = frames.reduce(cut, { left: rect.left, right: rect.right, top: rect.top, bottom: rect.bottom });
      const isNumber = holder.closest('data') !== null;
      const wide = box.right - box.left;
      if (isNumber && isSeen(box) && wide < rect.width - 1) hidden.push(holder.textContent);
      if (isNumber && wide <= 1 && rect.width > 1 && box.bottom > box.top) hidden.push(holder.textContent);
      const cell = holder.closest('.cell');
      const isBelow = cell !== null && rect.bottom > Math.min(cell.closest('.row').getBoundingClientRect().bottom, cell.getBoundingClientRect().bottom) + 3;
      if (isBelow && holder.closest('code') === null) hidden.push(`${holder.textContent.slice(0, 40)}, below its cell`);
      if (isSeen(box)) boxes.push({ node, holder, text: node.textContent.slice(0, 40), ...box });
    }
  };
  const walker = document.createTreeWalker(document.body, NodeFilter.SHOW_TEXT);
  while (walker.nextNode()) {
    const node = walker.currentNode;
    const holder = node.parentElement;
    if (node.textContent.trim() === '' || holder.closest('option, script, style, [hidden], .skip, .hidden') !== null) continue;
    const range = document.createRange();
    range.selectNodeContents(node);
    add(node, holder, [...range.getClientRects()]);
  }
  for (const node of document.querySelectorAll('select, input:not(.hidden), button')) {
    if (node.closest('[hidden]') === null && node.children.length === 0) add(node, node, [node.getBoundingClientRect()]);
  }
  const covers = [];
  const shows = (one) => one.text || one.node.tagName || '';
  for (let first = 0; first < boxes.length; first += 1) {
    for (let second = first + 1; second < boxes.length; second += 1) {
      const [one, other] = [boxes[first], boxes[second]];
      if (one.node === other.node || one.node.contains(other.node) || other.node.contains(one.node)) continue;
      const both = cut(one, other);
      // Lines of text that stand one below the other may touch: their boxes have the height of a line, and letters less.
      if (both.right - both.left > 1.5 && both.bottom - both.top > 5) covers.push(`${shows(one)} / ${shows(other)}`);
    }
  }
  const wide = [];
  if (document.scrollingElement.scrollWidth > window.innerWidth) wide.push(`page ${document.scrollingElement.scrollWidth}`);
  for (const node of document.querySelectorAll('main, header, .table, section, .chart')) {
    if (node.scrollWidth > node.clientWidth + 1) wide.push(`${node.className || node.tagName} ${node.scrollWidth} in ${node.clientWidth}`);
  }
  return { covers, hidden, wide, texts: boxes.length };
}
