// Making elements of the page. Texts become text nodes, so nothing of a report is ever read as markup.

// Sets attributes of an element; a function is a listener, true an attribute without value, and null or false none.
function dress(node, attributes) {
  for (const [name, value] of Object.entries(attributes)) {
    if (typeof value === 'function') node.addEventListener(name, value);
    else if (value !== null && value !== undefined && value !== false) node.setAttribute(name, value === true ? '' : value);
  }
}

/** An element with attributes and children; a child is a node, a text, a number or a list of children, and null is none. */
export function element(name, attributes = {}, ...children) {
  const node = document.createElement(name);
  dress(node, attributes);
  node.append(...children.flat(Infinity).filter((child) => child !== null && child !== undefined));
  return node;
}

/** An element of a drawing. */
export function drawn(name, attributes = {}, ...children) {
  const node = document.createElementNS('http://www.w3.org/2000/svg', name);
  dress(node, attributes);
  node.append(...children.flat(Infinity).filter((child) => child !== null));
  return node;
}

/** A choice among named values, with a label; `change` takes the value. */
export function choice(label, options, chosen, change) {
  const select = element('select', { 'change': () => change(select.value), 'data-key': `choice ${label}` },
    options.map(([value, text]) => element('option', { value, selected: value === chosen }, text)));
  return element('label', { class: 'choice' }, element('span', {}, label), select);
}

/** A box to tick, with a label; `change` takes whether it is ticked. */
export function tickBox(label, isTicked, change) {
  const box = element('input', { 'type': 'checkbox', 'checked': isTicked, 'change': () => change(box.checked), 'data-key': `box ${label}` });
  return element('label', { class: 'choice' }, box, element('span', {}, label));
}

/** Runs a layout once its element stands on the page, and again whenever the element's width changes. */
export function withWidth(node, layout) {
  let width = -1;
  const check = () => {
    if (!node.isConnected || node.clientWidth === width) return;
    width = node.clientWidth;
    layout(width);
  };
  new ResizeObserver(check).observe(node);
  queueMicrotask(check);
}
