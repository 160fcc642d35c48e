// How the page looks: no text covers another, none is cut off, nothing scrolls sideways, at four widths, with labels and with hexadecimal
// addresses, light and dark; contrast; and that no text of a script becomes markup, runs or is fetched.

import { faultsOfLayout } from '../view_browser/measures.mjs';
import { labelsOf, stored, withHexAddresses } from '../view_browser/texts.mjs';

const MARKUP = '<img src=x onerror="window.hurt=1"></script><script>window.hurt=1</script><svg onload=window.hurt=1>';

// Where the page is looked at: with a fault, with the form, with a dump in front.
const STATES = {
  'as it opens': async () => {},
  'with a fault': (player) => player.replace('settle', 'setle'),
  'with the form': (player) => player.click('Add a row'),
  'with an audit': (player) => player.command('audit'),
  'with a made script': (player) => player.command('make', '18446744073709551615', '20'),
};

// Where a script with swaps is looked at besides.
const SWAP_STATES = {
  'with a refused swap at the caret': (player) => player.caretBehind('swap,1,bob,n,bob_coin2,'),
  'with the form of a swap': async (player) => {
    await player.click('Add a row');
    await player.form('a swap');
  },
};

// One look at the page as it stands.
async function checkLook(suite, page, name) {
  const { covers, hidden, wide, texts } = await page.run(faultsOfLayout);
  suite.same(`${name}: texts that cover others`, covers.slice(0, 4), []);
  suite.same(`${name}: texts that are cut off`, hidden.slice(0, 4), []);
  suite.same(`${name}: parts that are too wide`, wide.slice(0, 4), []);
  suite.holds(`${name}: there are texts`, texts > 20);
}

// Each state at each width.
async function checkStates(suite, player, name, script, states = STATES) {
  for (const [state, reach] of Object.entries(states)) {
    await player.page.size(1280, 1200);
    await player.open('book');
    await player.drop('script.csv', script);
    await player.command('replay');
    await reach(player);
    for (const width of [360, 800, 1280, 1800]) {
      await player.page.size(width, 1200);
      await player.page.settle();
      await checkLook(suite, player.page, `${name} ${state} at ${width}`);
    }
  }
}

// Runs in the page: texts whose contrast is below 4.5, by the colours of the text and of what stands behind it.
function faintTexts() {
  const parts = (colour) => (colour.match(/[0-9.]+/g) || []).map(Number);
  const light = ([red, green, blue]) => {
    const one = (part) => (part / 255 <= 0.04045 ? part / 255 / 12.92 : ((part / 255 + 0.055) / 1.055) ** 2.4);
    return 0.2126 * one(red) + 0.7152 * one(green) + 0.0722 * one(blue);
  };
  const behind = (node) => {
    for (let one = node; one !== null; one = one.parentElement) {
      const found = parts(getComputedStyle(one).backgroundColor);
      if (found.length === 3 || found[3] > 0.99) return found;
    }
    return [255, 255, 255];
  };
  const faint = [];
  const walker = document.createTreeWalker(document.body, NodeFilter.SHOW_TEXT);
  while (walker.nextNode()) {
    const holder = walker.currentNode.parentElement;
    if (walker.currentNode.textContent.trim() === '' || holder.closest('option, script, style, [hidden], .skip, .hidden, svg, :disabled') !== null) continue;
    const [one, other] = [parts(getComputedStyle(holder).color), behind(holder)].map(light);
    const contrast = (Math.max(one, other) + 0.05) / (Math.min(one, other) + 0.05);
    if (contrast < 4.5) faint.push(`${holder.className || holder.tagName} ${walker.currentNode.textContent.slice(0, 20)} ${contrast.toFixed(2)}`);
  }
  return faint;
}

// Light and dark, with a fault and refused rows.
async function checkContrast(suite, player) {
  await player.page.size(1280, 1200);
  for (const theme of ['light', 'dark']) {
    await player.open('traders');
    await player.page.run((value) => { document.documentElement.dataset.theme = value; }, theme);
    suite.same(`contrast, ${theme}`, (await player.page.run(faintTexts)).slice(0, 4), []);
    await player.replace('settle', 'setle');
    suite.same(`contrast, ${theme}, with a fault`, (await player.page.run(faintTexts)).slice(0, 4), []);
  }
}

// Markup in scripts, dumps, names of files and the page's address.
async function checkMarkup(suite, player) {
  const quoted = `"${MARKUP.replace(/"/g, '""')}"`;
  const row = `do,0,${quoted},${quoted},${quoted},-,-,-,-,${quoted}\n`;
  const texts = [MARKUP, `mint,${quoted},6\n`, `${stored('examples/two_traders.csv')}${row}`, `dump\n${MARKUP}\nenddump\ndo,${MARKUP}\n`];
  for (const [at, text] of texts.entries()) {
    await player.open();
    await player.drop(`"><img src=x onerror="window.hurt=1">.csv`, text);
    await player.caretBehind(MARKUP.slice(0, 8));
    for (const command of ['replay', 'audit', 'replay']) {
      await player.command(command);
      await suite.harmless(`markup ${at}, ${command}`, player.page);
    }
  }
  for (const fragment of [`book/${encodeURIComponent(MARKUP)}`, `journal/m?row=${encodeURIComponent(MARKUP)}`, encodeURIComponent(MARKUP)]) {
    await player.open(fragment);
    await suite.harmless(`#${fragment.slice(0, 40)}`, player.page);
  }
  const policy = await player.page.run(() => document.querySelector('meta[http-equiv]').content);
  const wanted = /^default-src 'none'; script-src 'sha256-[A-Za-z0-9+/=]{44}' 'wasm-unsafe-eval'; style-src 'unsafe-inline'; worker-src blob:; /;
  suite.holds('the page lets one script run, and fetches nothing', wanted.test(policy), policy);
  const isStopped = await player.page.run(() => new Promise((done) => {
    const script = document.createElement('script');
    script.textContent = 'window.hurt = 2';
    document.body.append(script);
    setTimeout(() => done(window.hurt === undefined), 20);
  }));
  suite.holds('another script does not run', isStopped);
}

/** Looks. */
export async function lookCases(suite) {
  const player = await suite.player(1280, 1200);
  const script = stored('examples/deep_book.csv');
  await checkStates(suite, player, 'deep_book', script);
  await checkStates(suite, player, 'deep_book in hexadecimal', withHexAddresses(script, labelsOf(script)).text);
  const swaps = stored('tests/data/swaps.csv');
  await checkStates(suite, player, 'swaps', swaps, SWAP_STATES);
  await checkStates(suite, player, 'swaps in hexadecimal', withHexAddresses(swaps, labelsOf(swaps)).text, { 'as it opens': STATES['as it opens'] });
  await checkContrast(suite, player);
  await checkMarkup(suite, player);
  await player.page.close();
}
