// The texts that the page came with, and texts that are chosen or dropped.

// What stands for a character that an inlined text cannot hold as it is.
const ESCAPES = { '\\\\': '\\', '\\l': '<', '\\r': '\r', '\\0': '\0' };

// A text as it was before ./view put it into the page.
function unescaped(text) {
  return text.includes('\\') ? text.replace(/\\[\\lr0]/g, (escape) => ESCAPES[escape]) : text;
}

/** The texts of a class that stand in the page, each with its name; `given` are those that ./view put there. */
export function givenTexts(kind = 'given') {
  return [...document.querySelectorAll(`script.${kind}`)]
    .map((holder) => ({ name: holder.dataset.name, text: unescaped(holder.textContent) }))
    .filter(({ text }) => text !== '');
}

// The files of a folder, by their names; those of folders in it too.
async function filesOfFolder(folder) {
  const files = [];
  for await (const one of folder.values()) files.push(...await (one.kind === 'file' ? [one.getFile()] : filesOfFolder(one)));
  return (await Promise.all(files)).sort((one, other) => (one.name < other.name ? -1 : 1));
}

// The files that were dropped, those of folders too, where the browser hands folders over. All that it holds is asked for at once, before
// the drop ends. (The older way, by entries, reads no file of a folder in a page that is opened from disk.)
async function droppedFiles({ items, files }) {
  const entries = [...items || []].map((item) => (item.webkitGetAsEntry ? item.webkitGetAsEntry() : null));
  if (!entries.some((entry) => entry !== null && entry.isDirectory) || !items[0].getAsFileSystemHandle) return files;
  const held = await Promise.all([...items].map((item) => item.getAsFileSystemHandle()));
  const found = await Promise.all(held.map((one) => (one.kind === 'file' ? [one.getFile()] : filesOfFolder(one))));
  return Promise.all(found.flat());
}

// A file as a text by its name.
async function textOfFile(file) { return { name: file.name, text: await file.text() }; }

/** Hears of files that are chosen in a field or dropped on the page; `read` says what is made of each. */
export function hearFiles(field, open, read = textOfFile) {
  const take = async (files) => {
    const texts = await Promise.all([...files].map(read));
    if (texts.length > 0) open(texts);
  };
  field.addEventListener('change', () => { take(field.files).then(() => { field.value = ''; }); });
  document.addEventListener('dragover', (event) => {
    event.preventDefault();
    document.body.classList.add('dropping');
  });
  document.addEventListener('dragleave', (event) => {
    if (event.relatedTarget === null) document.body.classList.remove('dropping');
  });
  document.addEventListener('drop', (event) => {
    event.preventDefault();
    document.body.classList.remove('dropping');
    droppedFiles(event.dataTransfer).then(take);
  });
}
