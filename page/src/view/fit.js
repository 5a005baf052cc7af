// Whether the one page fits on a sheet of paper: it is laid out as paper has it, measured, and put back before anything
// of it is seen. What doesn't fit gets smaller letters, and then has to do without its picture.

const WIDE = "176mm"; // of A4 between the margins
const MOST = (262 * 96) / 25.4; // its height in pixels, with some to spare: paper breaks lines a little otherwise
const SIZES = ["tight", "closer", "tighter"]; // of letters, each smaller than the one before

/** What stands in the styles for paper counts, and what stands there for narrow windows doesn't. */
function mediaOfPaper(text) {
  return text.includes("print") ? "all" : text.includes("max-width") ? "not all" : text;
}

/** Does `work` while the page is laid out as on paper. */
function onPaper(work) {
  const { body } = document, { print } = body.dataset, place = [scrollX, scrollY];
  const rules = [...document.styleSheets].flatMap(({ cssRules }) => [...cssRules]).filter(({ media }) => media);
  const medias = rules.map(({ media }) => media.mediaText);
  try {
    rules.forEach(({ media }, k) => (media.mediaText = mediaOfPaper(medias[k])));
    body.dataset.print = "sheet";
    body.style.width = WIDE;
    return work();
  } finally {
    rules.forEach(({ media }, k) => (media.mediaText = medias[k]));
    if (print === undefined) delete body.dataset.print;
    else body.dataset.print = print;
    body.style.width = "";
    scrollTo(...place);
  }
}

/** Makes the sheet fit, if that can be, and gives the number of sheets of paper that it takes. */
export function fitOnPaper(sheet) {
  const isIn = () => sheet.scrollHeight <= MOST + 1 && sheet.scrollWidth <= sheet.clientWidth + 1;
  return onPaper(() => {
    if (isIn()) return 1;
    const own = sheet.className, picture = sheet.querySelector(":scope > figure"), next = picture?.nextSibling;
    for (const isWithout of picture ? [false, true] : [false]) {
      if (isWithout) picture.remove();
      for (const size of SIZES) {
        sheet.classList.add(size);
        if (isIn()) return 1;
      }
      sheet.className = own;
    }
    if (picture) sheet.insertBefore(picture, next);
    return Math.max(2, Math.ceil(sheet.scrollHeight / MOST));
  });
}
