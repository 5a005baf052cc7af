// Which part of the page is shown. Each has an address, so that the browser's way back works.
import { caseNamed } from "../cases/cases.js";

const OTHERS = ["document", "verify"];
const TITLE = "coop: fair shares, with evidence";

const at = (id) => document.getElementById(id);

/** Shows a case by its name, or "document", "verify" or "" for the start. */
export function showView(view) {
  if (location.hash.slice(1) !== view) enter(view);
  const kind = caseNamed(view);
  document.body.dataset.view = kind ? "case" : view || "start";
  document.title = kind ? `${kind.title} – coop` : TITLE;
  scrollTo(0, 0);
  const head = kind ? at("case-title") : at(view || "start").querySelector("h1");
  head.focus({ preventScroll: true });
}

/** Goes to a part of the case's page, and opens it if it is folded. */
export function showPart(id) {
  const part = at(id), calm = matchMedia("(prefers-reduced-motion: reduce)").matches;
  if (part.hidden) return;
  if (part.tagName === "DETAILS") openPart(part);
  part.scrollIntoView({ behavior: calm ? "auto" : "smooth", block: "start" });
  (part.querySelector(":scope > summary") ?? part).focus({ preventScroll: true });
}

/** Beside each other the parts are tabs, of which one is open; on a page of one column they are folds. */
function openPart(part) {
  if (matchMedia("(min-width: 68.75rem)").matches) {
    for (const other of part.parentElement.children) if (other !== part) other.open = false;
  }
  part.open = true;
}

/** Says at the ways to the parts which of them is open. */
export function watchParts() {
  at("parts").addEventListener("toggle", ({ target: { id, open } }) => {
    at("next").querySelector(`[data-part="${id}"]`)?.setAttribute("aria-expanded", String(open));
  }, true);
}

/** On a page of one column: keeps the answer's sentence in sight while the answer itself is out of it. */
export function watchAnswer() {
  const peek = at("peek"), answer = at("answer");
  const seen = new IntersectionObserver(([{ isIntersecting }]) => {
    peek.classList.toggle("away", isIntersecting);
  }, { rootMargin: "-60px 0px -60px 0px" });
  seen.observe(answer);
}

/** Some browsers let a file have no other address than by its mark. */
function enter(view) {
  try {
    history.pushState(null, "", view ? `#${view}` : location.pathname);
  } catch {
    location.hash = view;
  }
}

/** The part that the address names; the start for any that isn't there. */
export function viewOfAddress() {
  const view = location.hash.slice(1);
  return OTHERS.includes(view) || caseNamed(view) ? view : "";
}
