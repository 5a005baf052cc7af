// Saving, copying and printing wait for what was typed: as long as the answer is of the cells before, a click in the
// parts that hand it on is held, and done as soon as the new answer stands there. A case can be saved once it is read.

const PARTS = ["evidence", "paper", "files"];

/** `session` has the case, whether its cells are read (`isRead`), and whether its answer `isStale`. Gives what is to be
 * called when they are read (`true`), and when all of the answer has come. */
export function holdClicks(session) {
  let held = null;
  const waits = (one) => (one.closest(".made") ? !session.isRead : session.isStale);
  const hold = (event) => {
    const one = event.target.closest("button"), { kind } = session;
    held = one && waits(one) ? { kind, part: event.currentTarget, title: one.textContent } : null;
    if (held) event.stopPropagation();
  };
  for (const id of PARTS) document.getElementById(id).addEventListener("click", hold, true);
  return (isReading = false) => {
    const { kind, part, title } = held ?? {};
    const one = [...(part?.querySelectorAll("button") ?? [])].find(({ textContent }) => textContent === title);
    if (one && (waits(one) || (isReading && !one.closest(".made")))) return;
    held = null;
    if (one && !part.hidden && kind === session.kind) one.click(); // else the cells are wrong now, or others
  };
}
