// The tetrahedron of the divisions among four, which the mouse and the arrow keys turn.
import { tetrahedron } from "../draw/tetrahedron.js";
import { el, refill } from "./dom.js";

const TURN = 0.12; // radians of an arrow key
const KEYS = { ArrowLeft: [-1, 0], ArrowRight: [1, 0], ArrowUp: [0, -1], ArrowDown: [0, 1] };

/** The picture, which keeps in `view` how it is turned; null if there is none. */
export function turningTetrahedron(game, points, settings) {
  const found = tetrahedron(game, points, settings), { view } = settings;
  if (!found) return null;
  const holder = el("div", {}, found.tree), drawn = holder.querySelector("svg");
  turnable(drawn, view, () => refill(drawn, found.partsOf(view)));
  return holder;
}

function turnable(drawn, view, show) {
  const turn = (yaw, pitch) => {
    view.yaw += yaw;
    view.pitch = Math.max(-1.5, Math.min(1.5, view.pitch + pitch));
    show();
  };
  let from = null;
  drawn.addEventListener("pointerdown", (event) => {
    from = [event.clientX, event.clientY];
    drawn.setPointerCapture(event.pointerId);
  });
  drawn.addEventListener("pointermove", ({ clientX, clientY }) => {
    if (!from) return;
    turn((clientX - from[0]) / 120, (clientY - from[1]) / 120);
    from = [clientX, clientY];
  });
  for (const end of ["pointerup", "pointercancel"]) drawn.addEventListener(end, () => (from = null));
  drawn.addEventListener("keydown", (event) => {
    const [across, down] = KEYS[event.key] ?? [];
    if (across === undefined) return;
    event.preventDefault();
    turn(across * TURN, down * TURN);
  });
}
