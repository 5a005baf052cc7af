// Costs that are pasted into the case of gains, or gains into that of costs: the text says which they are.
import { withEscapes } from "../game/names.js";

/** The titles of the cases of tables. */
export const TABLES = { costs: "Costs of each group", gains: "Gains of each group" };
const MOST_SHOWN = 60; // letters of a text that is quoted
const GAINS = new RegExp("gain|sav(?:ed|ing)|profit|earning|revenue|surplus|benefit|gewinn|gespart|ersparnis|einspar"
  + "|erlös|ertrag|économi|bénéfice|winst|besparing|opbrengst|risparmi|guadagn|ahorro|ganancia|beneficio", "iu");
const COSTS = new RegExp("cost|price|expense|\\bfees?\\b|offer|quot(?:e|ation)|\\bbill|kosten|preis|angebot|aufwand"
  + "|ausgabe|co[uû]t|\\bprix|devis|dépense|\\bkost\\b|prijs|offerte|spes[ae]|prezz|precio|presupuesto", "iu");

/** Whether a text says that numbers are gains in a case of costs, or costs in one of gains, and nothing else. */
export function isOtherKind(text = "", isCost = false) {
  const [other, own] = isCost ? [GAINS, COSTS] : [COSTS, GAINS];
  return other.test(text) && !own.test(text);
}

/** Whether a text names costs or gains. */
export const saysKind = (text) => GAINS.test(text) || COSTS.test(text);

/** What is asked of numbers of which one of some texts says that they belong into the other case; undefined if none
 * does, or if it isn’t known which case this is. */
export function otherCase(texts, isCost) {
  if (isCost === undefined) return undefined;
  const [here, there] = isCost ? ["costs", "gains"] : ["gains", "costs"];
  const text = texts.find((one) => isOtherKind(one, isCost));
  const answer = (id, where) => `${id[0].toUpperCase()}${id.slice(1)}: take them ${where}`;
  return text && {
    fault: `“${withEscapes(text.slice(0, MOST_SHOWN))}” says ${there}, and this case is of ${here}. What are these `
      + "numbers?",
    ways: [takenTo(there, answer(there, `to “${TABLES[there]}”`)), [answer(here, "here"), { isHere: true }]],
  };
}

/** The way by which a text goes to another case. */
export const takenTo = (id, title = `Take it to “${TABLES[id]}”`) => [title, { goTo: id }];
