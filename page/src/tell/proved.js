// What is proved of an answer, and what isn't: three sentences for paper.

const GIVEN = "Nobody proves that the numbers given are right.";

/** `rule` is that of the certificate, if there is one; `isBeside` says that other columns are there. */
export function provedText(rule, isBeside) {
  return [
    rule ? "The certificate is enough, whoever made it, and a pencil can check it."
      : "These numbers have no certificate.",
    rule && isBeside && `Only the ${rule} has one.`,
    "The program’s source is proved; the page’s reading, its own columns and its words aren’t.", GIVEN,
  ].filter(Boolean).join(" ");
}

/** The same of numbers that the page calculates itself, and says so. */
export const OWN_PROVED = `Nor is it proved how this page reads numbers, or what it says in words. ${GIVEN}`;
