// Where the page is to be taken from, by anyone who checks: what a page says of itself proves nothing.
export const COMPARE = "Compare its SHA-256 with CHANGELOG.md there, by certutil -hashfile coop.html SHA256 (Windows) "
  + "or shasum -a 256 coop.html.";
