// What the page has packed, in base64.

/** A text in base64 unpacked, "gzip" or "deflate", as what a network would answer. */
export function unpacked(text, way) {
  const packed = Uint8Array.from(atob(text), (letter) => letter.charCodeAt(0));
  return new Response(new Blob([packed]).stream().pipeThrough(new DecompressionStream(way)));
}
