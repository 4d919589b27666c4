// Files that are kept gzipped, so that they are small from any server.

const GZIP = [0x1f, 0x8b];

/** What a response holds, unpacked. A server may have done that already. */
export async function unpacked(response) {
  const bytes = new Uint8Array(await response.arrayBuffer());
  const isPacked = GZIP.every((byte, k) => bytes[k] === byte);
  const stream = new Blob([bytes]).stream();
  return new Response(isPacked ? stream.pipeThrough(new DecompressionStream('gzip')) : stream);
}
