'use strict';
// the module, which stands in the page deflated
const moduleBytes = async () => {
  const packed = Uint8Array.from(atob(document.getElementById('module').textContent.trim()), c => c.charCodeAt(0));
  return new Uint8Array(await new Response(new Blob([packed]).stream().pipeThrough(new DecompressionStream('deflate'))).arrayBuffer());
};
