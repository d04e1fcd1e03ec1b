// The engine's Worker as a thread of node.
import {register} from 'node:module';
import {parentPort} from 'node:worker_threads';

globalThis.self = {postMessage: data => parentPort.postMessage(data)};
if (process.env.STANDS_IN) {
  register('./standing_in.mjs', import.meta.url);
  WebAssembly.compile = async () => null;
}
await import('../../../web/desk/worker.mjs');
parentPort.on('message', data => self.onmessage({data})); // what has come meanwhile waits
