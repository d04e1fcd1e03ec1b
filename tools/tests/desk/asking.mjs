// A page's fetch and Worker under node: the desk at the address, with the cookie of the environment, and threads.
import {Worker as Thread} from 'node:worker_threads';

const [address] = process.argv.slice(2), bare = globalThis.fetch;
const own = {Cookie: process.env.COOKIE, Origin: new URL(address).origin};

globalThis.fetch = (name, options = {}) => {
  const {Origin: _, ...plain} = own, headers = {...options.headers, ...(options.method === 'POST' ? own : plain)};
  return bare(new URL(name, address), {...options, headers});
};
globalThis.Worker = class {
  constructor(name, {type}) {
    if (name !== 'desk/worker.mjs' || type !== 'module') throw new Error(`${name} is no module of the engine`);
    this.thread = new Thread(new URL('./worker.mjs', import.meta.url));
    this.thread.on('message', data => this.onmessage({data}));
    this.thread.on('error', error => this.onerror(error));
  }

  postMessage(data, more) {
    this.thread.postMessage(data, more);
  }

  terminate() {
    this.thread.terminate();
  }
};
