// The commands as methods, over one function that sends the request that it is told how to make.

import { request } from './frames.js';
import { fromJson } from './json_texts.js';

/**
 * The commands. Each gives a promise of its value. The last argument of each may have `timeout` (milliseconds, in the place of the client's) and
 * `signal` (an AbortSignal, which ends the wait for the reply; the request may be carried out).
 */
export class Calls {
  /** Keeps a JSON text under a collection and a document, in the place of one that is there. */
  put(collection, document, text, options) {
    return this._call(() => request.put(collection, document, text), options);
  }

  /** Keeps a JSON text under a collection and a document. Refused as Exists where a document is there. */
  putNew(collection, document, text, options) {
    return this._call(() => request.putNew(collection, document, text), options);
  }

  /** Puts the JSON text of a value. BigInts and ExactNumbers keep their digits. */
  putJson(collection, document, value, options) {
    return this._call(() => request.putJson(collection, document, value), options);
  }

  /** The text's bytes as they were put. Refused as NotFound if there is none. */
  get(collection, document, options) {
    return this._call(() => request.get(collection, document), options);
  }

  /** The value of a document's text. With `exact: true` among the options its numbers are ExactNumbers. */
  async getJson(collection, document, options) {
    return fromJson((await this.get(collection, document, options)).toString(), options?.exact);
  }

  /** Removes a document. Refused as NotFound if there is none. */
  remove(collection, document, options) {
    return this._call(() => request.remove(collection, document), options);
  }

  /** The names of a collection's documents, in the order of their bytes; empty if there is no such collection. */
  list(collection, options) {
    return this._call(() => request.list(collection), options);
  }

  /** The hits of a JSONPath query (RFC 9535): each with `document`, `path` and the bytes of its `value`. */
  query(collection, query, options) {
    return this._call(() => request.query(collection, query), options);
  }

  /** The same hits, each made when it is asked for, so that a long reply is not copied. */
  hits(collection, query, options) {
    return this._call(() => request.hits(collection, query), options);
  }

  /** The names of the documents in which a query has a hit, each once, in the order of their bytes. */
  documents(collection, query, options) {
    return this._call(() => request.documents(collection, query), options);
  }

  /** Removes a collection with all its documents. Refused as NotFound if there is none. */
  drop(collection, options) {
    return this._call(() => request.drop(collection), options);
  }

  /** What the tenant keeps: `collections`, `documents` and `bytes`. */
  usage(options) {
    return this._call(() => request.usage(), options);
  }

  /** The milliseconds that a USAGE took: whether the server answers, and knows the key. */
  async ping(options) {
    const began = performance.now();
    await this.usage(options);
    return performance.now() - began;
  }
}

// `await using` closes at the end of a block, where Node has it
if (Symbol.asyncDispose) {
  Calls.prototype[Symbol.asyncDispose] = async function dispose() {
    this.close();
  };
}
