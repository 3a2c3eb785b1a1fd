// One connection, plain or with TLS: its socket, and the requests that wait for a reply.

import { randomBytes } from 'node:crypto';
import net from 'node:net';
import tls from 'node:tls';
import { Replies, lengthOf, outcome, shown, writeFrame } from './frames.js';
import { BrokenConnection, LostConnection, TimedOut, refused } from './refusals.js';

/** Request numbers: after the last one comes 0 again. */
const NUMBERS = 2 ** 32;

/** Bytes of a piece of frames, and the fewest for which the rest of one is kept. */
const PIECE_BYTES = 65_536;
const SHORT_BYTES = 256;
const EMPTY = Buffer.alloc(0);

/** The number of the last request of this process, over all its connections. It begins at random. */
let number = randomBytes(4).readUInt32BE(0);

/** How a request ended: with a value, a status, or a fault of the connection, of which the error is made where the caller waits. */
export function resultOf(end, request) {
  if (end.error) throw new end.error(end.message);
  if (end.aborted) throw end.aborted.reason;
  return end.status === undefined ? end.value : refused(end.status, shown(request));
}

/** The first in is the first out, at the same cost however many there are. */
export class Queue {
  #items = [];
  #at = 0;

  get first() {
    return this.#items[this.#at];
  }

  get length() {
    return this.#items.length - this.#at;
  }

  items() {
    return this.#items.slice(this.#at);
  }

  push(item) {
    this.#items.push(item);
  }

  shift() {
    this.#items[this.#at] = undefined;
    this.#at += 1;
    // half of it is behind: each item is moved about once
    if (2 * this.#at >= this.#items.length) {
      this.#items = this.#items.slice(this.#at);
      this.#at = 0;
    }
  }
}

export class Link {
  #socket;
  #replies = new Replies();
  #waiting = new Queue();
  /** What is to be sent stands in the front of a piece, of which no byte is written twice: the socket may still hold it. */
  #piece = EMPTY;
  #filled = 0;
  #isToWrite = false;
  #timer;
  /** When the timer fires: not behind the deadline of a request that waits. */
  #due = Infinity;
  #fault;
  #ended;
  #isUnref;

  /** Opens a connection; `ended` is called where it cannot be opened, and once it has ended. */
  static open({ host, port }, options, timeout, isUnref, ended) {
    return new Promise((resolve, reject) => {
      const socket = options
        ? tls.connect({ host, port, servername: net.isIP(host) ? '' : host, ...(options === true ? {} : options) })
        : net.connect({ host, port });
      const late = () => socket.destroy(new TimedOut(`no connection within ${timeout} ms`));
      const timer = setTimeout(late, timeout);
      const fail = (fault) => {
        clearTimeout(timer);
        ended();
        reject(fault);
      };
      socket.setNoDelay(true);
      socket.once('error', fail);
      socket.once(options ? 'secureConnect' : 'connect', () => {
        clearTimeout(timer);
        socket.removeListener('error', fail);
        resolve(new Link(socket, isUnref, ended));
      });
    });
  }

  constructor(socket, isUnref, ended) {
    this.#socket = socket;
    this.#ended = ended;
    this.#isUnref = isUnref;
    socket.on('data', (piece) => this.#take(piece));
    socket.on('error', (fault) => this.end(LostConnection, fault.message));
    socket.on('end', () => this.end(LostConnection, 'the server ended the connection'));
    socket.on('close', () => this.end(LostConnection, 'the connection is closed'));
    this.#hold();
  }

  /**
   * Writes a request's frame, and gives a promise of how it ends. The timeout of a call begins now; that of a paced request, of a pipeline,
   * once it is the next to be answered.
   */
  send(key, request, timeout, signal, isPaced) {
    if (this.#fault) return Promise.resolve(this.#fault);
    if (signal?.aborted) return Promise.resolve({ aborted: signal });
    return new Promise((resolve) => {
      number = (number + 1) % NUMBERS;
      const it = { number, request, timeout, isPaced, resolve, deadline: Infinity, isOver: false, forget: undefined };
      if (signal) {
        const abort = () => this.#settle(it, { aborted: signal });
        signal.addEventListener('abort', abort, { once: true });
        it.forget = () => signal.removeEventListener('abort', abort);
      }
      this.#waiting.push(it);
      if (!isPaced || this.#waiting.length === 1) this.#time(it);
      if (this.#waiting.length === 1) this.#hold();
      this.#write(key, it);
    });
  }

  get hasEnded() {
    return this.#fault !== undefined;
  }

  /** Keeps the process alive, or not, while nothing is under way. */
  unref(isUnref) {
    this.#isUnref = isUnref;
    this.#hold();
  }

  #hold() {
    if (this.#isUnref && this.#waiting.length === 0) this.#socket.unref();
    else this.#socket.ref();
  }

  /** Frames of one turn of the event loop go out together, the short ones in pieces. */
  #write(key, it) {
    const length = lengthOf(it.request);
    if (this.#isToWrite === false) {
      this.#isToWrite = true;
      process.nextTick(() => this.#flush());
    }
    if (this.#piece.length - this.#filled < length) this.#send();
    if (length > PIECE_BYTES) {
      this.#socket.write(writeFrame(Buffer.allocUnsafe(length), 0, key, it.number, it.request));
      return;
    }
    if (this.#piece.length === 0) this.#piece = Buffer.allocUnsafe(PIECE_BYTES);
    writeFrame(this.#piece, this.#filled, key, it.number, it.request);
    this.#filled += length;
  }

  /** Sends what stands in the piece. */
  #send() {
    if (this.#filled > 0) this.#socket.write(this.#piece.subarray(0, this.#filled));
    this.#piece = this.#piece.subarray(this.#filled);
    this.#filled = 0;
    if (this.#piece.length < SHORT_BYTES) this.#piece = EMPTY;
  }

  #flush() {
    this.#isToWrite = false;
    if (!this.#fault) this.#send();
  }

  #time(it) {
    it.deadline = performance.now() + it.timeout;
    if (it.deadline < this.#due) this.#arm(it.deadline);
  }

  /** One timer serves all requests. It does not keep the process alive: the socket does while a request waits. */
  #arm(due) {
    clearTimeout(this.#timer);
    this.#due = due;
    this.#timer = setTimeout(() => this.#look(), Math.max(1, Math.ceil(due - performance.now()))).unref();
  }

  /** Ends the connection if a request has waited too long, or else looks again once the next one has. */
  #look() {
    const now = performance.now();
    let next = Infinity;
    for (const it of this.#waiting.items()) {
      if (it.deadline <= now && !it.isOver) {
        this.#settle(it, { error: TimedOut, message: `no answer within ${it.timeout} ms` });
        return this.end(BrokenConnection, 'another call on the connection had no answer in time');
      }
      if (!it.isOver) next = Math.min(next, it.deadline);
    }
    this.#due = Infinity;
    if (next < Infinity) this.#arm(next);
  }

  #settle(it, end) {
    it.isOver = true;
    it.forget?.();
    it.resolve(end);
  }

  #take(piece) {
    try {
      for (const reply of this.#replies.feed(piece)) {
        const it = this.#waiting.first;
        if (!it) throw new BrokenConnection(`a reply numbered ${reply.number} answers no request`);
        const end = outcome(reply, it.number, it.request);
        this.#waiting.shift();
        this.#settle(it, end);
        if (this.#waiting.first?.isPaced) this.#time(this.#waiting.first);
      }
      if (this.#waiting.length === 0) this.#hold();
    } catch (fault) {
      if (!(fault instanceof BrokenConnection)) throw fault;
      this.end(BrokenConnection, fault.message);
    }
  }

  /** Closes the connection: no reply will come to what waits. */
  end(error, message) {
    if (this.#fault) return;
    this.#fault = { error, message };
    this.#ended();
    clearTimeout(this.#timer);
    this.#socket.destroy();
    for (; this.#waiting.length > 0; this.#waiting.shift()) this.#settle(this.#waiting.first, this.#fault);
  }
}
