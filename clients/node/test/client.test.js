// Tests against a running server, and against peers whose replies are fixed: node --test clients/node/test/client.test.js
//
// The program is the one that bin/path_server builds, or the one that the environment's PATH_SERVER names.

import assert from 'node:assert/strict';
import { spawn } from 'node:child_process';
import net from 'node:net';
import { once } from 'node:events';
import { mkdtempSync, readFileSync, rmSync, writeFileSync } from 'node:fs';
import { tmpdir } from 'node:os';
import { join } from 'node:path';
import { after, before, beforeEach, test } from 'node:test';
import { fileURLToPath } from 'node:url';
import * as all from '../index.js';
import {
  BrokenConnection, ExactNumber, Exists, LostConnection, NotFound, NotJson, NotValid, NotWellFormed, QUERY_LIMIT, Refused, TEXT_LIMIT, TimedOut,
  connect, pool, readKey, request,
} from '../index.js';

const PROGRAM = process.env.PATH_SERVER || fileURLToPath(new URL('../../../crates/path_program/out/path_program', import.meta.url));
const KEY = '00112233445566778899aAbBcCdDeEfF';
const TEXT = '{"items": [{"name": "tea", "price": 4}, {"name": "pot", "price": 24.5}]}';
const CHEAP = '$.items[?@.price<10].name';

/** A server with one tenant; ends once its standard input is closed. */
async function listen(...words) {
  const server = spawn(PROGRAM, ['listen', '127.0.0.1:0', KEY, ...words], { stdio: ['pipe', 'pipe', 'ignore'] });
  const [line] = await once(server.stdout, 'data');
  return { at: /^listening (\S+)\n$/.exec(line)[1], stop: () => (server.kill(), once(server, 'exit')) };
}

/**
 * The address of a peer that answers a first request with these bytes, one at a time, and ends; or that says nothing. `N` is the number of the
 * request, and `N+` the next one.
 */
async function peer(t, reply) {
  const listener = net.createServer((socket) => {
    socket.on('error', () => {});
    socket.once('data', (asked) => {
      if (reply === undefined) return;
      const digits = (number) => (number >>> 0).toString(16).padStart(8, '0');
      const number = asked.readUInt32BE(5);
      const filled = reply.replaceAll('N+', digits(number + 1)).replaceAll('N', digits(number)).replaceAll(' ', '');
      for (const byte of Buffer.from(filled, 'hex')) socket.write(Buffer.of(byte));
      socket.end();
    });
  });
  listener.listen(0, '127.0.0.1');
  await once(listener, 'listening');
  t.after(() => listener.close());
  return `127.0.0.1:${listener.address().port}`;
}

/** The address of a peer that gives each connection to `serve`, which gets the bodies of its requests, and those that it has seen. */
async function answering(t, serve) {
  const seen = [];
  const listener = net.createServer((socket) => {
    let rest = Buffer.alloc(0);
    socket.on('error', () => {});
    const place = listener.count;
    listener.count += 1;
    socket.on('data', (piece) => {
      rest = Buffer.concat([rest, piece]);
      for (let end; rest.length >= 4 && rest.length >= (end = 4 + rest.readUInt32BE(0)); rest = rest.subarray(end)) {
        seen.push(rest.subarray(4, end));
        serve(socket, seen.at(-1), place);
      }
    });
  });
  listener.count = 0;
  listener.listen(0, '127.0.0.1');
  await once(listener, 'listening');
  t.after(() => listener.close());
  return { at: `127.0.0.1:${listener.address().port}`, seen };
}

/** The frame of an Ok to a request. */
function ok(asked, payload = Buffer.alloc(0)) {
  const head = Buffer.alloc(9);
  head.writeUInt32BE(5 + payload.length, 0);
  asked.copy(head, 5, 1, 5);
  return Buffer.concat([head, payload]);
}

const USAGE = Buffer.alloc(12);
const usage = { collections: 0, documents: 0, bytes: 0 };

let server;
let client;
before(async () => {
  server = await listen();
  client = await connect({ at: server.at, key: KEY });
});
beforeEach(() => client.pipeline(['shop', 'more'].map(request.drop)));
after(async () => {
  client.close();
  await server.stop();
});

test('commands', async () => {
  await client.put('shop', 'order-1', TEXT);
  await client.putNew('shop', 'order-2', Buffer.from('[1]'));
  assert.equal((await client.get('shop', 'order-1')).toString(), TEXT);
  const hit = { document: 'order-1', path: "$['items'][0]['name']", value: Buffer.from('"tea"') };
  assert.deepEqual(await client.query('shop', CHEAP), [hit]);
  assert.deepEqual(await client.list('shop'), ['order-1', 'order-2']);
  assert.deepEqual(await client.usage(), { collections: 1, documents: 2, bytes: TEXT.length + 3 });
  await client.remove('shop', 'order-2');
  await client.drop('shop');
  assert.deepEqual(await client.list('shop'), []);
  assert.ok((await client.ping()) < 30_000);
});

test('refusals', async () => {
  await client.put('shop', 'order-1', '[1]');
  for (const [kind, place, call] of [
    [NotJson, ['PUT', 'shop', 'order-1'], () => client.put('shop', 'order-1', '{')],
    [Exists, ['PUT_NEW', 'shop', 'order-1'], () => client.putNew('shop', 'order-1', '[]')],
    [NotFound, ['GET', 'shop', 'order-2'], () => client.get('shop', Buffer.from('order-2'))],
    [NotFound, ['DROP', 'more', ''], () => client.drop('more')],
    [NotWellFormed, ['QUERY', 'shop', ''], () => client.query('shop', '$[')],
  ]) {
    await assert.rejects(call, (found) => {
      assert.ok(found instanceof kind && found instanceof Refused);
      assert.equal(found.name, kind.name);
      assert.deepEqual([found.command, found.collection, found.document], place);
      return true;
    });
  }
  assert.equal((await client.get('shop', 'order-1')).toString(), '[1]');
  const stranger = await connect({ at: server.at, key: new Uint8Array(16) });
  await assert.rejects(stranger.usage(), { name: 'NoTenant', status: 2 });
  stranger.close();
});

test('places', async () => {
  await assert.rejects(client.put('shop', 'order-1', '{"a": 1,\n "b": 2,\n}'), ({ place, line, column, expected, message }) => {
    assert.deepEqual([place.byte, place.line, place.column, place.expected], [18, 3, 1, 'a name in double quotes']);
    assert.deepEqual([line, column, expected], [3, 1, 'a name in double quotes']);
    assert.ok(message.endsWith("\nline 3, column 1 (byte 18): expected a name in double quotes, found '}'"));
    return true;
  });
  await assert.rejects(client.get('shop', 'order-2'), ({ place }) => place === undefined);
});

test('places in queries', async () => {
  for (const [query, kind, byte, expected, said] of [
    ['$[?@.a=1]', NotWellFormed, 7, "'='", "line 1, column 8 (byte 7): expected '=', found '1'"],
    ['$.é[?count(1)>1]', NotValid, 12, undefined, 'line 1, column 12 (byte 12): the argument is a query'],
  ]) {
    const fault = await client.query('shop', query).catch((found) => found);
    assert.ok(fault instanceof kind);
    assert.deepEqual([fault.place.byte, fault.expected, fault.message.split('\n').slice(1)], [byte, expected, [said]]);
  }
});

test('the place in a long text is sought for who asks for it, once', async () => {
  const fault = await client.put('shop', 'order-1', `[${'1,'.repeat(1_900_000)}]`).catch((found) => found);
  assert.ok(fault instanceof NotJson && !fault.message.includes('\n'));
  const took = [() => fault.message, () => fault.place, () => fault.place].map((ask) => {
    const began = performance.now();
    ask();
    return performance.now() - began;
  });
  assert.deepEqual([fault.place.byte, fault.place.line, fault.place.column], [3_800_001, 1, 3_800_002]);
  assert.ok(Math.max(took[0], took[2]) < took[1] / 10, String(took));
});

test('requests that are none', async () => {
  for (const call of [
    () => client.get('', 'd'),
    () => client.get('c'.repeat(65), 'd'),
    () => client.get('c', 'd'.repeat(129)),
    () => client.get('c c', 'd'),
    () => client.get('c\n', 'd'),
    () => client.get('é', 'd'),
    () => client.put('shop', 'order-1', ' '.repeat(TEXT_LIMIT + 1)),
    () => client.put('shop', 'order-1', '"\ud83d"'),
    () => client.query('shop', `$${' '.repeat(QUERY_LIMIT)}`),
  ]) {
    await assert.rejects(call, RangeError);
  }
  await client.put('c'.repeat(64), 'd'.repeat(128), `${' '.repeat(TEXT_LIMIT - 1)}1`);
  await client.drop('c'.repeat(64));
  for (const key of [KEY.slice(2), '0123456789abcdef', new Uint8Array(15), 7, 'g'.repeat(32)]) {
    await assert.rejects(connect({ at: server.at, key }), RangeError);
  }
  for (const at of ['127.0.0.1', '127.0.0.1:65536', '127.0.0.1:0', ':7000', '::1:7000', 'http://127.0.0.1:7000', '127.0.0.1:7000/x', '']) {
    await assert.rejects(connect({ at, key: KEY }), RangeError, at);
  }
  for (const timeout of [0, -1, 3e9, Infinity, NaN, null, '30']) {
    await assert.rejects(connect({ at: server.at, key: KEY, timeout }), /a timeout is a number of milliseconds from 1 to 2147483647/);
    await assert.rejects(client.usage({ timeout }), RangeError);
  }
  for (const options of [server.at, null, 7]) {
    for (const open of [connect, pool]) await assert.rejects(open(options), { name: 'TypeError', message: /^options are an object/ });
  }
  await assert.rejects(client.get('c c', 'd'), /not 'c c'$/);
  for (const size of [0, 1.5, '4']) await assert.rejects(pool({ at: server.at, key: KEY, size }), RangeError);
});

test('pipeline', async () => {
  const puts = Array.from({ length: 900 }, (_, place) => request.put('shop', `${place}`, `${place}`));
  const found = await client.pipeline([...puts, request.get('shop', 'none'), request.query('shop', '$[0]'), request.get('shop', '899')]);
  assert.deepEqual(found.slice(0, 900), Array(900).fill(undefined));
  assert.ok(found[900] instanceof Refused && found[900] instanceof NotFound);
  assert.deepEqual(found.slice(901), [[], Buffer.from('899')]);
});

test('a pipeline of what are no requests', async () => {
  for (const it of [['put', 'shop', 'a', '1'], undefined, 'get', {}]) {
    await assert.rejects(client.pipeline([request.put('shop', 'a', '1'), it]), (fault) => {
      assert.deepEqual([fault.name, fault.results], ['TypeError', [undefined]]);
      return true;
    });
    // the connection goes on
    const before = client.usage();
    assert.equal((await client.get('shop', 'a')).toString(), '1');
    await before;
  }
});

test('a pipeline of large texts, and calls that overlap', async () => {
  const text = `"${'x'.repeat(1_000_000)}"`;
  const found = await client.pipeline(Array(10).fill([request.put('shop', 'large', text), request.get('shop', 'large')]).flat());
  assert.ok(found.every((it, place) => (place % 2 ? it.toString() === text : it === undefined)));
  const names = Array.from({ length: 100 }, (_, place) => `${place}`);
  await Promise.all(names.map((name) => client.put('more', name, name)));
  assert.deepEqual((await Promise.all(names.map((name) => client.get('more', name)))).map(String), names);
});

test('a new connection where the server closed one', async () => {
  const brief = await listen('--idle', '1');
  const it = await connect({ at: brief.at, key: KEY });
  await it.put('shop', 'order-1', '1');
  await new Promise((resolve) => setTimeout(resolve, 3_500));
  assert.equal((await it.get('shop', 'order-1')).toString(), '1');
  await brief.stop();
  await assert.rejects(it.usage(), BrokenConnection);
  it.close();
  await assert.rejects(it.usage(), { message: 'the client is closed' });
});

test('what is sent again, or waits for a connection, has one timeout for all', async (t) => {
  const slow = await answering(t, (socket, asked, place) => place % 2 === 0 && setTimeout(() => socket.destroy(), 600));
  const wanted = { name: 'TimedOut', message: 'no answer within 1000 ms' };
  for (const open of [connect, pool]) {
    const it = await open({ at: slow.at, key: KEY, timeout: 1_000, size: 1 });
    const began = performance.now();
    await assert.rejects(it.usage(), wanted);
    const took = performance.now() - began;
    assert.ok(took > 900 && took < 1_500, String(took));
    it.close();
  }
});

test('the JSON text of a value is a literal of a query', async () => {
  const values = ["it's", 'a "quote"', 'back\\slash', "', $..*", '\n\t\0\x7f/', '\u2028é\u{1f600}', '', 4, -1.5e-7, 1e22, true, null];
  for (const [place, value] of values.entries()) await client.putJson('more', `${place}`, { tags: [value] });
  for (const [place, value] of values.entries()) {
    assert.deepEqual(await client.documents('more', `$.tags[?@==${JSON.stringify(value)}]`), [`${place}`]);
  }
});

test('no server', async () => {
  const wanted = { name: 'BrokenConnection', code: 'ECONNREFUSED', message: 'no new connection: connect ECONNREFUSED 127.0.0.1:1' };
  for (const open of [connect, pool]) await assert.rejects(open({ at: '127.0.0.1:1', key: KEY }), wanted);
  await assert.rejects(new all.Client({ at: '127.0.0.1:1', key: KEY }).usage(), wanted);
});

test('replies in single bytes', async (t) => {
  for (const [reply, call, wanted] of [
    ['00000011 00 N 00000001 00000002 00000003', (it) => it.usage(), { collections: 1, documents: 2, bytes: 3 }],
    ['0000000d 00 N 00000002 0161 0162', (it) => it.list('c'), ['a', 'b']],
    [
      '00000017 00 N 00000001 0164 00000003 24c3a9 00000001 31',
      (it) => it.query('c', '$'),
      [{ document: 'd', path: '$é', value: Buffer.from('1') }],
    ],
  ]) {
    const it = await connect({ at: await peer(t, reply), key: KEY });
    assert.deepEqual(await call(it), wanted);
    it.close();
  }
});

test('what is no reply', async (t) => {
  for (const [reply, call] of [
    ['', (it) => it.usage()],
    ['00000011 00 N 0000', (it) => it.usage()],
    ['00000004 00 000000', (it) => it.usage()],
    ['00800001', (it) => it.usage()],
    ['00000005 00 N+', (it) => it.drop('c')],
    ['00000005 ff 00000000', (it) => it.drop('c')],
    ['00000006 00 N 00', (it) => it.drop('c')],
    ['00000006 0f N 00', (it) => it.drop('c')],
    ['00000010 00 N 00000001 00000002 000000', (it) => it.usage()],
    ['0000000b 00 N 00000002 0161', (it) => it.list('c')],
    ['0000000b 00 N 00000001 0261', (it) => it.list('c')],
    ['00000015 00 N 00000001 0164 00000001 ff 00000001 31', (it) => it.query('c', '$')],
    ['00000015 00 N 00000001 0164 00000001 24 00000002 31', (it) => it.query('c', '$')],
  ]) {
    const it = await connect({ at: await peer(t, reply), key: KEY });
    await assert.rejects(call(it), BrokenConnection, reply);
    it.close();
  }
});

test('silence', async (t) => {
  const it = await connect({ at: await peer(t), key: KEY, timeout: 200 });
  const ends = await Promise.allSettled([it.usage(), it.list('c')]);
  assert.ok(ends[0].reason instanceof TimedOut && ends[1].reason instanceof BrokenConnection);
  it.close();
});

test('texts that are none', async () => {
  for (const text of [{ a: 1 }, [49, 50], 5, true, null, undefined, new Date()]) {
    await assert.rejects(client.put('shop', 'none', text), /putJson/);
    await assert.rejects(client.put('shop', 'none', text), TypeError);
  }
  await assert.rejects(client.get('shop', 7), TypeError);
  await assert.rejects(client.get('shop', 'none'), NotFound);
});

test('documents with a hit, and hits one by one', async () => {
  for (const [name, total] of [['a', 10], ['b', 30], ['c', 24]]) await client.putJson('shop', name, { id: name, total, items: [1, 2] });
  assert.deepEqual(await client.documents('shop', '$[?$.total<25]'), ['a', 'c']);
  assert.deepEqual(await client.documents('shop', '$[?$.total<0]'), []);
  const hits = await client.hits('shop', '$.items[*]');
  assert.equal(hits.length, 6);
  assert.deepEqual([...hits], await client.query('shop', '$.items[*]'));
});

test('JSON', async () => {
  const text = '{"a":1.10,"b":9007199254740993,"c":[1E400,"\\"é[",null,true],"__proto__":{}}';
  await client.put('shop', 'exact', text);
  const value = await client.getJson('shop', 'exact', { exact: true });
  assert.deepEqual([value.a.text, value.c[0].text, Number(value.a)], ['1.10', '1E400', 1.1]);
  await client.putJson('shop', 'again', value);
  assert.equal((await client.get('shop', 'again')).toString(), text);
  assert.deepEqual(await client.pipeline([request.putJson('shop', 'big', { big: 2n ** 60n })]), [undefined]);
  assert.equal((await client.get('shop', 'big')).toString(), '{"big":1152921504606846976}');
  await client.putJson('shop', 'plain', { a: [1, 'é', 0.1, 2n ** 60n, new Date(0)], b: undefined });
  assert.equal((await client.get('shop', 'plain')).toString(), '{"a":[1,"é",0.1,1152921504606846976,"1970-01-01T00:00:00.000Z"]}');
  assert.deepEqual(await client.getJson('shop', 'exact'), JSON.parse(text));
  for (const none of [NaN, Infinity, undefined, () => 1, [undefined], Symbol('a')]) await assert.rejects(client.putJson('shop', 'none', none), TypeError);
  assert.throws(() => new ExactNumber('01'), RangeError);
});

test('keys and the environment', async (t) => {
  const folder = mkdtempSync(join(tmpdir(), 'path-client-'));
  t.after(() => rmSync(folder, { recursive: true }));
  const file = join(folder, 'acme.key');
  writeFileSync(file, `${KEY}\n`);
  assert.deepEqual(readKey(file), Buffer.from(KEY, 'hex'));
  Object.assign(process.env, { PATH_SERVER_AT: server.at, PATH_SERVER_KEY_FILE: file });
  for (const opened of [await connect(), await pool(), await connect({ timeout: 1_000 })]) {
    assert.deepEqual(await opened.usage(), await client.usage());
    opened.close();
  }
  writeFileSync(file, `${KEY}\n${KEY}\n`);
  assert.throws(() => readKey(file), /2 keys/);
  delete process.env.PATH_SERVER_AT;
  delete process.env.PATH_SERVER_KEY_FILE;
  await assert.rejects(connect({ key: KEY }), /PATH_SERVER_AT/);
  await assert.rejects(connect({ at: server.at }), /PATH_SERVER_KEY_FILE/);
});

test('the sentences are those of the shell', () => {
  const rows = readFileSync(new URL('../../../crates/protocol/src/statuses.rt', import.meta.url), 'utf8');
  const found = [...rows.matchAll(/^ {4}\d+ "(\w+)" "([^"]*)";/gm)].map(([, name, sentence]) => [name, sentence]);
  assert.equal(found.length, 24);
  for (const [status, [name, sentence]] of found.entries()) {
    if (['Ok', 'Retired'].includes(name)) continue;
    const refused = new all[name]();
    assert.deepEqual([refused.status, refused.name, refused.sentence], [status, name, sentence.replace(' in ', '')]);
  }
  assert.equal(all.TooCostly, all.Costly);
});

test('the types name what there is', () => {
  const types = readFileSync(new URL('../index.d.ts', import.meta.url), 'utf8');
  const declared = [...types.matchAll(/export declare (?:abstract )?(?:class|function|const) (\w+)|export \{ \w+ as (\w+) \}/g)].map(([, name, other]) => name ?? other);
  const methods = [...types.split('abstract class Calls')[1].split('\n}')[0].matchAll(/^ {2}(\w+)[<(]/gm)].map(([, name]) => name);
  assert.deepEqual(declared.sort(), Object.keys(all).sort());
  for (const name of methods) assert.equal(typeof client[name], 'function', name);
  assert.ok(methods.length >= 18);
});

test('what reads is sent again once, and what writes is not', async (t) => {
  const reads = { usage: [[], USAGE], list: [['c'], USAGE.subarray(4, 8)], query: [['c', '$'], USAGE.subarray(4, 8)], get: [['c', 'd'], Buffer.from('1')] };
  const writes = { put: [['c', 'd', '1']], putNew: [['c', 'd', '1']], remove: [['c', 'd']], drop: [['c']] };
  for (const [name, [words, payload]] of Object.entries({ ...reads, ...writes })) {
    for (const open of [connect, pool]) {
      const { at, seen } = await answering(t, (socket, asked, place) => (place === 0 ? socket.destroy() : socket.write(ok(asked, payload))));
      const it = await open({ at, key: KEY });
      if (payload) await it[name](...words);
      else await assert.rejects(it[name](...words), LostConnection);
      assert.equal(seen.length, payload ? 2 : 1, name);
      it.close();
    }
  }
  const never = await answering(t, (socket) => socket.destroy());
  const it = await connect({ at: never.at, key: KEY });
  await assert.rejects(it.usage(), LostConnection);
  assert.equal(never.seen.length, 2);
  it.close();
});

test('a pool: what befalls one call is its own', async (t) => {
  const { at } = await answering(t, (socket, asked) => {
    if (asked.at(-1) !== 48) setTimeout(() => socket.write(ok(asked, asked.subarray(-1))), 10);
  });
  const many = await pool({ at, key: KEY, size: 4, timeout: 1_000 });
  const ends = await Promise.allSettled(Array.from({ length: 10 }, (_, place) => many.get('c', `${place}`)));
  assert.ok(ends[0].reason instanceof TimedOut);
  assert.deepEqual(ends.slice(1).map((it) => it.value?.toString()), Array.from({ length: 9 }, (_, place) => `${place + 1}`));
  many.close();
  const silent = await pool({ at, key: KEY, size: 1, timeout: 1_000 });
  const began = performance.now();
  const late = await Promise.allSettled([silent.get('c', '0'), silent.get('c', '0'), silent.get('c', '0')]);
  assert.ok(late.every((it) => it.reason instanceof TimedOut));
  assert.ok(performance.now() - began < 1_900);
  silent.close();
  const closing = await answering(t, (socket, asked) => socket.end(ok(asked, asked.subarray(-1))));
  const again = await pool({ at: closing.at, key: KEY });
  const found = await Promise.all(Array.from({ length: 200 }, (_, place) => again.get('c', `${place % 10}`)));
  assert.deepEqual(found.map(String), Array.from({ length: 200 }, (_, place) => `${place % 10}`));
  again.close();
});

test('a pipeline: async sources, its results behind a fault, and a timeout for each reply', async (t) => {
  async function* source() {
    yield request.put('shop', 'a', '1');
    yield request.get('shop', 'a');
    throw new Error('the source');
  }
  await assert.rejects(client.pipeline(source()), (fault) => {
    assert.deepEqual([fault.message, fault.results], ['the source', [undefined, Buffer.from('1')]]);
    return true;
  });
  let stop = 10;
  const slow = await answering(t, (socket, asked) => {
    socket.turn = (socket.turn ?? Promise.resolve()).then(() => new Promise((done) => setTimeout(done, 150))).then(() => {
      socket.count = (socket.count ?? 0) + 1;
      if (socket.count <= stop) socket.write(ok(asked, USAGE));
    });
  });
  const it = await connect({ at: slow.at, key: KEY, timeout: 1_000 });
  assert.deepEqual(await it.pipeline(Array(10).fill(request.usage())), Array(10).fill(usage));
  it.close();
  stop = 4;
  const late = await connect({ at: slow.at, key: KEY, timeout: 1_000 });
  await assert.rejects(late.pipeline(Array(10).fill(request.usage())), (fault) => fault instanceof TimedOut && fault.results.length === 4);
  late.close();
  const lost = await answering(t, (socket, asked, place) => (socket.count = (socket.count ?? 0) + 1) <= 3 ? socket.write(ok(asked, USAGE)) : socket.destroy());
  const broken = await connect({ at: lost.at, key: KEY });
  await assert.rejects(broken.pipeline(Array(5).fill(request.usage())), (fault) => fault instanceof LostConnection && fault.results.length === 3);
  broken.close();
});

test('a server that drips', async (t) => {
  const { at } = await answering(t, async (socket, asked) => {
    for (const byte of ok(asked, USAGE)) {
      socket.write(Buffer.of(byte));
      await new Promise((done) => setTimeout(done, 100));
    }
  });
  for (const open of [connect, pool]) {
    const it = await open({ at, key: KEY, timeout: 300 });
    await assert.rejects(it.usage(), TimedOut);
    assert.deepEqual(await it.usage({ timeout: 10_000 }), usage);
    it.close();
  }
});

test('signals', async (t) => {
  const { at } = await answering(t, (socket, asked) => {
    if (asked.at(-1) !== 48) socket.write(ok(asked, asked.subarray(-1)));
  });
  for (const open of [connect, pool]) {
    const it = await open({ at, key: KEY, size: 1 });
    await assert.rejects(it.get('c', '1', { signal: AbortSignal.abort() }), { name: 'AbortError' });
    await assert.rejects(it.get('c', '0', { signal: AbortSignal.timeout(50) }), { name: 'TimeoutError' });
    if (open === pool) assert.equal((await it.get('c', '1')).toString(), '1');
    it.close();
  }
});

test('the stack names the caller', async () => {
  async function askForIt() {
    await client.get('shop', 'none');
  }
  await assert.rejects(askForIt, (fault) => fault.stack.includes('askForIt'));
});

test('a process ends where the client is unref', async () => {
  const script = `import { connect } from '${new URL('../index.js', import.meta.url)}';
    const client = (await connect({ at: '${server.at}', key: '${KEY}' })).unref();
    console.log((await client.usage()).bytes >= 0);`;
  const child = spawn(process.execPath, ['--input-type=module', '-e', script], { stdio: ['ignore', 'pipe', 'inherit'], timeout: 20_000 });
  const [line] = await once(child.stdout, 'data');
  assert.deepEqual([line.toString(), await once(child, 'exit')], ['true\n', [0, null]]);
});

test('await using closes', async () => {
  if (!Symbol.asyncDispose) return;
  const it = await connect({ at: server.at, key: KEY });
  await it[Symbol.asyncDispose]();
  await assert.rejects(it.usage(), { message: 'the client is closed' });
});

test('many calls at once cost what few do', async () => {
  const seconds = async (count) => {
    const began = process.cpuUsage();
    await Promise.all(Array.from({ length: count }, () => client.usage({ timeout: 300_000 })));
    const { user, system } = process.cpuUsage(began);
    return (user + system) / count;
  };
  await seconds(10_000);
  const few = [];
  for (let turn = 0; turn < 20; turn += 1) few.push(await seconds(1_000));
  const each = few.reduce((sum, it) => sum + it) / few.length;
  // what else is at work on the machine costs caches too, so that one measure is not enough
  let many = Infinity;
  for (let turn = 0; turn < 5 && many > 1.5 * each; turn += 1) many = Math.min(many, await seconds(100_000));
  assert.ok(many <= 1.5 * each, `${many} µs of a call among 100,000, ${each} among 1,000`);
});
