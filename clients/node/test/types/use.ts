// What a user writes: tsc --strict takes it, but for the lines behind @ts-expect-error.
import { connect, pool, readKey, request, ExactNumber, NotFound, Refused, TooCostly } from '../../index.js';
import type { Hit, Usage } from '../../index.js';

export async function use(): Promise<string> {
  const client = await connect({ at: '127.0.0.1:7000', key: readKey('acme.key'), tls: { ca: 'a' } });
  const many = await pool({ size: 2, timeout: 1_000 });
  await client.put('shop', 'order-1', '{}', { signal: new AbortController().signal });
  const hits: Hit[] = await client.query('shop', '$');
  for (const { document, path, value } of await many.hits('shop', '$')) console.log(document, path, value.toString());
  const names: string[] = await many.documents('shop', '$');
  const order = await client.getJson<{ total: ExactNumber }>('shop', 'order-1', { exact: true });
  const found: Array<Usage | Refused> = await client.pipeline([request.usage()]);
  const mixed = await client.pipeline<Usage | string[]>([request.usage(), request.list('shop')]);
  try {
    await client.get('shop', 'none');
  } catch (fault) {
    if (fault instanceof NotFound || fault instanceof TooCostly) return `${fault.collection} ${fault.sentence}`;
  }
  // @ts-expect-error a text is a string or bytes
  await client.put('shop', 'order-1', { a: 1 });
  // @ts-expect-error it gives bytes
  const text: string = await client.get('shop', 'order-1');
  // @ts-expect-error there is no such option
  await connect({ host: 'a' });
  client.unref().close();
  return `${hits.length} ${names.length} ${order.total.text} ${found.length} ${mixed.length} ${text}`;
}
