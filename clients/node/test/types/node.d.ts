// So much of Node's types as index.d.ts names, for a machine without @types/node.
declare module 'node:buffer' {
  export class Buffer extends Uint8Array {
    toString(encoding?: string): string;
  }
}
declare module 'node:tls' {
  export interface ConnectionOptions {
    ca?: string;
    servername?: string;
  }
}
