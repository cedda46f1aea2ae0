// Encrypted files: AES-256-GCM of the platform (WebCrypto), over any other storage. docs/STORAGE.md says the form, and what it protects.

import { utf8, textOf, type Stroke } from './door.js';
import { BadFile, WrongKey } from './errors.js';
import { FileImage, type Files, type OpenFile } from './storage.js';

/** 32 bytes of key material, or a `CryptoKey` for HKDF, which a page can keep without being able to read it. */
export type EncryptionKey = Uint8Array | CryptoKey;

const MAGIC = 'rsealed1';
const SALT = 16, NONCE = 12, TAG = 16, HEAD = 5;
/** Where the first record's gate is. */
const FIRST = MAGIC.length + SALT;

const subtle = () => crypto.subtle;

export async function importKey(key: EncryptionKey): Promise<CryptoKey> {
  if (!(key instanceof Uint8Array)) return key;
  if (key.length !== 32) throw new WrongKey(`a key has 32 bytes, and this one has ${key.length}`);
  return subtle().importKey('raw', key, 'HKDF', false, ['deriveKey']);
}

/** Whether these are the bytes of an encrypted file. */
export const isSealed = (bytes: Uint8Array): boolean => textOf(bytes.subarray(0, MAGIC.length)) === MAGIC;

/** Each record is sealed with its number, so that none can be left out, doubled or put elsewhere. */
function numberBytes(number: number): Uint8Array {
  const bytes = new Uint8Array(8);
  new DataView(bytes.buffer).setBigUint64(0, BigInt(number));
  return bytes;
}

class Sealer {
  private constructor(private readonly key: CryptoKey) {}

  static async of(key: CryptoKey, salt: Uint8Array): Promise<Sealer> {
    const how = { name: 'HKDF', hash: 'SHA-256', salt, info: utf8('realm_sync file') };
    return new Sealer(await subtle().deriveKey(how, key, { name: 'AES-GCM', length: 256 }, false, ['encrypt', 'decrypt']));
  }

  async seal(number: number, plain: Uint8Array): Promise<Uint8Array> {
    const iv = crypto.getRandomValues(new Uint8Array(NONCE));
    const sealed = new Uint8Array(await subtle().encrypt({ name: 'AES-GCM', iv, additionalData: numberBytes(number) }, this.key, plain));
    const record = new Uint8Array(4 + NONCE + sealed.length);
    new DataView(record.buffer).setUint32(0, NONCE + sealed.length);
    record.set(iv, 4);
    record.set(sealed, 4 + NONCE);
    return record;
  }

  /** Null where the bytes weren't sealed so. */
  async open(number: number, sealed: Uint8Array): Promise<Uint8Array | null> {
    const how = { name: 'AES-GCM', iv: sealed.subarray(0, NONCE), additionalData: numberBytes(number) };
    const plain = await subtle().decrypt(how, this.key, sealed.subarray(NONCE)).catch(() => null);
    return plain && new Uint8Array(plain);
  }
}

/** Does the strokes of a record: each its place, its length and its bytes. */
function replay(plain: Uint8Array, image: FileImage): void {
  const view = new DataView(plain.buffer, plain.byteOffset, plain.byteLength);
  for (let at = 0; at < plain.length;) {
    const place = Number(view.getBigUint64(at)), length = view.getUint32(at + 8);
    image.write(place, plain.subarray(at + 12, at + 12 + length));
    at += 12 + length;
  }
}

function plainOf(strokes: readonly Stroke[]): Uint8Array {
  const writes = strokes.filter((it): it is Exclude<Stroke, 'sync'> => it !== 'sync');
  const plain = new Uint8Array(writes.reduce((sum, it) => sum + 12 + it.bytes.length, 0));
  const view = new DataView(plain.buffer);
  let at = 0;
  for (const { place, bytes } of writes) {
    view.setBigUint64(at, BigInt(place));
    view.setUint32(at + 8, bytes.length);
    plain.set(bytes, at + 12);
    at += 12 + bytes.length;
  }
  return plain;
}

class SealedFile implements OpenFile {
  private gate = FIRST;
  private count = 0;

  private constructor(private readonly inner: OpenFile, private readonly sealer: Sealer, private readonly image: FileImage) {}

  static async open(inner: OpenFile, key: CryptoKey): Promise<SealedFile> {
    const bytes = await inner.read();
    // Nothing was answered of a file whose first gate is closed: it is begun anew, if it is one of these at all, and has no record behind the first.
    if (bytes.length > FIRST && bytes[FIRST] === 1) return SealedFile.read(inner, key, bytes);
    if (!(isSealed(bytes) || bytes.subarray(0, MAGIC.length).every((it) => it === 0))) throw new BadFile(0);
    if (bytes.length > FIRST + HEAD + NONCE + TAG + 1) throw new BadFile(FIRST);
    return SealedFile.made(inner, key);
  }

  private static async made(inner: OpenFile, key: CryptoKey): Promise<SealedFile> {
    const salt = crypto.getRandomValues(new Uint8Array(SALT));
    const file = new SealedFile(inner, await Sealer.of(key, salt), new FileImage());
    const closed = Uint8Array.of(0);
    await inner.apply([{ place: MAGIC.length, bytes: salt }, { place: FIRST, bytes: closed }, 'sync', { place: 0, bytes: utf8(MAGIC) }, 'sync']);
    await file.append(new Uint8Array(0)); // by which a wrong key is known
    return file;
  }

  private static async read(inner: OpenFile, key: CryptoKey, bytes: Uint8Array): Promise<SealedFile> {
    if (!isSealed(bytes)) throw new BadFile(0);
    const view = new DataView(bytes.buffer, bytes.byteOffset, bytes.byteLength);
    const file = new SealedFile(inner, await Sealer.of(key, bytes.slice(MAGIC.length, FIRST)), new FileImage());
    while (bytes[file.gate] === 1) {
      const at = file.gate + HEAD;
      const length = at <= bytes.length ? view.getUint32(file.gate + 1) : 0;
      const sealed = length >= NONCE + TAG && at + length <= bytes.length ? bytes.subarray(at, at + length) : null;
      const plain = sealed && (await file.sealer.open(file.count, sealed));
      if (!plain) throw file.count === 0 && sealed ? new WrongKey('the key is another one than that of the file') : new BadFile(file.gate);
      replay(plain, file.image);
      file.gate = at + length;
      file.count += 1;
    }
    return file;
  }

  /** One record behind the closed gate, which is opened once the record is on the disk. */
  private async append(plain: Uint8Array, note?: string): Promise<void> {
    const record = await this.sealer.seal(this.count, plain);
    const bytes = new Uint8Array(record.length + 1); // and the next gate, closed
    bytes.set(record);
    await this.inner.apply([{ place: this.gate + 1, bytes }, 'sync', { place: this.gate, bytes: Uint8Array.of(1) }, 'sync'], note);
    this.gate += bytes.length;
    this.count += 1;
  }

  read(): Uint8Array {
    return this.image.bytes();
  }

  async apply(strokes: readonly Stroke[], note?: string): Promise<void> {
    const plain = plainOf(strokes);
    await this.append(plain, note);
    replay(plain, this.image);
  }

  noted(): readonly string[] {
    return this.inner.noted?.() ?? [];
  }

  close(): void | Promise<void> {
    return this.inner.close();
  }
}

/** Files whose contents are encrypted. Their names, sizes and times aren't. */
export class SealedFiles implements Files {
  private constructor(private readonly inner: Files, private readonly key: CryptoKey) {}

  static async over(inner: Files, key: EncryptionKey): Promise<SealedFiles> {
    return new SealedFiles(inner, await importKey(key));
  }

  get kind(): string {
    return this.inner.kind;
  }

  names(): Promise<string[]> {
    return this.inner.names();
  }

  async open(name: string): Promise<OpenFile> {
    const inner = await this.inner.open(name);
    try {
      return await SealedFile.open(inner, this.key);
    } catch (error) {
      await inner.close();
      throw error;
    }
  }

  remove(name: string): Promise<void> {
    return this.inner.remove(name);
  }

  close(): Promise<void> {
    return this.inner.close();
  }
}
