// Where files are kept. A file has one opener; what `apply` did is there after a crash.

import type { Stroke } from './door.js';

export interface OpenFile {
  read(): Uint8Array | Promise<Uint8Array>;
  /** Does the strokes in order. When it returns, they are on the disk. */
  apply(strokes: readonly Stroke[], note?: string): void | Promise<void>;
  /**
   * The notes of the last strokes that came with one, up to `MOST_NOTES`: for whoever opens the file after a tab was killed. Only storages that tabs share
   * have them. So many tabs may wait for an answer at a time, each for one.
   */
  noted?(): readonly string[];
  close(): void | Promise<void>;
}

export const MOST_NOTES = 64;

/** The files of one database, by name. */
export interface Files {
  readonly kind: string;
  names(): Promise<string[]>;
  open(name: string): Promise<OpenFile>;
  remove(name: string): Promise<void>;
  close(): Promise<void>;
}

/** When an answer is told: once it is on the disk, or once the system has it (a crash of the system may then lose the last writes, and,
 * where the disk does writes in another order, the file). */
export type Durability = 'strict' | 'relaxed';

/** The bytes that writes at places make. */
export class FileImage {
  private room: Uint8Array;
  private length: number;

  constructor(bytes: Uint8Array = new Uint8Array(0)) {
    this.room = bytes;
    this.length = bytes.length;
  }

  write(place: number, bytes: Uint8Array): void {
    const end = place + bytes.length;
    if (end > this.room.length) {
      const wider = new Uint8Array(Math.max(end, this.room.length * 2, 1024));
      wider.set(this.room.subarray(0, this.length));
      this.room = wider;
    }
    this.room.set(bytes, place);
    this.length = Math.max(this.length, end);
  }

  bytes(): Uint8Array {
    return this.room.slice(0, this.length);
  }
}

/** Files in memory: gone with the page. Those of one `MemoryFiles` can be opened again, as tests do. */
export class MemoryFiles implements Files {
  readonly kind: string = 'memory';
  readonly files = new Map<string, FileImage>();

  /** Called before each stroke: a test's class lets one fail here. */
  protected stroke(): void {}

  async names(): Promise<string[]> {
    return [...this.files.keys()];
  }

  async open(name: string): Promise<OpenFile> {
    const image = this.files.get(name) ?? new FileImage();
    this.files.set(name, image);
    return {
      read: () => image.bytes(),
      apply: (strokes) => {
        for (const stroke of strokes) {
          this.stroke();
          if (stroke !== 'sync') image.write(stroke.place, stroke.bytes);
        }
      },
      close: () => {},
    };
  }

  async remove(name: string): Promise<void> {
    this.files.delete(name);
  }

  async close(): Promise<void> {}
}
