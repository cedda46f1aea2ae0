// Files in memory: their bytes by name, and what one run of the program has open of them.

/** A file's bytes, and the opening that holds its lock. */
class File {
  constructor(bytes) {
    this.bytes = bytes;
    this.holder = null;
  }

  write(place, bytes) {
    const end = place + bytes.length;
    if (end > this.bytes.length) {
      const longer = new Uint8Array(end);
      longer.set(this.bytes);
      this.bytes = longer;
    }
    this.bytes.set(bytes, place);
  }
}

export class Files {
  constructor() {
    this.byName = new Map();
  }

  names() {
    return [...this.byName.keys()];
  }

  /** The file of a name, or undefined where there is none. */
  get(name) {
    return this.byName.get(name);
  }

  put(name, bytes) {
    const file = new File(bytes);
    this.byName.set(name, file);
    return file;
  }
}

/** What one run has open: descriptors from 3 on, since 0 to 2 are its input and its outputs. */
export class Openings {
  constructor(files) {
    this.files = files;
    this.all = [];
  }

  /** Opens a file to read and to write, and makes it where it is absent. */
  open(name) {
    const file = this.files.get(name) ?? this.files.put(name, new Uint8Array(0));
    this.all.push({ file, place: 0 });
    return this.all.length + 2;
  }

  at(descriptor) {
    const opening = this.all[descriptor - 3];
    if (!opening) throw new Error(`the program used descriptor ${descriptor}, which isn't open`);
    return opening;
  }

  read(descriptor, length) {
    const opening = this.at(descriptor);
    const piece = opening.file.bytes.subarray(opening.place, opening.place + length);
    opening.place += piece.length;
    return piece;
  }

  write(descriptor, bytes) {
    const opening = this.at(descriptor);
    opening.file.write(opening.place, bytes);
    opening.place += bytes.length;
  }

  seek(descriptor, place) {
    this.at(descriptor).place = place;
  }

  /** Takes the lock on a file, unless another opening holds it. */
  lock(descriptor) {
    const opening = this.at(descriptor);
    opening.file.holder ??= opening;
    return opening.file.holder === opening;
  }

  close(descriptor) {
    const opening = this.at(descriptor);
    if (opening.file.holder === opening) opening.file.holder = null;
    this.all[descriptor - 3] = null;
  }

  /** Closes what is left open, as the end of a process does. */
  end() {
    this.all.forEach((opening, at) => opening && this.close(at + 3));
  }
}
