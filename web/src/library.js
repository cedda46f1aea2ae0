// The C library's calls that the program makes, over its arguments, its standard streams and files in memory. The proof assumes
// the C library's contracts, and nothing checks that these functions meet them: above all, none may write or answer more than
// the length that it is given. A call in a form that the program doesn't make throws, and so ends the run.

/** C's numbers: how the program opens and locks a file, of what it asks the size, and the errors that it is told. */
const UPDATE_OR_MAKE = 0o2000502;
const LOCK_AT_ONCE = 6;
const FROM_START = 0;
const BY_PATH = -100;
const BY_DESCRIPTOR = 0x1000;
const NO_SUCH_FILE = 2;
const WOULD_WAIT = 11;
const REGULAR_FILE = 0o100600;
/** Where C's `statx` has its fields, which of them are told, and its size. */
const STATX = { mask: 0, mode: 28, size: 40, told: 0x203, whole: 256 };
const LONGEST_PATH = 4096;

/** Linked with the program for other uses of files, and never called by it. */
const NEVER = ['ftruncate', 'fchmod', 'fdatasync'];

const decoder = new TextDecoder('utf-8', { fatal: true });

function expect(isSo, call) {
  if (!isSo) throw new Error(`the program called ${call}, which the page doesn't have`);
}

/** The program's memory, which moves while it grows. */
class Memory {
  constructor(buffer) {
    this.buffer = buffer;
  }

  bytes(place, length) {
    return new Uint8Array(this.buffer(), Number(place), Number(length));
  }

  /** Puts as many bytes as fit, and answers their number, or -2 where they don't fit. */
  put(bytes, place, length) {
    const fitting = bytes.subarray(0, Number(length));
    this.bytes(place, fitting.length).set(fitting);
    return bytes.length > fitting.length ? -2n : BigInt(bytes.length);
  }

  path(place) {
    const bytes = this.bytes(place, LONGEST_PATH);
    return decoder.decode(bytes.slice(0, bytes.indexOf(0)));
  }

  putSize(size, place) {
    const found = this.bytes(place, STATX.whole).fill(0);
    const fields = new DataView(found.buffer, found.byteOffset);
    fields.setUint32(STATX.mask, STATX.told, true);
    fields.setUint16(STATX.mode, REGULAR_FILE, true);
    fields.setBigUint64(STATX.size, BigInt(size), true);
  }
}

function fileCalls(memory, openings, fail) {
  return {
    open(path, flags) {
      expect(flags === UPDATE_OR_MAKE, `open with the flags ${flags}`);
      return openings.open(memory.path(path));
    },
    lseek(descriptor, place, from) {
      expect(from === FROM_START, `lseek from ${from}`);
      openings.seek(descriptor, Number(place));
      return place;
    },
    statx(descriptor, path, flags, mask, place) {
      const isByPath = descriptor === BY_PATH;
      expect(flags === (isByPath ? 0 : BY_DESCRIPTOR), `statx with the flags ${flags}`);
      const file = isByPath ? openings.files.get(memory.path(path)) : openings.at(descriptor).file;
      if (!file) return fail(NO_SUCH_FILE);
      memory.putSize(file.bytes.length, place);
      return 0;
    },
    flock(descriptor, how) {
      expect(how === LOCK_AT_ONCE, `flock with ${how}`);
      return openings.lock(descriptor) ? 0 : fail(WOULD_WAIT);
    },
    fsync(descriptor) {
      // Memory has no device to wait for.
      openings.at(descriptor);
      return 0;
    },
    close(descriptor) {
      openings.close(descriptor);
      return 0;
    },
  };
}

/** The calls of one run. `buffer` gives its memory, `streams` are its input and outputs, `openings` what it has open. */
export function libraryFor(buffer, words, streams, openings) {
  const memory = new Memory(buffer);
  let errno = 0;
  const fail = (error) => {
    errno = error;
    return -1;
  };
  const library = {
    ...fileCalls(memory, openings, fail),
    read(descriptor, place, length) {
      const from = descriptor === 0 ? streams : openings;
      return memory.put(from.read(descriptor, Number(length)), place, length);
    },
    write(descriptor, place, length) {
      const to = descriptor <= 2 ? streams : openings;
      to.write(descriptor, memory.bytes(place, length));
      return length;
    },
    rattle_arg: (at, place, length) => (at < words.length ? memory.put(words[Number(at)], place, length) : -1n),
    rattle_env: () => -1n,
    rattle_env_at: () => -1n,
    rattle_errno: () => errno,
    rattle_set_errno(value) {
      errno = value;
    },
  };
  for (const name of NEVER) library[name] = () => expect(false, name);
  return library;
}
