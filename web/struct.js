// A struct of C as it lies in memory of 64 bits.

const KINDS = {
  u8: [1, 'setUint8', 'getUint8'], u16: [2, 'setUint16', 'getUint16'], u32: [4, 'setUint32', 'getUint32'],
  i32: [4, 'setInt32', 'getInt32'], size: [8, 'setBigUint64', 'getBigUint64'],
};

/** A struct: the kinds of its members by their names, in their order. An array of bytes is its length. */
export class Struct {
  constructor(members) {
    this.members = {};
    let end = 0, alignment = 1;
    for (const [name, kind] of Object.entries(members)) {
      const [bytes] = KINDS[kind] ?? KINDS.u8;
      const place = Math.ceil(end / bytes) * bytes;
      this.members[name] = { kind, place };
      end = place + (typeof kind === 'number' ? kind : bytes);
      alignment = Math.max(alignment, bytes);
    }
    this.bytes = Math.ceil(end / alignment) * alignment;
  }

  /** Writes a struct at an address. A member that is left out is 0. */
  set(core, address, values) {
    core.view(Uint8Array, address, this.bytes).fill(0);
    const view = new DataView(core.memory.buffer, address, this.bytes);
    for (const [name, value] of Object.entries(values)) {
      const { kind, place } = this.members[name];
      if (typeof kind === 'number') core.view(Uint8Array, address + place, value.length).set(value);
      else view[KINDS[kind][1]](place, kind === 'size' ? BigInt(value) : value, true);
    }
    return address;
  }

  /** The same in memory that is taken for it. Returns the address. */
  put(core, values) {
    return this.set(core, core.take(this.bytes), values);
  }

  /** Structs one after another. Returns the address of the first. */
  putAll(core, all) {
    const address = core.take(this.bytes * all.length);
    all.forEach((values, k) => this.set(core, address + k * this.bytes, values));
    return address;
  }

  /** The members of a struct, but arrays. An index that is none is `null`. */
  get(core, address) {
    const view = new DataView(core.memory.buffer, address, this.bytes);
    const read = ([name, { kind, place }]) => {
      const value = view[KINDS[kind][2]](place, true);
      return [name, value === 2n ** 64n - 1n ? null : Number(value)];
    };
    return Object.fromEntries(Object.entries(this.members).map(read));
  }
}
