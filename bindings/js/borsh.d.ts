/** What a call has no answer for. */
export class BorshError extends Error {
  constructor(
    kind: ErrorKind,
    text: string,
    found?: { path?: string; type?: string; offset?: number | string; reason?: string; record?: number; cause?: unknown },
  );

  readonly kind: ErrorKind;
  /**
   * The path of the part that the error is about, as `A.y[3]` or `A.y[3]::V.0`, where a name that isn't an identifier is in quotation
   * marks; `text` or `type`, of {@link Schema.parse}.
   */
  readonly path: string | undefined;
  /** The name of the part's type, of an error about bytes. */
  readonly type: string | undefined;
  /** The byte at which bytes stop being a value, or near which a text stops being JSON or types. */
  readonly offset: number | undefined;
  /** Of an error of {@link Schema.records}: the byte of the stream at which the value begins. The offset is within the value. */
  readonly record: number | undefined;
  /** The error without its path, type and offset. */
  readonly reason: string;
}

/** What is thrown for an argument of another type, as for `schema.check(7)`: it has the properties of a {@link BorshError}. */
export interface ArgumentError extends TypeError {
  readonly kind: "argument";
  readonly path: undefined;
  readonly offset: undefined;
  readonly reason: string;
}

/**
 * - `"no"`: the text is no type, the schema breaks a rule or has no greatest size, the bytes are no value, or the JSON describes none
 * - `"malformed"`: the bytes aren't the encoding of a schema container
 * - `"undecided"`: the schema allows two values for the same bytes, or breaks a rule of widths
 * - `"out of memory"`: the module's memory, of at most 4 GiB, doesn't suffice; it can be used further
 */
export type ErrorKind = "no" | "malformed" | "undecided" | "out of memory";

/** Bytes, or their hexadecimal digits; white space between digits and a `0x` before them are passed over. */
export type Source = Uint8Array | ArrayBufferLike | string;

/** Bytes in pieces, which are cut anywhere: a stream of the browser's or of Node's, an iterable, or all bytes at once. */
export type Pieces = Stream | AsyncIterable<Uint8Array | ArrayBufferLike> | Iterable<Uint8Array | ArrayBufferLike> | Uint8Array | ArrayBufferLike;

/** What a `ReadableStream` has. */
export interface Stream {
  getReader(): {
    read(): Promise<{ done: boolean; value?: Uint8Array | undefined }>;
    cancel(): Promise<unknown>;
  };
}

/**
 * A value as it is decoded, by the table "JSON" of docs/TOOL.md, with these instead of some texts:
 *
 * - whole numbers of 64 and 128 bits are `bigint`s, or decimal strings where that is asked for; smaller ones are `number`s
 * - floats are `number`s, those of their shortest decimals: an `f32` may be 0.1
 * - lists and arrays of `u8`, and primitives of other names, are `Uint8Array`s, as the bytes lie
 *
 * So texts are strings, `bool`s booleans, lists and tuples arrays, structs objects, maps by texts or numbers objects too and other
 * maps arrays of pairs; an `Option` is `null` or what it has; a variant is its name, or an object `{ Name: value }`.
 */
export type Value = null | boolean | number | bigint | string | Uint8Array | Value[] | { [name: string]: Value };

/** What may be a value: all but `undefined` and symbols. Which it has to be, only the schema says. */
export type Encodable = null | boolean | number | bigint | string | object;

/** What some bytes of a value are: a number, a text, a list of numbers, the count of another list, or the tag of an enum. */
export interface Row {
  /** How many bytes of the value come before these. */
  offset: number;
  /** How many values the part is in. */
  depth: number;
  /** The bytes: a part of those that were given, and no copy. A text or a list of numbers has its count before it. */
  bytes: Uint8Array;
  /** As `A.y[3]`, or `A.y[3]::V.0`. */
  path: string;
  /** The name of the type. */
  type: string;
  /** What the bytes say: `12`, `"text"`, `3 elements`, the name of a variant; empty for bytes that are no number. */
  value: string;
}

/** A definition as JSON has it, and as `Schema.ofSchemas().decode` gives it in `definitions`. */
export type DefinitionJson =
  | { readonly Primitive: Whole }
  | {
      readonly Sequence: {
        readonly length_width: Whole;
        readonly length_range: { readonly start: Whole; readonly end: Whole };
        readonly elements: string;
      };
    }
  | { readonly Tuple: { readonly elements: readonly string[] } }
  | {
      readonly Struct: {
        readonly fields: "Empty" | { readonly UnnamedFields: readonly string[] } | { readonly NamedFields: readonly (readonly [string, string])[] };
      };
    }
  | { readonly Enum: { readonly tag_width: Whole; readonly variants: readonly (readonly [Whole, string, string])[] } };

/** A whole number; as a string in decimal, where it has 64 bits. */
export type Whole = number | bigint | string;

/** What a schema says of a name. Tags and lengths are `bigint`s, since they have 64 bits. `name` is `null` of a field without one. */
export type Definition =
  | { kind: "primitive"; size: number }
  | { kind: "sequence"; lengthWidth: number; least: bigint; greatest: bigint; elements: string }
  | { kind: "tuple"; elements: string[] }
  | { kind: "struct"; fields: { name: string | null; type: string }[] }
  | { kind: "enum"; tagWidth: number; variants: { tag: bigint; name: string; type: string }[] };

/**
 * A schema: what an encoded schema container says. Each call throws a {@link BorshError} where it has no answer, and an
 * {@link ArgumentError} for an argument of another type; the schema is unchanged after either.
 *
 * ```js
 * const schema = Schema.from(containerBytes);
 * const value = schema.decode(bytes);
 * ```
 */
export class Schema {
  private constructor();

  /**
   * The schema of a type by its text. `source` has items that the type may name: Rust source; an Anchor IDL, whose accounts begin with their
   * eight bytes of discriminator; or a schema object of borsh-js, whose own type is `Schema`. The last two are JSON, or an object of it.
   * `type` is any type in Rust's words. Without it the source is itself a type, or a schema object.
   *
   * The error is `"no"`, with line and column, if the text can't be read, or the type has no schema.
   *
   * ```js
   * Schema.parse("struct Vault { owner: [u8; 32], open: bool }", "Vault");
   * Schema.parse("HashMap<String, u64>");
   * Schema.parse({ struct: { x: "u8", y: { array: { type: "u8", len: 4 } } } });
   * ```
   */
  static parse(source: string | object, type?: string): Schema;

  /** The schema of an encoded container, of which a copy is kept. The error is `"malformed"` or `"out of memory"`. */
  static from(container: Source): Schema;

  /** The schema of schemas: by it an encoded container is itself a value. */
  static ofSchemas(): Schema;

  /**
   * The schema with this root and these definitions by their names, as JSON has them or as {@link Schema.definitions} gives them. The error
   * is `"no"` for what are no definitions, with the path in a container.
   */
  static of(
    root: string,
    definitions: { readonly [name: string]: DefinitionJson | Definition } | ReadonlyMap<string, DefinitionJson | Definition>,
  ): Schema;

  /** A copy of the encoded container. */
  readonly bytes: Uint8Array;

  /** The name of the type whose values the schema describes. */
  readonly root: string;

  /** The definitions by their names. They aren't to be changed. */
  readonly definitions: ReadonlyMap<string, Definition>;

  /** Returns if the schema keeps the rules of docs/TOOL.md, else the error `"no"` names a rule and a name that breaks it. */
  validate(): void;

  /** The greatest size of a value in bytes; the error `"no"` is `overflow` (of 64 bits), `recursive`, or `missing` and a name. */
  maxSize(): bigint;

  /**
   * Returns if all of the bytes are a value by the definitions alone; the error `"no"` says where they stop being one, and why. The
   * type itself may refuse what is a value here: {@link Schema.decode} does so as far as names tell.
   */
  check(bytes: Source): void;

  /**
   * The value that all of the bytes are. The error is as of {@link Schema.check}, and `"no"` for what has no JSON, as a text that isn't
   * UTF-8, a map whose keys don't ascend, or a value that nests more than 128 deep. With `longNumbers: "string"` numbers of 64 and 128
   * bits are decimal strings.
   */
  decode(bytes: Source, options?: { longNumbers?: "bigint" | "string" }): Value;

  /**
   * The bytes of a value, as {@link Schema.decode} returns it. A whole number may be a `number` or a `bigint`, and also be given for a float; an
   * `f32` is rounded. Of an object its own properties with names count, and fields and entries may come in any order; any map may be a
   * `Map`. The error `"no"` says which part doesn't fit, is no value (`undefined`, a function, a `Date`), can't be read (a getter throws),
   * isn't exact (2^53 as a `number` for a whole number), or has half of a surrogate pair.
   */
  encode(value: Encodable): Uint8Array;

  /** The value's JSON, on one line unless `compact` is false. With `longNumbers: "string"` numbers of 64 bits are strings. */
  toJson(bytes: Source, options?: { compact?: boolean; longNumbers?: "number" | "string" }): string;

  /** The bytes of the value that JSON describes. The error `"no"` says which part is wrong, or where the text isn't JSON. */
  fromJson(json: string): Uint8Array;

  /**
   * The values that follow one another to the end of the bytes, each as {@link Schema.decode} returns it. The memory that is taken is that
   * of a few hundred kilobytes of bytes, or of the longest value, and of some thousand values. The source is read ahead of the values, and
   * is cancelled where the loop is left.
   *
   * The error `"no"` says which bytes are no value, that they end within one, or that one is longer than `maxLength`, by default 64 MiB;
   * its `record` is the byte at which that value begins, and those before it were given. A schema that has a value without bytes is
   * refused, without a `record`, since there may be any number of them.
   *
   * ```js
   * for await (const value of schema.records(file.stream())) console.log(value);
   * ```
   */
  records(source: Pieces, options?: { longNumbers?: "bigint" | "string"; maxLength?: number }): AsyncGenerator<Value, void, undefined>;

  /** A copy of the bytes of each of these values, in less time. They are checked as by {@link Schema.check}. */
  recordBytes(source: Pieces, options?: { maxLength?: number }): AsyncGenerator<Uint8Array, void, undefined>;

  /**
   * What each byte of the value is, in order. The error is as of {@link Schema.check}, and `"no"` where it nests more than 128 deep.
   * The parts are found in JavaScript, after the proved check.
   */
  rows(bytes: Source): Row[];

  /** The rows up to where the bytes stop being a value, or their end: of bytes that {@link Schema.check} refuses. */
  rowsBefore(bytes: Source): Row[];
}

/** What {@link compare} says. Names that aren't identifiers are in quotation marks, and a line end in one is `\x0a`. */
export interface Comparison {
  /** `"not known"` if neither bytes nor a proof were found. */
  readonly answer: "the same" | "compatible" | "incompatible" | "not known";
  /** Whether old data is still read. */
  readonly isCompatible: boolean;
  /** Whether JSON that says a value by the old schema says it by the new one too; of `"the same"` also the other way round. */
  readonly hasSameJson: boolean;
  /** What changed, as `A.kind: variant Frozen is new`: all, or where the schemas aren't compatible what that was found by. */
  readonly changes: readonly string[];
  /** Of incompatible schemas the digits of bytes, of many the first, that are a value of the old one and none of the new, and why. */
  readonly evidence: string | undefined;
  /** All of it in lines, in the words of the tool's `borsh compare`. */
  readonly text: string;
}

/**
 * Whether data of the old schema is still read by the new one: whether every value of it is one of the new. Only the definitions count, and
 * not what a type refuses beyond them, nor what values mean.
 *
 * ```js
 * if (!compare(deployed, built).isCompatible) throw new Error("accounts can't be read any more");
 * ```
 */
export function compare(old: Schema, now: Schema): Comparison;
