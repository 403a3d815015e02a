// What tsc doesn't know: what the build puts before the scripts, newer parts of browsers, and the shapes of values.

declare const MODULE: string;
declare const WORKER: string;
declare const VERSION: string;
declare const NUMBERS: Record<string, [string, string, string]>;
declare const ENTITIES: Record<string, string>;
declare function createPurifier(window: object): { sanitize(node: Node, lists: object): Node; removed: object[] };

interface TrustedPolicy {
  createHTML(text: string): any;
  createScriptURL(url: string): any;
}
declare var trustedTypes: { createPolicy(name: string, rules: object): TrustedPolicy } | undefined;

interface ZStream {
  input: Uint8Array | null;
  next_in: number;
  avail_in: number;
  total_in: number;
  total_out: number;
  output: Uint8Array | null;
  next_out: number;
  avail_out: number;
  msg: string;
}
declare var ZStream: { new (): ZStream };
declare const zlib: {
  constants: Record<"Z_FINISH" | "Z_OK" | "Z_STREAM_END" | "Z_BUF_ERROR", number>;
  inflateInit2(stream: ZStream, bits: number): number;
  inflateReset(stream: ZStream): number;
  inflate(stream: ZStream, flush: number): number;
};

declare const cssTree: {
  tokenTypes: Record<
    | "AtKeyword" | "BadString" | "BadUrl" | "CDC" | "CDO" | "Colon" | "Comma" | "Comment" | "Delim" | "Dimension"
    | "Function" | "Hash" | "Ident" | "LeftCurlyBracket" | "LeftParenthesis" | "LeftSquareBracket" | "Number"
    | "Percentage" | "RightCurlyBracket" | "RightParenthesis" | "RightSquareBracket" | "Semicolon" | "String" | "Url"
    | "WhiteSpace",
    number
  >;
  tokenize(text: string, take: (kind: number, start: number, end: number) => void): void;
};

declare class DecompressionStream {
  constructor(format: string);
  readonly readable: ReadableStream<Uint8Array>;
  readonly writable: WritableStream<Uint8Array>;
}

type Piece = { first: number; base: number; count: number; view: DataView; words: Uint8Array; starts: Uint32Array };
// A file of an archive: its size as it is stored, and where its bytes, decompressed, begin in the archive.
type Part = { name: string; size: number; start: number; isPacked: boolean };
// Why a compressed file isn't read further than it is: the number is the offset of a member, or of what isn't one.
type PackedDamage = { kind: string; name: string; offset: number; why: string };
// What is left out of a compressed file, as it is no good member: its length in the file, and where in the archive the
// bytes of the members before it end, and those of the members after it begin. Or, of the kinds of OF_PACKAGE, a whole
// file of a package that isn't what was packed, or that zstd compressed; of the kind 'members' nothing is left out.
type Gap = PackedDamage & { length: number; place: number };
// Some bytes of the archive.
type ByteRange = { from: number; to: number };
// What of a file is good: the places where each run begins and ends. The damages between them, four numbers each:
// place, length, kind of fault, place of the fault. A fault of each kind as a text. How many good records there are.
// And why all after the first damage counts as damage, where nobody has looked.
type Pieces = {
  runs: Float64Array;
  damages: Float64Array;
  faults: Map<number, string>;
  records: number;
  why?: string;
};
type Damage = { place: number; length: number; fault: string; gap?: Gap };
type Finding = { position: number | null; number: string; field: string };
type Capture = { position: number; time: number; date: string; kind: string };
type Target = { uri: string; place: string };

interface Row {
  position: number;
  offset: number;
  blockStart: number;
  blockLength: number;
  truncated: boolean;
  kind: string;
  date: string;
  id: Uint8Array;
  target: Uint8Array;
  readonly verdict: string;
}

interface Question {
  uri?: Uint8Array;
  date?: string;
  position?: number;
  most?: number; // bytes: a longer body isn't wanted
}

interface Answer {
  chosen?: number | null;
  given?: number | null;
  status?: number | null;
  length?: number;
  truncated?: boolean;
  reason?: string;
  body?: Uint8Array | null;
  type?: string; // the content type of what is given
  http?: HttpHead | null;
  steps?: string[]; // how the browser decoded the body
  isDecoded?: boolean;
  isLeftOut?: boolean;
}

// What answers a view, and shows where its links lead.
interface ViewHost {
  ask(questions: Question[], left: number): Promise<Answer[]>;
  visit(): number; // another number once something else is shown
  keep(urls: string[]): void; // addresses of the view that is shown, in the place of others
  leave(): void;
  hearDrops(page: Document): void;
  has?(uri: string): boolean; // where it isn't there, only an answer says whether there is a capture
  lead(uri: string, moment: string): void;
  line(uri: string, found: Answer): (Node | string)[];
}

// What a server says of a capture, and what it has stored of the body.
interface ServedAnswer extends Omit<Answer, "chosen" | "given"> {
  words?: string; // all that it says where there is no body
  instant?: string;
  chosen?: any;
  given?: any;
  joined?: number;
  damaged?: number;
  coding?: string;
  location?: string | null;
  stored?: Uint8Array;
}
// A target that has captures: how many, and the first and the last instant.
interface ServedTarget {
  path: string;
  captures: number;
  first: string;
  last: string;
}
// A page that a package lists, and as of when it is shown, if it has a time; `later` is the date of its first capture,
// where that is later than its own time.
interface ServedPage {
  path: string;
  title: string | null;
  instant: string | null;
  later: string | null;
}
// Captures of a URI in order; whether there are more after them.
type ServedCaptures = { list: ServedCapture[]; isCut: boolean };
interface ServedCapture {
  datetime: string;
  uri: string;
  instant: string;
  kind: string;
  path: string;
  position: number;
  reason: string | null;
}

// A field of a head: its name and its value. Heads that the library is asked for: a record's, and that of an HTTP
// response at the front of a block. What it says of them: the fields, or null if there is no such head; of HTTP also
// the status, and where the body begins.
type FieldBytes = [Uint8Array, Uint8Array];
type AskedHead = { head: Uint8Array | null; front: Uint8Array | null };
type ReadHead = { fields: FieldBytes[] | null; http: ReadHttp | null };
type ReadHttp = { status: number; start: number; fields: FieldBytes[] };

// A page that has words, as the server says it.
interface WordHit {
  uri: string;
  uri_path: string;
  title: string;
  snippet: string;
  marks: [number, number][];
  mark: string | null;
  chosen: [string, number, string]; // the file, the position and the instant
  first: string;
  last: string;
  periods: [string, string][];
  in_periods: number;
  count: number;
  of: number;
}
interface WordAnswer {
  found: WordHit[];
  more: number | null;
  left_out: string;
  unread: number;
  missing: string[];
}
// How many URIs and captures begin with a text, and from when to when.
interface OverviewRow {
  path: string;
  uris: number;
  captures: number;
  first: string;
  last: string;
}

interface HttpHead {
  text: string;
  status: number;
  fields: [string, string][];
  start: number;
  get(name: string): string;
}

type Undo = (bytes: Uint8Array, most: number) => Promise<Uint8Array>;
type StoredType = { fields: [string, string][]; http: HttpHead | null; type: string };
type Found = { bytes: Uint8Array | null; stored?: Uint8Array; isDecoded?: boolean; words: Node[] };

// What the tabs show: a record, and the one whose block it gives.
interface Subject {
  position: number;
  row: Row;
  own: StoredType;
  given: Row;
  type: string;
  http: HttpHead | null;
  note: string | null;
  visit: number;
  answered: Promise<void>;
  answer?: Answer | null;
}

type Tab = (it: Subject) => Promise<any[]>;

interface RoomOfFile {
  file: Blob | null;
  names: string[];
  parts: Part[];
  damage: PackedDamage | null;
  gaps: Gap[];
  left: number; // files after the damage, which aren't opened
  packages: Map<string, HTMLElement>; // what is said of the files of each
  number: number;
  rows: Rows;
  counts: Counts;
  fault: string;
  runs: Runs;
  damages: Damages;
  unsought: string; // why nobody looked for good records after the first damage
  end: number; // of the good records, one after another
  holds: boolean;
  listed: boolean;
  isOpen: boolean;
  isStopped: boolean;
  findings: Finding[] | null;
  findingLines: string;
  words: string;
  order: number[] | null;
  waits: { position: number; done: () => void }[];
  current: number;
  captures: Map<string, Capture[]> | null;
  capturesOver: number;
  targets: string[] | null;
  ofWget: number | null;
  texts: TextSearch;
  drawn: number;
  began: number;
  listedIn: number;
  foundIn: number;
}

interface Room extends RoomOfFile {
  library: Library;
  filters: Map<string, { value: any; label: string; end?: number }>;
  sort: { by: string; up: boolean };
  visit: number;
  asked: number; // how often a URI as of a date
  urls: string[];
  tab: string;
}

// Where the directory of a ZIP is, and an entry: where its heads and its bytes are, and what these are to become.
type ZipPlace = { offset: number; length: number; entries: number };
interface ZipEntry {
  name: string;
  raw: Uint8Array; // its name
  file: Blob;
  head: number; // in the directory
  offset: number;
  begin: number;
  packed: number;
  size: number;
  crc: number;
  flags: number;
  method: number;
}

// A file, or an archive in a package. What a package says of a file, compared with it; and the pages that it lists.
// An archive; `fault` says that it isn't what was packed.
type NamedBlob = Blob & { name: string; fault?: PackedDamage & { length: number } };
type PackedFile = { path: string; verdict: string };
type PackedPage = { url: string; moment: string; title: string };
type PackedPages = { list: PackedPage[]; others: number; isCut: boolean };
type JudgeOfFile = (task: JudgeTask) => Promise<Uint8Array>;

// A part of a page between two places. A title and a text. A word, and where it is. Words that follow each other, of
// which the last may be a beginning; those that have to be there, and those that must not be. Where a term is, by its
// number. A part of a text, how many terms are in it, and where.
type PagePart = { kind: number; name: string; begin: number; end: number };
type PageText = { title: string; text: string };
type WordPlace = { word: string; begin: number; end: number };
type Term = { words: string[]; isPrefix: boolean };
type TextQuery = { wanted: Term[]; without: Term[] };
type TermPlace = { number: number; begin: number; end: number };
type Snippet = { count: number; text: string; marks: [number, number][] };
// A capture whose text is read: its position, and where its head and its block are in the file. What became of it: it
// has a text, or why it has none; or it gives the record at another position. What a helper reads: a body, or a coded
// block with its HTTP head; and what it gives: a text with its words, or why there is none.
type TextPlace = { position: number; offset: number; blockStart: number; blockLength: number };
type TextOutcome = { position: number; why: string };
type TextTask = { body: Uint8Array; type: string; http: ReadHttp | null };
type ReadText = { made?: PageText; words?: string; none?: string };
type FoundText = { position: number; title: string; snippet: string; marks: [number, number][] };
// What the worker says of texts: what became of captures, which captures have the words, and whether no more is kept.
type TextsRead = { outcomes: TextOutcome[]; hits: number[]; isFull: boolean };
type TextsFound = { hits: number[]; missing: string[]; why: string };

// What a module lists at the front of bytes.
type Front = { records: number; texts: number; end: number; fault: string; rows: ArrayBuffer; words: ArrayBuffer };
type JudgeTask = { file: Blob; ranges: ByteRange[]; rows: ArrayBuffer };
