// What the modules share: nets, crowds, what the server answers, and elements. Read by `tsc` alone, and never served.

// ---- nets and crowds

type Counts = Record<string, number>;
type Move = [p: number, q: number, r: number, s: number, number: number];
type Way = [p: number, q: number, r: number, s: number, number: number, chance: number];

interface Leaf {
  label: string;
  states: string[];
  shown: string[];
  outputs: boolean[];
  inputs: number[];
  helpers: number[];
  moves: Move[];
  ways: Way[] | null;
  ordered: number[];
  lines: number[];
  hidden: number;
}

interface Net {
  names: string[];
  combine: (number | "and" | "or" | "not")[];
  leaves: Leaf[];
  predicate: string;
  assumed: string[];
}

type Kind = import("./model.js").Kind;
type Model = import("./model.js").Model;
type Crowd = import("./crowd.js").Crowd;
type Tally = Map<Kind, number>;
type TakenMoves = [leaf: number, move: number][];

interface Become {
  first: Kind;
  second: Kind;
  moves: TakenMoves;
}

interface Chosen extends Become {
  chance: number;
  isPlain: boolean;
}

// A meeting of a history: two agents, their kinds before, moves, kinds after, whether the program's `play` does the
// same; null for three of them where nothing changes.
type Meeting = [
  a: number, b: number, before: [Kind, Kind] | null, moves: TakenMoves | null, after: [Kind, Kind] | null,
  isPlain: boolean
];
type Met = [a: number, b: number, changed: boolean];

// A list of meetings: two agents each, or also a leaf and a move, which is then taken there alone.
interface Meetings {
  counts: Counts;
  meetings: number[][];
  end?: Counts;
  last?: string;
}

interface Watched extends Meetings {
  title: string;
  told: string;
  by?: BadgeKind;
  words?: string;
  bad?: boolean;
}

interface CrowdTold {
  net: Net;
  tally: Tally;
  meetings: number;
  last: {before: [Kind, Kind], after: [Kind, Kind]} | null;
}

// ---- what is known of a text

type BadgeKind = "certified" | "stable" | "rejected" | "compiled" | "played" | "run" | "measured" | "told" | "tried";
type KnownKind = "certified" | "stable" | "rejected" | "wrong" | "doubted";
type ProofState = "none" | "open" | "whole";
type FaultKind = "fault" | "refused" | "note" | "warning";

interface Mark {
  kind: FaultKind;
  told: string;
  line: number;
  column: number;
  fix?: {old: string, new: string};
}

interface Known {
  kind: KnownKind;
  line: string;
  version: number;
}

interface KnownLayers {
  net: string;
  leaves: number[][][];
}

interface Told {
  text: undefined;
  net: undefined;
  read: undefined;
  known: undefined;
  layers: undefined;
  journal: undefined;
  line: number;
  says: string;
  crowd: CrowdTold;
  watch: Watched;
}

// ---- a proof as it is shown

type Fact = [number: number, name: string, says: string, means: string];

interface ProofNode {
  n: number;
  owner: number;
  words: string;
  facts: Fact[];
  label?: string;
  head?: string;
  terms?: [factor: number, fact: Fact][];
  sum?: string;
  closes?: string;
  about?: string[];
  refused?: string;
  lacks?: string[];
  open?: boolean;
  line?: number;
}

interface ProofLayer {
  shaped: boolean;
  weights: [state: string, weight: number][];
  moves: [number: number, name: string, before: string[], after: string[], lowers: number, silent: boolean][];
  bound: number;
}

interface ProofGoal {
  layers: ProofLayer[];
  told: string[];
  lacks: string[];
}

interface ProofLeaf {
  label: string;
  computes: string;
  starts: [variable: string, state: string][];
  helpers: string[];
  layers: ProofLayer[];
  layerLacks: string[];
  goals?: {true?: ProofGoal, false?: ProofGoal};
  true: ProofNode[];
  false: ProofNode[];
}

interface Explanation {
  combine: string;
  soon: string[];
  notes: string[];
  warnings: string[];
  leaves: ProofLeaf[];
}

interface Answer {
  line: string;
  good: boolean;
  claim: "certified" | "stable";
  bound: number;
  tame: boolean;
}

// ---- what jobs answer, and what they tell while they go on

interface Checked {
  answer: Answer;
  explanation: Explanation;
  bundle: string;
  faults: Mark[];
  whole?: boolean;
}

interface Flaw {
  found: "flaw";
  endless: boolean;
  counts: Counts;
  meetings: number[][] | null;
  told: string[];
  file: string;
}

interface FoundProof extends Checked {
  found: "proof";
  told: string[];
  text: string;
}

interface Untried {
  found: "nothing";
  agents: number;
  asked: number;
  inputs: number;
  crowds: number;
  untried: string;
}

interface Played {
  crowd: Counts;
  line: string;
  terminal: boolean;
  enabled: number[] | null;
  meetings: number;
  value: boolean | null;
  leftOut: string[];
}

interface Simulated {
  told: string[];
  terminal: boolean;
  output: boolean | null;
  value: boolean | null;
  agents: number;
  lastChange: number;
  trace: string;
}

interface SizeRow {
  crowd: string;
  n: number;
  runs: number;
  undecided: number;
  wrong: number | null;
  figures: Record<string, number | null>;
}

interface Fit {
  text: string;
  points: Point[];
}

type Fits = Record<string, Fit | null>;

interface Ran {
  journal: string;
  last: string;
  replay: string;
  lastChange: number;
  list: Meetings | null;
}

interface Made {
  answer: Answer;
  form: string;
  leaves: [states: number, moves: number][];
  text: string;
}

interface Compiled extends Made {
  own: boolean;
  told: string[];
  bundle: string;
}

type Place = [x: number, y: number];

interface Curved {
  points: Place[];
  end: Place;
}

interface Link extends Curved {
  from: number;
  to: number;
  met: number[];
  text: string;
  label: Place | null;
}

interface Places {
  width: number;
  height: number;
  states: [x: number, y: number, wide: number][];
  starts: Record<string, Place>;
  first: Record<string, Curved>;
}

interface LeafDrawing {
  label: string;
  rows: [name: string, output: string, starts: string, becomes: string[]][];
  links: Link[];
  starts: string[];
  places: Places | null;
}

interface NetDrawing {
  leaves: LeafDrawing[];
  drawn: boolean;
}

type Read =
  {faults: Mark[], net: null} | {faults: Mark[], net: Net, proof: ProofState, json: boolean, members: string[]};

interface Jobs {
  read: Read;
  text: {text: string};
  check: Checked;
  find: FoundProof | Flaw | {found: "nothing", told: string[]};
  mend: FoundProof | Flaw | {found: "nothing", told: string[]};
  refute: Flaw | Untried;
  play: Played;
  simulate: Simulated;
  growth: {rows: SizeRow[], growths: string[], fits: Fits};
  run: Ran;
  journal: Meetings & {text: string, replay: string};
  settle: Meetings;
  join: Made;
  net: NetDrawing;
  compile: Compiled;
}

interface CurveRows {
  names: [name: string, output: boolean][];
  rows: [when: number, crowd: [at: number, count: number][]][];
  meetings: number;
  agents: number;
}

type Task = "small crowds" | "layers" | "true" | "false";

type SearchMessage = {event: "tasks", tasks: [at: number, task: Task][], labels: string[]} |
  {event: "going", shares: number[]} |
  {event: "came", at: number, task: Task, good: boolean, told: string, seconds: number};

interface Messages extends Record<keyof Jobs, unknown> {
  find: SearchMessage;
  mend: SearchMessage;
  refute: {agents: number, inputs: number, crowds: number};
  simulate: CurveRows;
  run: CurveRows;
  growth: {event: "runs", done: number, all: number} | ({event: "row"} & SizeRow);
}

interface OwnFile {
  name: string;
  path: string;
  mark: string;
  text: string;
}

interface Example {
  name: string;
  about: string;
  group: string;
}

interface Posts {
  "/start": {program: string, examples: Example[], told: string, file: OwnFile | null};
  "/example": {name: string, text: string};
  "/save": {mark: string};
}

// ---- charts

type Point = [x: number, y: number];

interface Series {
  name: string;
  colour: string;
  points: Point[];
  bars?: [x: number, low: number, high: number][];
  dash?: boolean;
  steps?: boolean;
  dots?: boolean;
  round?: boolean;
}

interface ChartData {
  series: Series[];
  xName: string;
  xShort: string;
  yName: string;
  about: string;
  xLog?: boolean;
  yLog?: boolean;
  dotted?: boolean;
  marks?: {x: number, text: string}[];
}

type Scale = (value: number) => number;

interface Curve {
  names: string[];
  outputs: boolean[];
  times: number[];
  rows: Map<number, number>[];
}

interface GivenCurve {
  names: string[];
  outputs: boolean[];
  times: number[];
  rows: [at: number, count: number][][];
  title: string;
  last: number | null;
  told: string[];
}

// A page without a server.
interface Given {
  name: string;
  text: string;
  net: Net;
  jobs: Partial<Jobs>;
  check: (Answer & {bundle: string, hash: string, explanation: Explanation}) | null;
  program: string;
  isOfSources: boolean;
  curves: GivenCurve[];
}

interface SliderPage {
  names: string[];
  outputs: Record<string, boolean>;
  agents: number;
  steps: {crowd: number[], pair: [number, number], move: string}[];
}

// ---- elements

type Kid = Node | string | number | boolean | null | undefined | Kid[];
type Attribute = string | number | boolean | null | undefined;
type Attributes = {
  [name in AttributeName]?: Attribute
}&{
  [name: `aria-${string}`]: Attribute;
};
type AttributeName =
  "autocapitalize" | "autocomplete" | "checked" | "class" | "d" | "dy" | "fill" | "for" | "height" | "hidden" | "id" |
  "inputmode" | "label" | "marker-end" | "max" | "min" | "open" | "placeholder" | "role" | "rows" | "scope" |
  "selected" | "spellcheck" | "step" | "tabindex" | "text-anchor" | "title" | "transform" | "type" | "value" |
  "visibility" | "width" | "cx" | "cy" | "markerHeight" | "markerUnits" | "markerWidth" | "orient" | "r" | "refX" |
  "refY" | "rx" | "viewBox" | "x" | "x1" | "x2" | "y" | "y1" | "y2";
type Calls<E> = {
  [name in keyof HTMLElementEventMap as `on${name}`]?: (event: HTMLElementEventMap[name]&{target: E}) => void
};
type Props<E> = Attributes&Calls<E>&{vars?: Record<string, string | number>, data?: Record<string, string | number>};

// ---- the editor: what is used of CodeMirror 5

interface Spot {
  line: number;
  ch: number;
  outside?: boolean;
}

interface TextMark {
  clear(): void;
}

interface LineHandle {
  text: string;
}

interface CodeEditor {
  getInputField(): HTMLElement;
  getWrapperElement(): HTMLElement;
  on(name: "renderLine", call: (code: CodeEditor, line: LineHandle, element: HTMLElement) => void): void;
  on(name: "change", call: () => void): void;
  getValue(): string;
  setValue(text: string): void;
  getLine(line: number): string;
  lineCount(): number;
  coordsChar(place: {left: number, top: number}, mode: "window"): Spot;
  getCursor(): Spot;
  setCursor(at: Spot): void;
  showHint(options: {completeSingle: boolean, hint(code: CodeEditor): Hints}): void;
  clearHistory(): void;
  scrollTo(x: number, y: number): void;
  scrollIntoView(at: Spot, margin: number): void;
  getScrollInfo(): {clientHeight: number};
  operation(call: () => void): void;
  replaceRange(text: string, from: Spot, to: Spot): void;
  addLineClass(line: number, where: "wrap", name: string): LineHandle;
  removeLineClass(line: LineHandle, where: "wrap", name: string): void;
  clearGutter(name: string): void;
  setGutterMarker(line: number, name: string, element: HTMLElement): void;
  markText(from: Spot, to: Spot, options: {className: string, title: string}): TextMark;
  refresh(): void;
  focus(): void;
}

interface Hints {
  list: string[];
  from: Spot;
  to: Spot;
}

// A line as a mode reads it.
interface LineStream {
  sol(): boolean;
  next(): string | void;
  eatSpace(): boolean;
  skipToEnd(): void;
  current(): string;
  match(what: string | RegExp): boolean | RegExpMatchArray | null;
}

interface ModeState {
  head: string;
  fresh: boolean;
}

interface Mode {
  startState(): ModeState;
  token(stream: LineStream, state: ModeState): string | null;
  lineComment: string;
}

interface EditorOptions {
  mode: string;
  gutters: string[];
  extraKeys: Record<string, string | false | (() => void)>;
  indentUnit: number;
  tabSize: number;
  viewportMargin: number;
  lineNumbers: boolean;
  matchBrackets: boolean;
  autoCloseBrackets: boolean;
  styleActiveLine: boolean;
  lineWrapping: boolean;
}

interface Window {
  CodeMirror: {
    (place: HTMLElement, options: EditorOptions): CodeEditor;
    defineMode(name: string, mode: () => Mode): void;
  };
}
