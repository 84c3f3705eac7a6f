// The words of a `.pop` file, token by token: for the editor's colours, and for a listing without an editor.
const HEAD_WORDS = [
  "format",
  "family",
  "for",
  "variables",
  "predicate",
  "assume",
  "combine",
  "leaf",
  "states",
  "inputs",
  "helpers",
  "yes",
  "no",
  "computes",
  "layers",
  "layer",
  "when",
  "keeps",
];
const HEADS = new RegExp(`^(?:${HEAD_WORDS.join("|")})(?![A-Za-z0-9_.:])`);
const NODES = /^(?:open|present|twin|trap|siphon|first|split|lin|residue|missing|rest)(?![A-Za-z0-9_.])/;
const NAME = /^[A-Za-z0-9_'.^~@$%](?:[A-Za-z0-9_'.^~@$%]|-(?!>))*/;

/** @returns {Mode} */
export const popMode = () => ({
  startState: () => ({head: "", fresh: true}),
  token(stream, state) {
    if (stream.sol()) state.fresh = true;
    if (stream.eatSpace()) return null;
    if (stream.match("#")) {
      stream.skipToEnd();
      return "comment";
    }
    if (stream.match(/^[│├└─]+/)) return "comment";
    const fresh = state.fresh;
    state.fresh = false;
    if (fresh) {
      state.head = "";
      if (stream.match(HEADS)) {
        state.head = stream.current();
        return "keyword";
      }
      if (stream.match(/^[A-Za-z]+(?=:)/) || stream.match(/^by(?= \[)/)) return "attribute";
    }
    if (state.head === "when" && stream.match(/^(?:true|false)\b/)) return "atom";
    if (stream.match("->")) return "operator";
    if (stream.match(/^"(?:[^"\\]|\\.)*"?/)) return "string";
    if (["computes", "predicate", "assume"].includes(state.head)) {
      if (stream.match(/^(?:mod)\b/)) return "keyword";
      if (stream.match(/^[0-9]+/)) return "number";
      if (stream.match(/^[A-Za-z_][A-Za-z0-9_]*/)) return "variable-2";
      stream.next();
      return "operator";
    }
    if (!state.head && stream.match(NODES)) return "builtin";
    if (stream.match("?")) return "error";
    if (stream.match(/^[A-Za-z_][A-Za-z0-9_]*(?=[({[])/)) return "def";
    if (stream.match(NAME)) return /^[0-9]+$/.test(stream.current()) ? "number" : "variable";
    stream.next();
    return "operator";
  },
  lineComment: "#",
});
