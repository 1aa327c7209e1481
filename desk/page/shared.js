// What is shown just now. The modules read it, and desk.js puts it in its place.
export const desk = {
  at: "top", // the design
  view: "changes", // what the panel shows
  state: null, // the tree of designs, and what others have done
  design: null, // all of the design but its map
  office: null, // what the store as a field office has ahead and behind, if it is a clone
  feature: null, // the feature in the panel
  edits: false, // whether its form is open
  late: false, // whether an edit that came too late is shown beside what others have made
  asked: {}, // what was asked for last: another object each time
  choices: new Map(), // for conflicts
  made: [], // earlier choices, to be taken back
};

export const WORDS = { added: "added", changed: "changed", removed: "removed", conflict: "in conflict",
  same: "as in the base" };
export const MOST_ROWS = 500;
